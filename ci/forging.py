"""Forged proofs, for ci/proofs and ci/changes: true ones that are changed, those of keys, of ranges and of changes in ten
ways each.

Each way is a function of a case. It gives the changed proof, or its bytes, or None where the case has nothing to change,
and may change what the proof is told for. A change proof is told for a local map, too.
"""
import random
from collections import Counter
from dataclasses import replace

from plain import laid, root_of, tokens_of, value_digest
from plain_proofs import (
    Node, answer, change_answer, nodes_of, pairs_in, path_to, prove, prove_changes, prove_range, range_answer, reached, read,
    read_changes, read_range, spelled, spelled_changes, spelled_range,
)
from proof_lines import changing, point, ranged
from random_maps import random_counts, random_keys, random_map, random_neighbour, random_range


class Case:
    """A map by chance."""

    def __init__(self, rng, at_least=((b"k", b"v"),)):
        self.rng, self.width = rng, rng.choice((1, 2, 4, 4, 8))
        self.pairs = random_map(rng) or dict(at_least)
        self.nodes, self.root = nodes_of(self.pairs, self.width), root_of(self.pairs, self.width)

    def is_forged(self, some):
        """Whether bytes are not those of the true proof."""
        return some != self.spelled(self.true())

    def flipped(self, some):
        bit = self.rng.randrange(8 * len(some))
        return some[: bit // 8] + bytes([some[bit // 8] ^ 1 << bit % 8]) + some[bit // 8 + 1 :]

    def without_a_child(self, node):
        children = list(node.children)
        del children[self.rng.randrange(len(children))]
        return replace(node, children=tuple(children))

    def with_a_changed_child(self, node):
        children, place = list(node.children), self.rng.randrange(len(node.children))
        children[place] = (children[place][0], self.flipped(children[place][1]))
        return replace(node, children=tuple(children))


class PointCase(Case):
    """The true proof of a key of the map, or of another key."""

    def __init__(self, rng):
        super().__init__(rng)
        self.key = rng.choice(random_keys(rng, self.pairs))
        self.proof = self.true()

    def true(self):
        return prove(self.pairs, self.key, self.width, self.nodes)

    def spelled(self, proof):
        return spelled(proof, self.width)

    def line(self, some):
        return point(self.root, self.key, some)

    def answer(self, some):
        return answer(self.root, self.key, some, self.width)

    def is_true(self, some):
        return read(some, self.width).value == self.pairs.get(self.key)

    def with_node(self, at, node):
        path = list(self.proof.path)
        path[at] = node
        return replace(self.proof, path=tuple(path))

    def parent(self):
        """The place of a node with children, or None."""
        some = [at for at, it in enumerate(self.proof.path) if it.children]
        return self.rng.choice(some) if some else None


# Ways to forge a proof of a key.


def a_sibling_dropped(case):
    at = case.parent()
    return None if at is None else case.with_node(at, case.without_a_child(case.proof.path[at]))


def a_digest_changed(case):
    some = [at for at, it in enumerate(case.proof.path) if it.digest]
    parent = case.parent()
    if some and (parent is None or case.rng.random() < 0.5):
        at = case.rng.choice(some)
        node = case.proof.path[at]
        return case.with_node(at, replace(node, digest=case.flipped(node.digest)))
    return None if parent is None else case.with_node(parent, case.with_a_changed_child(case.proof.path[parent]))


def an_index_moved(case):
    at = case.parent()
    if at is None:
        return None
    children = dict(case.proof.path[at].children)
    free = sorted({*range(1 << case.width)} - {*children})
    if not free:
        return None
    some = children.pop(case.rng.choice(sorted(children)))
    children[case.rng.choice(free)] = some
    return case.with_node(at, replace(case.proof.path[at], children=tuple(sorted(children.items()))))


def nodes_swapped(case):
    """Two nodes change their places, or one stands in two places."""
    path, rng = list(case.proof.path), case.rng
    if len(path) > 1 and rng.random() < 0.6:
        a, b = rng.sample(range(len(path)), 2)
        path[a], path[b] = path[b], path[a]
    elif path:
        path.insert(rng.randrange(len(path) + 1), rng.choice(path))
    return replace(case.proof, path=tuple(path)) if path else None


def value_of_another_key(case):
    return replace(case.proof, value=case.rng.choice([None, b"", *case.pairs.values()]))


def a_deeper_node_invented(case):
    """A node behind the last one, on the way to the key or beside it, and perhaps its value as that of the key."""
    value = case.rng.choice([b"forged", bytes(40), *case.pairs.values()])
    wanted = tokens_of(case.key, case.width)
    last = case.proof.path[-1].key if case.proof.path else ()
    keys = [(*last, case.rng.randrange(1 << case.width)), (*wanted, case.rng.randrange(1 << case.width))]
    if len(wanted) > len(last):
        keys += [wanted, wanted[: len(last) + 1]]
    children = case.rng.choice([(), ((0, bytes(32)),)])
    node = Node(case.rng.choice(keys), case.rng.choice([None, value_digest(value)]), children)
    shown = case.rng.choice([value, case.proof.value])
    return replace(case.proof, value=shown, path=(*case.proof.path, node))


def nodes_left_out(case):
    kept = case.rng.random() * case.rng.choice((0, 1))
    return replace(case.proof, path=tuple(it for it in case.proof.path if case.rng.random() < kept))


def path_of_another_map(case):
    """A map with one change: its proof, or its path beside the true value."""
    changed = case.rng.choice([*case.pairs, case.key, b"new"])
    other = {**case.pairs, changed: case.rng.randbytes(3)}
    if case.rng.random() < 0.3:
        other.pop(case.key, None)
    proof = prove(other, case.key, case.width)
    return case.rng.choice([proof, replace(proof, value=case.proof.value)])


def proof_of_another_key(case):
    case.key = case.rng.choice(random_keys(case.rng, case.pairs))
    return case.proof


def a_byte_changed(case):
    some = case.spelled(case.proof)
    return case.rng.choice([case.flipped(some), case.flipped(some), some[: case.rng.randrange(len(some))], some + b"\0"])


POINT_WAYS = [
    a_sibling_dropped,
    a_digest_changed,
    an_index_moved,
    nodes_swapped,
    value_of_another_key,
    a_deeper_node_invented,
    nodes_left_out,
    path_of_another_map,
    proof_of_another_key,
    a_byte_changed,
]


class RangeCase(Case):
    """The true proof of a range of the map, all of it or the first pairs."""

    def __init__(self, rng):
        super().__init__(rng)
        self.asked, self.counts = random_range(rng, self.pairs), random_counts(rng)
        self.proof = self.true()

    def true(self):
        return prove_range(self.pairs, self.asked, *self.counts, self.width, self.nodes)

    def spelled(self, proof):
        return spelled_range(proof, self.width)

    def line(self, some):
        return ranged(self.root, self.asked, some)

    def answer(self, some):
        return range_answer(self.root, self.asked, some, self.width)

    def is_true(self, some):
        """Whether the pairs are all that the map has up to where they tell."""
        proof = read_range(some, self.width)
        return proof.pairs == pairs_in(self.pairs, reached(self.asked, proof.cut, proof.pairs))

    def path(self, bound):
        return path_to(self.nodes, bound, self.width)

    def without(self, places):
        """The proof without one of its pairs, at one of these places."""
        places = [it for it in places if 0 <= it < len(self.proof.pairs)]
        if not places:
            return None
        at = self.rng.choice(places)
        return replace(self.proof, pairs=(*self.proof.pairs[:at], *self.proof.pairs[at + 1 :]))


# Ways to forge a proof of a range.


def first_pair_left_out(case):
    return case.without([0])


def last_pair_left_out(case):
    return case.without([len(case.proof.pairs) - 1])


def inner_pair_left_out(case):
    return case.without(range(1, len(case.proof.pairs) - 1))


def a_pair_added(case):
    """A key by chance or one near a key, mostly in its place among the others."""
    key = case.rng.choice(random_keys(case.rng, case.pairs))
    pairs = [*case.proof.pairs, (key, case.rng.choice([b"", b"forged", bytes(40)]))]
    return replace(case.proof, pairs=tuple(sorted(pairs) if case.rng.random() < 0.9 else pairs))


def a_listed_value_changed(case):
    if not case.proof.pairs:
        return None
    pairs, at = list(case.proof.pairs), case.rng.randrange(len(case.proof.pairs))
    key, value = pairs[at]
    # a value that is a digest of 32 bytes among them
    others = [case.flipped(value), value[:-1], value_digest(value)] if value else [b"\0"]
    pairs[at] = (key, case.rng.choice(others))
    return replace(case.proof, pairs=tuple(pairs))


def cut_set(case):
    return None if case.proof.cut else replace(case.proof, cut=True)


def cut_cleared(case):
    return replace(case.proof, cut=False) if case.proof.cut else None


def reach_moved(case):
    """The pairs end at another key, or the proof is told for another range; the path of the end goes there or stays."""
    if case.rng.random() < 0.4:
        case.asked = random_range(case.rng, case.pairs)
        return case.proof
    pairs = pairs_in(case.pairs, case.asked)
    front = pairs[: case.rng.randrange(len(pairs) + 1)]
    end = case.path(front[-1][0]) if front and case.rng.random() < 0.6 else case.proof.end
    return replace(case.proof, cut=case.rng.random() < 0.8, pairs=front, end=end)


def paths_of_the_other_bound(case):
    proof, other = case.proof, case.path(case.rng.choice(random_keys(case.rng, case.pairs)))
    changes = [{"start": proof.end, "end": proof.start}, {"start": proof.end}, {"end": proof.start}, {"start": ()}, {"end": ()}]
    return replace(proof, **case.rng.choice([*changes, {"start": other}, {"end": other}]))


def nodes_that_differ(case):
    """A node of one path, mostly one that both paths have, is changed in that path alone."""
    shared = {it.key for it in case.proof.start} & {it.key for it in case.proof.end}
    name = case.rng.choice(["start", "end"])
    path = list(getattr(case.proof, name))
    places = [at for at, it in enumerate(path) if it.key in shared or case.rng.random() < 0.1]
    if not places:
        return None
    at = case.rng.choice(places)
    path[at] = changed_node(case, path[at])
    return replace(case.proof, **{name: tuple(path)})


def changed_node(case, node):
    ways = [replace(node, digest=None if node.digest is not None else b"forged")]
    if node.digest:
        ways.append(replace(node, digest=case.flipped(node.digest)))
    if node.children:
        ways += [case.without_a_child(node), case.with_a_changed_child(node)]
    return case.rng.choice(ways)


RANGE_WAYS = [
    first_pair_left_out,
    last_pair_left_out,
    inner_pair_left_out,
    a_pair_added,
    a_listed_value_changed,
    cut_set,
    cut_cleared,
    reach_moved,
    paths_of_the_other_bound,
    nodes_that_differ,
]


class ChangeCase(Case):
    """The true proof of what changed in a range from a former map to the map, all of it or the first changes. It is checked
    by one who has a local map, which is the former one."""

    def __init__(self, rng):
        super().__init__(rng, at_least=())
        self.former = self.local = random_neighbour(rng, self.pairs)
        self.asked, self.counts = random_range(rng, {**self.former, **self.pairs}), random_counts(rng)
        self.proof = self.true()

    def true(self):
        return prove_changes(self.former, self.pairs, self.asked, *self.counts, self.width)

    def is_forged(self, some):
        return self.local != self.former or super().is_forged(some)

    def spelled(self, proof):
        return spelled_changes(proof, self.width)

    def line(self, some):
        return changing(self.root, self.asked, some)

    def answer(self, some):
        return change_answer(self.root, self.asked, self.local, some, self.width)

    def is_true(self, some):
        """Whether the changes lead the local map to the map, up to where they tell."""
        proof = read_changes(some, self.width)
        bounds = reached(self.asked, proof.cut, proof.changes)
        return pairs_in(laid(self.local, dict(proof.changes)), bounds) == pairs_in(self.pairs, bounds)

    def with_change(self, wanted):
        """The proof with one of its changes in another form: what is wanted of its key and its value, None for no change."""
        changes = list(self.proof.changes)
        if not changes:
            return None
        at = self.rng.randrange(len(changes))
        changes[at : at + 1] = wanted(*changes[at])
        return replace(self.proof, changes=tuple(changes))


# Ways to forge a proof of changes.


def an_idle_change_added(case):
    """What the local map has at a key already, mostly in its place among the others."""
    listed = {key for key, _ in case.proof.changes}
    keys = [key for key in (*case.local, *random_keys(case.rng, case.local)) if key not in listed]
    key = case.rng.choice(keys or [b"new"])
    changes = [*case.proof.changes, (key, case.local.get(key))]
    in_order = sorted(changes, key=lambda it: it[0])
    return replace(case.proof, changes=tuple(in_order if case.rng.random() < 0.9 else changes))


def a_change_left_out(case):
    return case.with_change(lambda key, value: [])


def a_change_undone(case):
    """A former value is put again, or the key is deleted again."""
    return case.with_change(lambda key, value: [(key, case.local.get(key))])


def a_new_value_changed(case):
    """Another value, one that is a digest of 32 bytes among them, or none; or one in the place of a deletion."""

    def others(value):
        if value is None:
            return [b"", b"forged", bytes(40)]
        return [None, b"forged", value_digest(value), value[:-1], case.flipped(value) if value else b"\0"]

    return case.with_change(lambda key, value: [(key, case.rng.choice(others(value)))])


def another_former_map(case):
    """The local map is another one: one that differs a little, the later map already, or that of no pairs."""
    changed = {**case.former, case.rng.choice(random_keys(case.rng, case.former)): case.rng.randbytes(3)}
    case.local = case.rng.choice([changed, changed, random_neighbour(case.rng, case.former), case.pairs, {}])
    return case.proof


def a_node_dropped(case):
    return with_a_node(case, lambda node: [])


def a_node_altered(case):
    return with_a_node(case, lambda node: [changed_node(case, node)])


def with_a_node(case, wanted):
    """The proof with one node of a path in another form."""
    names = [it for it in ("start", "end") if getattr(case.proof, it)]
    if not names:
        return None
    name = case.rng.choice(names)
    path = list(getattr(case.proof, name))
    at = case.rng.randrange(len(path))
    path[at : at + 1] = wanted(path[at])
    return replace(case.proof, **{name: tuple(path)})


CHANGE_WAYS = [
    an_idle_change_added,
    a_change_left_out,
    a_change_undone,
    a_new_value_changed,
    another_former_map,
    cut_set,
    cut_cleared,
    a_node_dropped,
    a_node_altered,
    a_byte_changed,
]


# Many of them.

CAUSES = ("bytes at", "unsorted", "outside", "path order", "paths differ", "idle", "root differs")
FORMS = {"point": (PointCase, POINT_WAYS), "range": (RangeCase, RANGE_WAYS), "changes": (ChangeCase, CHANGE_WAYS)}


def forged(rng, make, way):
    """A forged proof made in this way: the case, and the bytes, which are not those of the true proof of what is told."""
    while True:
        case = make(rng)
        found = way(case)
        if found is None:
            continue
        some = found if isinstance(found, bytes) else case.spelled(found)
        if case.is_forged(some):
            return case, some


def judged(form, seed, count):
    """So many forged proofs, as case, line, whether it is accepted, and what is told; and how often each way ended how.

    Asserts of the plain check that none that is accepted is false.
    """
    make, ways = FORMS[form]
    rng, told, tally = random.Random(seed), [], Counter()
    for number in range(count):
        way = ways[number % len(ways)]
        case, some = forged(rng, make, way)
        accepted, what = case.answer(some)
        line = case.line(some)
        assert not accepted or case.is_true(some), (way.__name__, case.pairs, line)
        told.append((case, line, accepted, what))
        tally[way.__name__, "accepted" if accepted else next(it for it in CAUSES if what.startswith(it))] += 1
    return told, tally
