"""What point proofs, range proofs and change proofs are, written plainly, for the scripts beside this one: how they are
made, spelled, read and checked.

It follows docs/definitions.md and docs/formats.md and nothing of the program. A key of the trie is a tuple of tokens here,
of `width` bits each. Run as a script it compares itself with proofs that are written out by hand, byte for byte.
"""
import hashlib
import os
from dataclasses import dataclass, replace

from plain import KEY, VALUE, key_form, laid, root_of, sized, tokens_of, uvarint, value_digest

NODE_BITS = 2_048
VERSION, RANGE, CHANGES, POINT = 1, 1, 2, 4
ZERO = bytes(32)


@dataclass(frozen=True)
class Node:
    """A node as a path shows it: its key, perhaps a digest, and its children as index and ID."""

    key: tuple
    digest: "bytes | None"
    children: tuple


@dataclass(frozen=True)
class PointProof:
    """The value at a key, or None, and the nodes of a path."""

    value: "bytes | None"
    path: tuple


@dataclass(frozen=True)
class Range:
    """From a byte string to a byte string, both among them. None bounds nothing."""

    start: "bytes | None" = None
    end: "bytes | None" = None

    def holds(self, key):
        return (self.start is None or self.start <= key) and (self.end is None or key <= self.end)


@dataclass(frozen=True)
class RangeProof:
    """Pairs of a range, whether others of it follow, and the paths of its start and of the end up to which they tell."""

    cut: bool
    pairs: tuple
    start: tuple
    end: tuple


@dataclass(frozen=True)
class ChangeProof:
    """Changes of a range, each a key with its new value, or None where it is deleted; whether others of it follow; and the
    paths of its start and of the end up to which they tell, in the later map."""

    cut: bool
    changes: tuple
    start: tuple
    end: tuple


# The trie of a map, and paths in it.


def sha(some):
    return hashlib.sha256(some).digest()


def digest_form(digest):
    return b"\0" if digest is None else b"\1" + sized(digest)


def children_form(children):
    return uvarint(len(children)) + b"".join(uvarint(index) + some for index, some in children)


def node_string(node, width):
    """What is hashed for a node: children, digest, key."""
    return children_form(node.children) + digest_form(node.digest) + key_form(node.key, width)


def begins(front, key):
    return key[: len(front)] == front


def common(keys):
    """The longest run of tokens that begins every key."""
    return os.path.commonprefix(list(keys))


def nodes_of(pairs, width):
    """The nodes of a map's trie by their keys: the keys of the map, and the common run of every two of them."""
    digests = {tokens_of(key, width): value_digest(value) for key, value in pairs.items()}
    keys = sorted(digests)
    # the common run of two keys is that of two neighbours between them
    keys = sorted({*keys, *(common(it) for it in zip(keys, keys[1:]))})
    parents, way = {}, []
    for key in keys:
        # the keys that begin this one stand before it, the longest of them last
        while way and not begins(way[-1], key):
            way.pop()
        parents[key] = way[-1] if way else None
        way.append(key)
    nodes, below = {}, {key: [] for key in keys}
    # children have their IDs before their parents
    for key in reversed(keys):
        nodes[key] = Node(key, digests.get(key), tuple(sorted(below[key])))
        if parents[key] is not None:
            below[parents[key]].append((key[len(parents[key])], sha(node_string(nodes[key], width))))
    return nodes


def path_in(nodes, wanted):
    """The nodes whose key begins the wanted one, by length, and then the child of the last toward it.

    Where no node's key begins it, this is the root node alone.
    """
    most = min(len(wanted), max(map(len, nodes), default=0))
    on_the_way = [nodes[wanted[:count]] for count in range(most + 1) if wanted[:count] in nodes]
    if not on_the_way:
        return tuple(nodes[key] for key in sorted(nodes)[:1])
    deepest = on_the_way[-1].key
    slot = wanted[: len(deepest) + 1]
    inside = [key for key in nodes if key[: len(slot)] == slot] if deepest != wanted else []
    return (*on_the_way, *(nodes[key] for key in sorted(inside, key=len)[:1]))


def prove(pairs, key, width=4, nodes=None):
    """The proof of a key in a map. Where many are made, the nodes may be handed in."""
    nodes = nodes_of(pairs, width) if nodes is None else nodes
    return PointProof(pairs.get(key), path_in(nodes, tokens_of(key, width)))


def pairs_in(pairs, bounds):
    """The pairs that a map has in a range, in the order of their keys."""
    return tuple(it for it in sorted(pairs.items()) if bounds.holds(it[0]))


def taken(pairs, count, size):
    """As many of the pairs, or of the changes, as a count and a number of bytes allow, but one at least."""
    used = 0
    for place, (key, value) in enumerate(pairs):
        used += len(key) + len(value or b"")
        if place and (place >= count or used > size):
            return pairs[:place]
    return pairs


def reached(asked, cut, pairs):
    """The range that pairs tell of: what was asked for, or where they are cut up to the last one."""
    return replace(asked, end=pairs[-1][0]) if cut and pairs else asked


def path_to(nodes, bound, width):
    """The path of a bound, which has no nodes where nothing bounds."""
    return () if bound is None else path_in(nodes, tokens_of(bound, width))


def prove_range(pairs, asked, count, size, width=4, nodes=None):
    """The proof of a range of a map, in which so many pairs of so many bytes may be listed."""
    nodes = nodes_of(pairs, width) if nodes is None else nodes
    inside = pairs_in(pairs, asked)
    some = taken(inside, count, size)
    cut = some != inside
    bounds = reached(asked, cut, some)
    return RangeProof(cut, some, path_to(nodes, bounds.start, width), path_to(nodes, bounds.end, width))


def changed(former, later, asked=Range()):
    """The changes in a range that lead from one map to another, in the order of their keys."""
    keys = [key for key in {*former, *later} if former.get(key) != later.get(key) and asked.holds(key)]
    return tuple((key, later.get(key)) for key in sorted(keys))


def prove_changes(former, later, asked, count, size, width=4, nodes=None):
    """The proof of what changed in a range from one map to another, in which so many changes of so many bytes may be listed.
    The nodes are those of the later one."""
    nodes = nodes_of(later, width) if nodes is None else nodes
    inside = changed(former, later, asked)
    some = taken(inside, count, size)
    cut = some != inside
    bounds = reached(asked, cut, some)
    return ChangeProof(cut, some, path_to(nodes, bounds.start, width), path_to(nodes, bounds.end, width))


# Bytes.


def node_form(node, width):
    return key_form(node.key, width) + digest_form(node.digest) + children_form(node.children)


def path_form(path, width):
    return uvarint(len(path)) + b"".join(node_form(it, width) for it in path)


def spelled(proof, width=4):
    """The bytes of a point proof: version, kind, the value behind its flag, the path."""
    return bytes([VERSION, POINT]) + digest_form(proof.value) + path_form(proof.path, width)


def pairs_form(pairs):
    return uvarint(len(pairs)) + b"".join(sized(key) + sized(value) for key, value in pairs)


def spelled_range(proof, width=4):
    """The bytes of a range proof: version, kind, whether it is cut, the pairs, both paths."""
    paths = path_form(proof.start, width) + path_form(proof.end, width)
    return bytes([VERSION, RANGE, proof.cut]) + pairs_form(proof.pairs) + paths


def changes_form(changes):
    return uvarint(len(changes)) + b"".join(sized(key) + digest_form(value) for key, value in changes)


def spelled_changes(proof, width=4):
    """The bytes of a change proof: version, kind, whether it is cut, the changes, both paths."""
    paths = path_form(proof.start, width) + path_form(proof.end, width)
    return bytes([VERSION, CHANGES, proof.cut]) + changes_form(proof.changes) + paths


class Wrong(Exception):
    """The first field outside the grammar: what is wrong, and the place of its first byte."""


class Reader:
    """Reads fields from the left."""

    def __init__(self, some):
        self.some, self.at = some, 0

    def bytes(self, count):
        found = self.some[self.at : self.at + count]
        if len(found) != count:
            raise Wrong("Short", self.at)
        self.at += count
        return found

    def byte(self, wanted, kind):
        at = self.at
        if self.bytes(1)[0] != wanted:
            raise Wrong(kind, at)

    def flag(self):
        at, found = self.at, self.bytes(1)[0]
        if found > 1:
            raise Wrong("Flag", at)
        return found == 1

    def number(self):
        """A number of at most ten bytes, in its shortest spelling. Of several faults the first of these is told."""
        rest = self.some[self.at : self.at + 10]
        count = next((n for n, byte in enumerate(rest, 1) if byte < 128), None)
        nine = len(rest) == 10 and all(it > 127 for it in rest[:9])
        if nine and rest[9] > 1:
            raise Wrong("Varint Long", self.at)
        if count is None:
            raise Wrong("Varint Short", self.at)
        if count > 1 and rest[count - 1] == 0:
            raise Wrong("Varint NotShortest", self.at)
        self.at += count
        return sum((byte & 127) << 7 * n for n, byte in enumerate(rest[:count]))

    def sized(self, limit, kind):
        at, count = self.at, self.number()
        if count > limit:
            raise Wrong(kind, at)
        return self.bytes(count)

    def maybe(self, limit, kind):
        return self.sized(limit, kind) if self.flag() else None

    def key(self, width):
        at, bits = self.at, self.number()
        if bits > NODE_BITS:
            raise Wrong("LongKey", at)
        if bits % width:
            raise Wrong("Tokens", at)
        at, some = self.at, self.bytes((bits + 7) // 8)
        text = "".join(f"{byte:08b}" for byte in some)
        if "1" in text[bits:]:
            raise Wrong("Padding", at)
        return tuple(int(text[n : n + width], 2) for n in range(0, bits, width))

    def children(self, width):
        found, low = [], 0
        for _ in range(self.number()):
            at, index = self.at, self.number()
            if index >= 1 << width:
                raise Wrong("Index", at)
            if index < low:
                raise Wrong("Order", at)
            found.append((index, self.bytes(32)))
            low = index + 1
        return tuple(found)

    def node(self, width):
        return Node(self.key(width), self.maybe(32, "LongDigest"), self.children(width))

    def path(self, width):
        found = []
        for _ in range(self.number()):
            found.append(self.node(width))
        return tuple(found)

    def pairs(self):
        found = []
        for _ in range(self.number()):
            found.append((self.sized(KEY, "LongKey"), self.sized(VALUE, "LongValue")))
        return tuple(found)

    def changes(self):
        found = []
        for _ in range(self.number()):
            found.append((self.sized(KEY, "LongKey"), self.maybe(VALUE, "LongValue")))
        return tuple(found)

    def head(self, kind):
        self.byte(VERSION, "Version")
        self.byte(kind, "Kind")

    def end(self):
        if self.at != len(self.some):
            raise Wrong("Trailing", self.at)


def read(some, width=4):
    """The point proof that bytes stand for. Raises Wrong where they stand for none."""
    reader = Reader(some)
    reader.head(POINT)
    proof = PointProof(reader.maybe(VALUE, "LongValue"), reader.path(width))
    reader.end()
    return proof


def read_range(some, width=4):
    """The range proof that bytes stand for. Raises Wrong where they stand for none."""
    reader = Reader(some)
    reader.head(RANGE)
    proof = RangeProof(reader.flag(), reader.pairs(), reader.path(width), reader.path(width))
    reader.end()
    return proof


def read_changes(some, width=4):
    """The change proof that bytes stand for. Raises Wrong where they stand for none."""
    reader = Reader(some)
    reader.head(CHANGES)
    proof = ChangeProof(reader.flag(), reader.changes(), reader.path(width), reader.path(width))
    reader.end()
    return proof


# The check.


@dataclass(frozen=True)
class Val:
    """The digest of the value at a key."""

    place: tuple
    digest: bytes

    def position(self):
        return self.place


@dataclass(frozen=True)
class Stub:
    """The ID of all that lies below a slot, which is a node's key and one token more."""

    place: tuple
    id: bytes

    def position(self):
        return self.place[:-1]


@dataclass(frozen=True)
class Claim:
    """A proof as it is checked, whatever its form: the keys of its entries, the range up to where they tell, the pairs that
    are to be all that a map has there, two paths, and the place of the first entry that changes nothing, or None."""

    keys: tuple
    reached: Range
    pairs: tuple
    start: tuple
    end: tuple
    idle: "int | None" = None


def keys_of(entries):
    return tuple(key for key, _ in entries)


def point_claim(key, proof):
    """A proof of a key as one of the range from it to it, with one path."""
    pairs = () if proof.value is None else ((key, proof.value),)
    return Claim(keys_of(pairs), Range(key, key), pairs, proof.path, ())


def range_claim(asked, proof):
    return Claim(keys_of(proof.pairs), reached(asked, proof.cut, proof.pairs), proof.pairs, proof.start, proof.end)


def change_claim(asked, local, proof):
    """A change proof by one who has a local map: the pairs of this up to where the changes tell, once these are made. A
    change is idle where the local map has at its key already what it makes of it."""
    bounds, after = reached(asked, proof.cut, proof.changes), laid(local, dict(proof.changes))
    idle = first_place(proof.changes, lambda it: local.get(it[0]) == it[1])
    return Claim(keys_of(proof.changes), bounds, pairs_in(after, bounds), proof.start, proof.end, idle)


def items_of(claim, width):
    """The items of a claim: the values of its pairs, and what its nodes tell beside the range.

    A node whose key is not in the range gives its digest. A child gives a stub where all keys with its slot in front lie
    before the range, or all behind it, and its slot begins the key of no node of the paths. All else is dropped.
    """
    start, end = (None if it is None else tokens_of(it, width) for it in (claim.reached.start, claim.reached.end))

    def is_before(place):
        return start is not None and place < start

    def is_behind(place):
        return end is not None and end < place

    def is_beside(slot):
        return (is_before(slot) and not begins(slot, start)) or is_behind(slot)

    nodes = (*claim.start, *claim.end)
    found = [Val(tokens_of(key, width), value_digest(value)) for key, value in claim.pairs]
    for node in nodes:
        if node.digest is not None and (is_before(node.key) or is_behind(node.key)):
            found.append(Val(node.key, node.digest))
        for index, some in node.children:
            slot = (*node.key, index)
            if is_beside(slot) and not any(begins(slot, it.key) for it in nodes):
                found.append(Stub(slot, some))
    # a node that both paths have is one node
    return sorted({*found}, key=lambda it: it.place)


def id_of_items(items, width, hashed=sha):
    """The ID of an item list: 32 zeros for none, else the SHA-256 of the top node's string.

    The node's key is the common run of all positions. A child is the ID of the stub of its slot, or that of the items
    below the slot. Another hash may be handed in.
    """
    if not items:
        return ZERO
    top = common(it.position() for it in items)
    here = [it.digest for it in items if isinstance(it, Val) and it.place == top]
    below = {}
    for it in items:
        if len(it.place) > len(top):
            below.setdefault(it.place[len(top)], []).append(it)
    children = []
    for token, some in sorted(below.items()):
        stubs = [it.id for it in some if isinstance(it, Stub) and it.place == (*top, token)]
        children.append((token, stubs[0] if stubs else id_of_items(some, width, hashed)))
    return hashed(node_string(Node(top, here[0] if here else None, tuple(children)), width))


def rises(key, other):
    return key < other


def extends(node, other):
    return begins(node.key, other.key) and len(node.key) < len(other.key)


def first_break(some, follows):
    """The place of the first one that does not follow the one before it, or None."""
    return next((place for place, it in enumerate(zip(some, some[1:]), 1) if not follows(*it)), None)


def first_place(some, test):
    """The first place where a test holds, or None."""
    return next((place for place, it in enumerate(some) if test(it)), None)


def refusal(root, asked, claim, width=4):
    """Why a claim on a range is refused, as the text of its first cause, or None where it is accepted.

    The nodes of both paths are counted through, those of the start first.
    """
    shown, behind = {it.key: it for it in claim.start}, len(claim.start)
    places = [
        ("unsorted", 0, first_break(claim.keys, rises)),
        ("outside", 0, first_place(claim.keys, lambda it: not asked.holds(it))),
        ("path order", 0, first_break(claim.start, extends)),
        ("path order", behind, first_break(claim.end, extends)),
        ("paths differ", behind, first_place(claim.end, lambda it: shown.get(it.key, it) != it)),
        ("idle", 0, claim.idle),
    ]
    for cause, before, place in places:
        if place is not None:
            return f"{cause} {before + place}"
    have = id_of_items(items_of(claim, width), width)
    return None if have == root else f"root differs {have.hex()} {root.hex()}"


def answer(root, key, some, width=4):
    """Whether bytes are accepted as a proof of a key, and what is told: how many pairs they show, or the cause."""
    try:
        claim = point_claim(key, read(some, width))
    except Wrong as fault:
        return False, f"bytes at {fault.args[1]}"
    return told(claim, refusal(root, Range(key, key), claim, width))


def range_answer(root, asked, some, width=4):
    """Whether bytes are accepted as a proof of a range, and what is told."""
    try:
        claim = range_claim(asked, read_range(some, width))
    except Wrong as fault:
        return False, f"bytes at {fault.args[1]}"
    return told(claim, refusal(root, asked, claim, width))


def change_answer(root, asked, local, some, width=4):
    """Whether bytes are accepted as a change proof by one who has a local map, and what is told."""
    try:
        claim = change_claim(asked, local, read_changes(some, width))
    except Wrong as fault:
        return False, f"bytes at {fault.args[1]}"
    return told(claim, refusal(root, asked, claim, width))


def told(claim, cause):
    return cause is None, cause or f"ok {len(claim.keys)}"


# Proofs that are written out by hand.


def hashed(*parts):
    """The SHA-256 of parts in hexadecimal, in which blanks count for nothing."""
    return hashlib.sha256(bytes.fromhex("".join(parts))).hexdigest()


C, E = hashed("00 01 01 61 08 12"), hashed("00 01 01 62 08 13")
P, Q = hashed("00 01 01 61 10 12 34"), hashed("00 01 01 62 08 50")
A, B = hashed("00 01 01 61 08 0a"), hashed("00 01 01 62 08 0b")
ONE = {b"\x6b": b"\x76"}
TWO = {b"\x12": b"\x61", b"\x13": b"\x62"}
APART = {b"\x12\x34": b"\x61", b"\x50": b"\x62"}
NEAR = {b"\x0a": b"\x61", b"\x0b": b"\x62"}
NEAR_ROOT = hashed("02 0a", A, "0b", B, "00 04 00")

# A map, its root, a key, and the bytes of the proof, at factor 16.
WORKED = [
    (ONE, hashed("00 01 01 76 08 6b"), "6b", "01 04 01 01 76 01 08 6b 01 01 76 00"),
    (ONE, hashed("00 01 01 76 08 6b"), "6c", "01 04 00 01 08 6b 01 01 76 00"),
    (TWO, hashed("02 02", C, "03", E, "00 04 10"), "14", f"01 04 00 01 04 10 00 02 02 {C} 03 {E}"),
    (APART, hashed("02 01", P, "05", Q, "00 00"), "12ff", f"01 04 00 02 00 00 02 01 {P} 05 {Q} 10 12 34 01 01 61 00"),
    ({}, "00" * 32, "6b", "01 04 00 00"),
]

# The pairs of NEAR, and the path of 0a and of all keys that it begins: the node above both keys, and that of 0a.
PAIR, OTHER = "01 0a 01 61", "01 0b 01 62"
ABOVE, BELOW = f"04 00 00 02 0a {A} 0b {B}", "08 0a 01 01 61 00"
WAY, ABOVE_ALONE = f"02 {ABOVE} {BELOW}", f"01 {ABOVE}"

# A map, its root, a start and an end, how many pairs and bytes are allowed, and the bytes of the proof, at factor 16.
WORKED_RANGES = [
    (NEAR, NEAR_ROOT, ("*", "*"), 10, 100, f"01 01 00 02 {PAIR} {OTHER} 00 00"),
    (NEAR, NEAR_ROOT, ("*", "*"), 10, 1, f"01 01 01 01 {PAIR} 00 {WAY}"),
    (NEAR, NEAR_ROOT, ("*", "*"), 1, 100, f"01 01 01 01 {PAIR} 00 {WAY}"),
    (NEAR, NEAR_ROOT, ("*", "*"), 10, 3, f"01 01 01 01 {PAIR} 00 {WAY}"),
    (NEAR, NEAR_ROOT, ("*", "*"), 2, 4, f"01 01 00 02 {PAIR} {OTHER} 00 00"),
    (NEAR, NEAR_ROOT, ("0a", "0a"), 10, 1000, f"01 01 00 01 {PAIR} {WAY} {WAY}"),
    (NEAR, NEAR_ROOT, ("0a01", "0a02"), 10, 100, f"01 01 00 00 {WAY} {WAY}"),
    (NEAR, NEAR_ROOT, ("-", "0a"), 10, 100, f"01 01 00 01 {PAIR} 01 {ABOVE} {WAY}"),
    (NEAR, NEAR_ROOT, ("0b01", "*"), 10, 100, f"01 01 00 00 02 {ABOVE} 08 0b 01 01 62 00 00"),
    (ONE, hashed("00 01 01 76 08 6b"), ("*", "*"), 1, 1, "01 01 00 01 01 6b 01 76 00 00"),
    ({}, "00" * 32, ("*", "*"), 1, 1, "01 01 00 00 00 00"),
    ({}, "00" * 32, ("0a", "0b"), 4096, 2_097_152, "01 01 00 00 00 00"),
]

# A start and an end, bytes that are no proof of this range of NEAR, and why.
REFUSED_RANGES = [
    (("*", "*"), f"01 01 00 02 {OTHER} {PAIR} 00 00", "unsorted 1"),
    (("*", "*"), f"01 01 00 03 {PAIR} {OTHER} {OTHER} 00 00", "unsorted 2"),
    (("0a", "0a"), f"01 01 00 02 {PAIR} {OTHER} 00 00", "outside 1"),
    (("0b", "*"), f"01 01 00 02 {PAIR} {OTHER} {WAY} 00", "outside 0"),
    (("0a", "0a"), f"01 01 00 01 {PAIR} 02 {BELOW} {BELOW} 00", "path order 1"),
    (("0a", "0a"), f"01 01 00 01 {PAIR} {WAY} 02 {BELOW} {ABOVE}", "path order 3"),
    (("0a", "0a"), f"01 01 00 01 {PAIR} {WAY} 02 {ABOVE} 08 0a 01 01 63 00", "paths differ 3"),
    (("0a", "0a"), f"01 01 00 01 {PAIR} {WAY} 01 04 00 00 01 0a {A}", "paths differ 2"),
    # of several causes the first
    (("0a", "0a"), f"01 01 00 02 {OTHER} {PAIR} 00 00", "unsorted 1"),
    (("0a", "0a"), f"01 01 00 01 {OTHER} 02 {BELOW} {BELOW} 00", "outside 0"),
    (("0a", "0a"), f"01 01 00 01 {PAIR} {WAY} 03 {ABOVE} 08 0a 01 01 63 00 {BELOW}", "path order 4"),
    # a pair is left out, is not so, or is said to be the last
    (("*", "*"), f"01 01 00 01 {PAIR} 00 00", f"root differs {A} {NEAR_ROOT}"),
    (("*", "*"), f"01 01 00 01 {OTHER} 00 00", f"root differs {B} {NEAR_ROOT}"),
    (("*", "*"), "01 01 00 00 00 00", f"root differs {'00' * 32} {NEAR_ROOT}"),
    (("*", "*"), f"01 01 00 01 {PAIR} 00 {WAY}", f"root differs {A} {NEAR_ROOT}"),
    (("0a", "0a"), f"01 01 00 00 {WAY} {WAY}", f"root differs {hashed('01 0b', B, '00 04 00')} {NEAR_ROOT}"),
    # a list that is cut and has no pair tells of the whole range
    (("*", "*"), "01 01 01 00 00 00", f"root differs {'00' * 32} {NEAR_ROOT}"),
]

# A map and a later one, a start and an end, how many changes and bytes are allowed, and the bytes of the proof, at factor 16.
LEFT = {b"\x0b": b"\x62"}
WORKED_CHANGES = [
    ({b"\x0a": b"\x61"}, {b"\x0a": b"\x61", b"\x0b": b"\x63"}, ("*", "*"), 10, 1000, "01 02 00 01 01 0b 01 01 63 00 00"),
    (NEAR, NEAR, ("*", "*"), 10, 1000, "01 02 00 00 00 00"),
    ({}, NEAR, ("*", "*"), 2, 4, "01 02 00 02 01 0a 01 01 61 01 0b 01 01 62 00 00"),
    ({}, NEAR, ("*", "*"), 1, 4, f"01 02 01 01 01 0a 01 01 61 00 {WAY}"),
    ({}, NEAR, ("*", "*"), 2, 3, f"01 02 01 01 01 0a 01 01 61 00 {WAY}"),
    ({}, NEAR, ("0a", "*"), 2, 1, f"01 02 01 01 01 0a 01 01 61 {WAY} {WAY}"),
    ({b"\x0a": b"\x63", b"\x0c": b"\x63"}, NEAR, ("-", "0a"), 10, 1000, f"01 02 00 01 01 0a 01 01 61 01 {ABOVE} {WAY}"),
    # a deletion weighs its key alone, and the paths are those of the later map
    (NEAR, LEFT, ("*", "0a"), 10, 1000, "01 02 00 01 01 0a 00 00 01 08 0b 01 01 62 00"),
    (NEAR, {}, ("*", "*"), 10, 2, "01 02 00 02 01 0a 00 01 0b 00 00 00"),
    (NEAR, {}, ("*", "*"), 10, 1, "01 02 01 01 01 0a 00 00 00"),
    ({**NEAR, b"": b""}, {b"": b"\0"}, ("*", "*"), 2, 2, "01 02 01 02 00 01 01 00 01 0a 00 00 01 00 01 01 00 00"),
]

# The map in which 0a has another value, its root, and that of NEAR with this value.
UNLIKE_MAP, UNLIKE_ID = {b"\x0a": b"\x63"}, hashed("00 01 01 63 08 0a")
UNLIKE_ROOT = hashed("02 0a", UNLIKE_ID, "0b", B, "00 04 00")
PUT, PUT_OTHER, PUT_UNLIKE, DROP_NONE = "01 0a 01 01 61", "01 0b 01 01 62", "01 0a 01 01 63", "01 0c 00"
DIFFERS = f"02 {ABOVE} 08 0a 01 01 63 00"

# A local map and a later one, a start and an end, bytes that are no proof of the changes between them, and why.
REFUSED_CHANGES = [
    ({}, NEAR, ("*", "*"), f"01 02 00 02 {PUT_OTHER} {PUT} 00 00", "unsorted 1"),
    ({}, NEAR, ("*", "*"), f"01 02 00 03 {PUT} {PUT_OTHER} {PUT_OTHER} 00 00", "unsorted 2"),
    (LEFT, NEAR, ("*", "0a"), f"01 02 00 02 {PUT} {DROP_NONE} 00 {WAY}", "outside 1"),
    ({}, NEAR, ("0b", "*"), f"01 02 00 02 {PUT} {PUT_OTHER} {WAY} 00", "outside 0"),
    (LEFT, NEAR, ("0a", "0a"), f"01 02 00 01 {PUT} 02 {BELOW} {BELOW} 00", "path order 1"),
    (LEFT, NEAR, ("0a", "0a"), f"01 02 00 01 {PUT} {WAY} 02 {BELOW} {ABOVE}", "path order 3"),
    (LEFT, NEAR, ("0a", "0a"), f"01 02 00 01 {PUT} {WAY} {DIFFERS}", "paths differ 3"),
    (LEFT, NEAR, ("0a", "0a"), f"01 02 00 01 {PUT} {WAY} 01 04 00 00 01 0a {A}", "paths differ 2"),
    # a put of the value that is there, and a deletion of a key that is not
    (LEFT, NEAR, ("*", "*"), f"01 02 00 02 {PUT} {PUT_OTHER} 00 00", "idle 1"),
    (NEAR, NEAR, ("*", "*"), f"01 02 00 01 {PUT} 00 00", "idle 0"),
    (NEAR, NEAR, ("*", "*"), f"01 02 00 01 {DROP_NONE} 00 00", "idle 0"),
    (LEFT, NEAR, ("*", "*"), f"01 02 00 02 {PUT} {DROP_NONE} 00 00", "idle 1"),
    # of several causes the first
    (NEAR, NEAR, ("0b", "*"), f"01 02 00 02 {PUT_OTHER} {PUT} 00 00", "unsorted 1"),
    (NEAR, NEAR, ("0b", "*"), f"01 02 00 01 {PUT} 02 {BELOW} {BELOW} 00", "outside 0"),
    (NEAR, NEAR, ("0a", "0a"), f"01 02 00 01 {PUT} 02 {BELOW} {BELOW} 00", "path order 1"),
    (NEAR, NEAR, ("0a", "0a"), f"01 02 00 01 {PUT} {WAY} {DIFFERS}", "paths differ 3"),
    (NEAR, {}, ("*", "*"), f"01 02 00 02 {PUT_UNLIKE} {PUT_OTHER} 00 00", "idle 1"),
    # a change is left out, is not so, or is said to be the last
    ({}, NEAR, ("*", "*"), f"01 02 00 01 {PUT} 00 00", f"root differs {A} {NEAR_ROOT}"),
    ({}, NEAR, ("*", "*"), f"01 02 00 02 {PUT_UNLIKE} {PUT_OTHER} 00 00", f"root differs {UNLIKE_ROOT} {NEAR_ROOT}"),
    ({}, NEAR, ("*", "*"), "01 02 00 00 00 00", f"root differs {'00' * 32} {NEAR_ROOT}"),
    ({}, NEAR, ("*", "*"), f"01 02 00 01 {PUT} 00 {WAY}", f"root differs {A} {NEAR_ROOT}"),
    (NEAR, {}, ("*", "*"), "01 02 00 01 01 0a 00 00 00", f"root differs {B} {'00' * 32}"),
    # a true proof by one who has another former map
    (UNLIKE_MAP, NEAR, ("*", "*"), f"01 02 00 01 {PUT_OTHER} 00 00", f"root differs {UNLIKE_ROOT} {NEAR_ROOT}"),
    # a list that is cut and has no change tells of the whole range
    ({}, NEAR, ("*", "*"), "01 02 01 00 00 00", f"root differs {'00' * 32} {NEAR_ROOT}"),
]

# Such maps and bytes that are accepted, though no proof is made so: nodes that tell nothing are left out, a list is called cut
# that is whole, and what the local map has outside of the range differs.
OTHER_CHANGES = [
    (LEFT, NEAR, ("0a", "0a"), f"01 02 00 01 {PUT} {ABOVE_ALONE} 00"),
    (LEFT, NEAR, ("*", "*"), f"01 02 01 01 {PUT} 00 {WAY}"),
    ({b"\x0a": b"\x61"}, NEAR, ("*", "*"), f"01 02 01 01 {PUT_OTHER} 00 00"),
    (NEAR, NEAR, ("*", "*"), "01 02 01 00 00 00"),
    (UNLIKE_MAP, NEAR, ("0b", "*"), f"01 02 00 01 {PUT_OTHER} {ABOVE_ALONE} 00"),
]

# Bytes that are no proof at factor 16, with what is wrong and where.
FAULTS = [
    ("", "Short", 0),
    ("02", "Version", 0),
    ("01", "Short", 1),
    ("01 01 00 00 00", "Kind", 1),
    ("01 04", "Short", 2),
    ("01 04 02", "Flag", 2),
    ("01 04 01", "Varint Short", 3),
    ("01 04 01 80 00", "Varint NotShortest", 3),
    ("01 04 01" + "ff" * 9 + "02", "Varint Long", 3),
    ("01 04 01 81 80 10", "LongValue", 3),
    ("01 04 01 02 76", "Short", 4),
    ("01 04 00", "Varint Short", 3),
    ("01 04 00 01", "Varint Short", 4),
    ("01 04 00 01 84 10", "LongKey", 4),
    ("01 04 00 01 07 12", "Tokens", 4),
    ("01 04 00 01 08", "Short", 5),
    ("01 04 00 01 04 11", "Padding", 5),
    ("01 04 00 01 08 6b", "Short", 6),
    ("01 04 00 01 08 6b 03", "Flag", 6),
    ("01 04 00 01 08 6b 01 21", "LongDigest", 7),
    ("01 04 00 01 08 6b 01 02 76", "Short", 8),
    ("01 04 00 01 08 6b 00", "Varint Short", 7),
    ("01 04 00 01 08 6b 00 01 10", "Index", 8),
    ("01 04 00 01 08 6b 00 01 02" + "00" * 31, "Short", 9),
    ("01 04 00 01 08 6b 00 02 02" + "00" * 32 + "02", "Order", 41),
    ("01 04 00 01 08 6b 00 02 02" + "00" * 32 + "10", "Index", 41),
    ("01 04 00 00 00", "Trailing", 4),
]

# So of range proofs.
RANGE_FAULTS = [
    ("", "Short", 0),
    ("00", "Version", 0),
    ("01", "Short", 1),
    ("01 04 00 00", "Kind", 1),
    ("01 01", "Short", 2),
    ("01 01 02", "Flag", 2),
    ("01 01 00", "Varint Short", 3),
    ("01 01 01 80 00", "Varint NotShortest", 3),
    ("01 01 01" + "ff" * 9 + "02", "Varint Long", 3),
    ("01 01 01" + "ff" * 9 + "01", "Varint Short", 13),
    ("01 01 00 01", "Varint Short", 4),
    ("01 01 00 01 81 02" + "00" * 257 + "00 00 00", "LongKey", 4),
    ("01 01 00 01 02 0a", "Short", 5),
    ("01 01 00 01 01 0a", "Varint Short", 6),
    ("01 01 00 01 01 0a 81 80 10", "LongValue", 6),
    ("01 01 00 01 01 0a 01", "Short", 7),
    ("01 01 00 02 01 0a 00", "Varint Short", 7),
    ("01 01 00 00", "Varint Short", 4),
    ("01 01 00 00 01 84 10", "LongKey", 5),
    ("01 01 00 00 01 04 11", "Padding", 6),
    ("01 01 00 00 00", "Varint Short", 5),
    ("01 01 00 00 00 01 07 12", "Tokens", 6),
    ("01 01 00 00 00 01 08 6b 00 01 10", "Index", 10),
    ("01 01 00 00 00 00 00", "Trailing", 6),
    (f"01 01 00 01 {PAIR} 00 00 00", "Trailing", 10),
]


# And of change proofs.
CHANGE_FAULTS = [
    ("01 01 00 00 00 00", "Kind", 1),
    ("01 02 02", "Flag", 2),
    ("01 02 00", "Varint Short", 3),
    ("01 02 00 01 81 02" + "00" * 257 + "00 00 00", "LongKey", 4),
    ("01 02 00 01 01 0a", "Short", 6),
    ("01 02 00 01 01 0a 02", "Flag", 6),
    ("01 02 00 01 01 0a 01 81 80 10", "LongValue", 7),
    ("01 02 00 01 01 0a 00 00 00 00", "Trailing", 9),
]


def is_read(some, width=4, reads=read):
    try:
        return reads(some, width)
    except Wrong as fault:
        return fault.args


def bound_of(word):
    """A bound by its word: a star for none, a dash for no bytes, or its bytes in hexadecimal."""
    return None if word == "*" else bytes.fromhex(word.replace("-", ""))


def selftest():
    """Whether all of this is as it is written out, and as the plain root of plain.py has it."""
    for pairs, root, key, text in WORKED:
        root, key, some = (bytes.fromhex(it) for it in (root, key, text))
        proof = prove(pairs, key)
        assert root_of(pairs) == root and spelled(proof) == some, (pairs, key, spelled(proof).hex())
        assert read(some) == proof and answer(root, key, some) == (True, f"ok {int(key in pairs)}"), (pairs, key)
        doubled = replace(proof, path=proof.path * 2)
        if proof.path:
            assert answer(root, key, spelled(doubled)) == (False, f"path order {len(proof.path)}"), (pairs, key)
    for text, *fault in FAULTS:
        assert is_read(bytes.fromhex(text)) == tuple(fault), (text, fault, is_read(bytes.fromhex(text)))
    ranges_as_written()
    changes_as_written()
    for width in (1, 2, 4, 8):
        pairs = {bytes([n % 3, n][: n % 3]) + bytes([n // 7]): bytes(n) for n in range(40)}
        proves_all(pairs, width)
        proves_ranges(pairs, width)
        proves_changes(pairs, width)


def ranges_as_written():
    for pairs, root, bounds, count, size, text in WORKED_RANGES:
        root, asked, some = bytes.fromhex(root), Range(*map(bound_of, bounds)), bytes.fromhex(text)
        proof = prove_range(pairs, asked, count, size)
        assert root_of(pairs) == root and spelled_range(proof) == some, (pairs, asked, spelled_range(proof).hex())
        assert read_range(some) == proof, (pairs, asked)
        assert range_answer(root, asked, some) == (True, f"ok {len(proof.pairs)}"), (pairs, asked)
    for bounds, text, cause in REFUSED_RANGES:
        told = range_answer(bytes.fromhex(NEAR_ROOT), Range(*map(bound_of, bounds)), bytes.fromhex(text))
        assert told == (False, cause), (bounds, text, told)
    for text, *fault in RANGE_FAULTS:
        told = is_read(bytes.fromhex(text), reads=read_range)
        assert told == tuple(fault), (text, fault, told)


def changes_as_written():
    for former, later, bounds, count, size, text in WORKED_CHANGES:
        asked, some = Range(*map(bound_of, bounds)), bytes.fromhex(text)
        proof = prove_changes(former, later, asked, count, size)
        assert spelled_changes(proof) == some and read_changes(some) == proof, (former, later, asked, spelled_changes(proof).hex())
        assert change_answer(root_of(later), asked, former, some) == (True, f"ok {len(proof.changes)}"), (former, later, asked)
    for former, later, bounds, text, cause in REFUSED_CHANGES:
        told = change_answer(root_of(later), Range(*map(bound_of, bounds)), former, bytes.fromhex(text))
        assert told == (False, cause), (former, later, bounds, text, told)
    for former, later, bounds, text in OTHER_CHANGES:
        some = bytes.fromhex(text)
        told = change_answer(root_of(later), Range(*map(bound_of, bounds)), former, some)
        assert told == (True, f"ok {len(read_changes(some).changes)}"), (former, later, bounds, text, told)
    for text, *fault in CHANGE_FAULTS:
        told = is_read(bytes.fromhex(text), reads=read_changes)
        assert told == tuple(fault), (text, fault, told)


def proves_all(pairs, width):
    """Each key of a map, and some others, have a proof that is read back and accepted."""
    nodes, root = nodes_of(pairs, width), root_of(pairs, width)
    for key in {*pairs, *(it + b"\0" for it in pairs), *(it[:-1] for it in pairs), b"\xff\xff"}:
        proof = prove(pairs, key, width, nodes)
        some = spelled(proof, width)
        assert read(some, width) == proof, (key, width)
        assert answer(root, key, some, width) == (True, f"ok {int(key in pairs)}"), (key, width)


def proves_ranges(pairs, width):
    """Ranges between keys of a map, and beside them, have proofs that are read back and accepted, whatever is allowed."""
    nodes, root = nodes_of(pairs, width), root_of(pairs, width)
    bounds = [None, b"", *sorted(pairs)[1::9], *(it + b"\0" for it in sorted(pairs)[::11]), b"\xff\xff"]
    for start in bounds:
        for end in bounds:
            if start is not None and end is not None and end < start:
                continue
            asked = Range(start, end)
            inside = sum(map(asked.holds, pairs))
            for count, size in ((100, 10_000), (3, 10_000), (100, 50), (1, 1)):
                proof = prove_range(pairs, asked, count, size, width, nodes)
                some = spelled_range(proof, width)
                assert read_range(some, width) == proof and proof.cut == (len(proof.pairs) < inside), (asked, width)
                assert range_answer(root, asked, some, width) == (True, f"ok {len(proof.pairs)}"), (asked, width)


def proves_changes(pairs, width):
    """What leads from a map and to it, of few pairs and of many, in all keys and in some, whatever is allowed."""
    keys = sorted(pairs)
    other = {**{key: pairs[key] for key in keys[::3]}, keys[1]: b"\1", keys[-1] + b"\0": b"", b"": b"x"}
    bounds = [None, b"", *keys[1::9], b"\xff\xff"]
    for former, later in ((pairs, other), (other, pairs), ({}, pairs), (pairs, {}), (pairs, pairs)):
        root = root_of(later, width)
        for asked in (Range(start, end) for start in bounds for end in bounds if None in (start, end) or start <= end):
            inside = len(changed(former, later, asked))
            for count, size in ((100, 10_000), (3, 10_000), (100, 20), (1, 1)):
                proof = prove_changes(former, later, asked, count, size, width)
                some = spelled_changes(proof, width)
                assert read_changes(some, width) == proof and proof.cut == (len(proof.changes) < inside), (asked, width)
                told = change_answer(root, asked, former, some, width)
                assert told == (True, f"ok {len(proof.changes)}"), (former, later, asked, width, told)


if __name__ == "__main__":
    selftest()
    print("as it is written out")
