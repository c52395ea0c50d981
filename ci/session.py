"""What a script does to a store and its views, written plainly, for the scripts beside this one.

It follows docs/formats.md and docs/definitions.md and nothing of the program. A view is a path of numbers: that of what
it was made on, and its own number. The store has a path too, the numbers that were committed.
"""
from plain import KEY, VALUE, laid, payload, root_of
from plain_history import held
from plain_proofs import ZERO, Range, prove, prove_changes, prove_range, spelled, spelled_changes, spelled_range

NUMBERS, DEPTH, WEIGHT = 1_000_000, 64, 268_435_456
PAYLOAD, PAIRS = 33_554_432, 1_000_000
# What may be asked of a range: the bytes of a bound, how many pairs or changes, and how many bytes of them.
BOUND, LISTED, SIZE = KEY + 1, 4_096, 2_097_152


class BadLine(Exception):
    """A line outside the grammar."""


class Limit(Exception):
    """A limit that ends a script: its word."""


class View:
    def __init__(self, path, batch):
        self.path, self.batch, self.closed = path, batch, False


def bytes_of(word, limit):
    if word == b"-":
        return b""
    if len(word) % 2 or not word or any(it not in b"0123456789abcdefABCDEF" for it in word) or len(word) > 2 * limit:
        raise BadLine
    return bytes.fromhex(word.decode())


def number_of(word):
    if not word or any(it not in b"0123456789" for it in word) or (word[:1] == b"0" and word != b"0"):
        raise BadLine
    if int(word) >= 1 << 64:
        raise BadLine
    return int(word)


def place_of(word):
    """None for the store, else the number of a view."""
    return None if word == b"db" else number_of(word)


def root_word(word):
    """The words `now` and `empty` as they are, the number behind a `~`, or the bytes of a root."""
    if word in (b"now", b"empty"):
        return word
    if word[:1] == b"~":
        return number_of(word[1:])
    if len(word) != 64:
        raise BadLine
    return bytes_of(word, 32)


def bound_word(word):
    """None for a star, else the bytes of a bound."""
    return None if word == b"*" else bytes_of(word, BOUND)


def count_up_to(limit):
    """Reads the word of a number from 1 to a limit."""

    def count_of(word):
        if not 1 <= number_of(word) <= limit:
            raise BadLine
        return number_of(word)

    return count_of


def hexed(some):
    return some.hex().encode() or b"-"


# The kinds of the words behind the first one of a line.
WORDS = {
    b"put": (lambda it: bytes_of(it, KEY), lambda it: bytes_of(it, VALUE)),
    b"del": (lambda it: bytes_of(it, KEY),),
    b"commit": (),
    b"view": (place_of,),
    b"take": (number_of,),
    b"close": (number_of,),
    b"state": (number_of,),
    b"get": (place_of, lambda it: bytes_of(it, KEY)),
    b"root": (place_of,),
    b"prove": (root_word, lambda it: bytes_of(it, KEY)),
    b"range": (root_word, bound_word, bound_word, count_up_to(LISTED), count_up_to(SIZE)),
    b"changes": (root_word, root_word, bound_word, bound_word, count_up_to(LISTED), count_up_to(SIZE)),
}


class Session:
    def __init__(self, pairs, width=4):
        # the maps that are held, the present one first
        self.maps, self.width = [pairs], width
        self.path, self.views, self.pending = [], [], {}
        self.printed, self.roots = [], {}

    @property
    def pairs(self):
        return self.maps[0]

    # Views.

    def view(self, number):
        return self.views[number - 1] if 1 <= number <= len(self.views) else None

    def state(self, view):
        if view.path[-1] in self.path:
            return b"Committed"
        if view.closed:
            return b"Closed"
        if len(self.path) < len(view.path) and view.path[: len(self.path)] == self.path:
            return b"Live"
        return b"Invalid"

    def refusal(self, number):
        view = self.view(number)
        if view is None:
            return b"unknown"
        state = self.state(view)
        return None if state == b"Live" else b"not live " + state

    def map_of(self, place):
        pairs = self.pairs
        if place is not None:
            for number in self.view(place).path[len(self.path) :]:
                pairs = laid(pairs, self.view(number).batch)
        return pairs

    def weight(self):
        return sum(len(payload(it.batch)) for it in self.views if self.state(it) == b"Live")

    def refused_view(self, place):
        why = None if place is None else self.refusal(place)
        if why:
            return why
        if len(self.views) >= NUMBERS:
            return b"too many"
        if len(self.on(place)) + 1 - len(self.path) > DEPTH:
            return b"too deep"
        if self.weight() + len(payload(self.pending)) > WEIGHT:
            return b"too heavy"
        return None

    def on(self, place):
        return self.path if place is None else self.view(place).path

    # What is printed.

    def tell(self, *words):
        self.printed.append(b" ".join(words) + b"\n")

    def root_of(self, pairs):
        """The root of a map. No map is changed once it is made, so its root is made once."""
        if id(pairs) not in self.roots:
            # the map is kept too, so that no other one gets its ID
            self.roots[id(pairs)] = pairs, root_of(pairs, self.width)
        return self.roots[id(pairs)][1]

    def root(self, pairs):
        return self.root_of(pairs).hex().encode()

    # Lines.

    def commit(self, batch):
        pairs = laid(self.pairs, batch)
        if len(pairs) > PAIRS:
            raise Limit(b"pairs")
        self.maps = held([pairs, *self.maps])

    def do_commit(self):
        if len(self.views) >= NUMBERS or len(payload(self.pending)) > PAYLOAD:
            raise Limit(b"batch")
        self.commit(self.pending)
        self.path = [*self.path, len(self.views) + 1]
        self.views.append(View(self.path, {}))
        self.pending = {}
        self.tell(b"commit", b"%d" % len(self.views), self.root(self.pairs))

    def do_view(self, place):
        batch, why = self.pending, self.refused_view(place)
        self.pending = {}
        if why:
            return self.tell(b"refused", why)
        if len(payload(batch)) > PAYLOAD:
            raise Limit(b"batch")
        number = len(self.views) + 1
        self.views.append(View([*self.on(place), number], batch))
        return self.tell(b"view", b"%d" % number, self.root(self.map_of(number)))

    def do_take(self, number):
        why = self.refusal(number)
        if not why and self.view(number).path != [*self.path, number]:
            why = b"not parent"
        if why:
            return self.tell(b"refused", why)
        self.commit(self.view(number).batch)
        self.path = [*self.path, number]
        return self.tell(b"taken", b"%d" % number, self.root(self.pairs))

    def do_close(self, number):
        why = self.refusal(number)
        if why:
            return self.tell(b"refused", why)
        through = self.view(number).path
        for view in self.views:
            if view.path[: len(through)] == through and self.state(view) == b"Live":
                view.closed = True
        return self.tell(b"closed", b"%d" % number)

    def do_state(self, number):
        view = self.view(number)
        return self.tell(b"refused unknown") if view is None else self.tell(b"state", b"%d" % number, self.state(view))

    def do_get(self, place, key):
        why = None if place is None else self.refusal(place)
        if why:
            return self.tell(b"refused", why)
        value = self.map_of(place).get(key)
        return self.tell(b"none") if value is None else self.tell(b"value", hexed(value))

    def do_root(self, place):
        why = None if place is None else self.refusal(place)
        return self.tell(b"refused", why) if why else self.tell(b"root", self.root(self.map_of(place)))

    def named(self, root):
        """The map that a ROOT names, or None: one by its place, or the latest held one with this root. Where no held map has
        it, the root of the empty map names that."""
        if root == b"now":
            return self.pairs
        if isinstance(root, int):
            return self.maps[root] if root < len(self.maps) else None
        root = ZERO if root == b"empty" else root
        alike = (it for it in self.maps if self.root_of(it) == root)
        return next(alike, {} if root == ZERO else None)

    def from_root_on(self, maps, root):
        """The latest of some maps with a root, and those before it."""
        return next((maps[place:] for place, it in enumerate(maps) if self.root_of(it) == root), [])

    def meant(self, root):
        """The root that a ROOT means, or None."""
        place = {b"now": 0}.get(root, root)
        if isinstance(place, int):
            return self.root_of(self.maps[place]) if place < len(self.maps) else None
        return ZERO if root == b"empty" else root

    def between(self, former, later):
        """The two maps that two ROOTs name for changes, or None: the later is looked up first, the former at it or before it.
        The empty map is one like any other here: it has to be held."""
        below = self.from_root_on(self.maps, self.meant(later))
        behind = self.from_root_on(below, self.meant(former))
        return (behind[0], below[0]) if behind else None

    def do_prove(self, root, key):
        pairs = self.named(root)
        if pairs is None:
            return self.tell(b"refused not held")
        return self.tell(b"proof", hexed(spelled(prove(pairs, key, self.width), self.width)))

    def do_range(self, root, start, end, count, size):
        if start is not None and end is not None and end < start:
            raise BadLine
        pairs = self.named(root)
        if pairs is None:
            return self.tell(b"refused not held")
        proof = prove_range(pairs, Range(start, end), count, size, self.width)
        return self.tell(b"range", hexed(spelled_range(proof, self.width)))

    def do_changes(self, former, later, start, end, count, size):
        if start is not None and end is not None and end < start:
            raise BadLine
        maps = self.between(former, later)
        if maps is None:
            return self.tell(b"refused not held")
        proof = prove_changes(*maps, Range(start, end), count, size, self.width)
        return self.tell(b"changes", hexed(spelled_changes(proof, self.width)))

    def do(self, line):
        words = line.replace(b"\t", b" ").split(b" ")
        words = [it for it in words if it]
        if line.startswith(b"#") or not words:
            return
        kinds = WORDS.get(words[0])
        if kinds is None or len(kinds) != len(words) - 1:
            raise BadLine
        found = [kind(word) for kind, word in zip(kinds, words[1:])]
        if words[0] == b"put":
            self.pending = {**self.pending, found[0]: found[1]}
        elif words[0] == b"del":
            self.pending = {**self.pending, found[0]: None}
        else:
            getattr(self, "do_" + words[0].decode())(*found)

    def run(self, lines):
        """Does the lines: the text that is printed, the status and the status line."""
        try:
            for number, line in enumerate(lines, 1):
                self.do(line)
            if self.pending:
                self.do_commit()
        except BadLine:
            return b"".join(self.printed), 3, b"mdb: line %d is not understood\n" % number
        except Limit as limit:
            return b"".join(self.printed), 10, b"mdb: limit " + limit.args[0] + b"\n"
        return b"".join(self.printed), 0, b""
