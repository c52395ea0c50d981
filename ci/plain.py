"""What the definitions say, written plainly, for the scripts beside this one: roots of maps, and the journal.

It follows docs/definitions.md and docs/formats.md and nothing of the program.
"""
import functools
import hashlib
import os

# What a root is.


def uvarint(number):
    """Groups of seven bits, the lowest first, with the high bit on all but the last."""
    out = bytearray()
    while number > 127:
        out.append(number % 128 + 128)
        number //= 128
    return bytes([*out, number])


def tokens_of(key, width):
    """The bits of the key in tokens of `width` bits, the highest bit first."""
    bits = "".join(f"{byte:08b}" for byte in key)
    return tuple(int(bits[at : at + width], 2) for at in range(0, len(bits), width))


def key_form(tokens, width):
    """The number of bits, and the bits in whole bytes, zeros after the last."""
    bits = "".join(f"{token:0{width}b}" for token in tokens)
    padded = bits + "0" * (-len(bits) % 8)
    return uvarint(len(bits)) + bytes(int(padded[at : at + 8], 2) for at in range(0, len(padded), 8))


# a script may put one long value at a thousand keys
@functools.lru_cache(maxsize=64)
def value_digest(value):
    """The value itself below 32 bytes, else its SHA-256."""
    return value if len(value) < 32 else hashlib.sha256(value).digest()


def id_of(items, width):
    """The ID of a list of (key in tokens, value digest): 32 zeros for none, else the SHA-256 of the node's string.

    The node's key is the longest run of tokens that begins every key. The string is the number of children; for each
    child, by its token, the token and the child's ID; the value flag, and where a key ends at this node the length of
    its value digest and that digest; and the node's key.
    """
    if not items:
        return bytes(32)
    node = os.path.commonprefix([key for key, _ in items])
    here = [digest for key, digest in items if key == node]
    below = {}
    for key, digest in items:
        if key != node:
            below.setdefault(key[len(node)], []).append((key, digest))
    string = uvarint(len(below))
    for token in sorted(below):
        string += uvarint(token) + id_of(below[token], width)
    for digest in here:
        string += b"\1" + uvarint(len(digest)) + digest
    if not here:
        string += b"\0"
    return hashlib.sha256(string + key_form(node, width)).digest()


def root_of(pairs, width=4):
    """The root of a map from keys to values, at the factor of `width` bits a token."""
    return id_of([(tokens_of(key, width), value_digest(value)) for key, value in pairs.items()], width)


# What the files of a store are.

KEY, VALUE = 256, 262_144
NAME = b"MDBVALS\1"
OPEN, CLOSED = b"\1", b"\0"
HEADER = 24


class Damaged(Exception):
    """A file with a wrong byte: its number and the place."""


class NotAStore(Exception):
    """A file of something else: its number."""


def header(width, generation=1):
    """An open header of 24 bytes: its gate, name and version, the bits of a token, zeros, the generation."""
    return OPEN + NAME + bytes([width]) + bytes(6) + generation.to_bytes(8, "big")


def sized(some):
    """Bytes behind their number."""
    return uvarint(len(some)) + some


def payload(changes):
    """The payload of a batch: changes from keys to values, None for no value."""
    out = uvarint(len(changes))
    for key in sorted(changes):
        value = changes[key]
        out += sized(key) + (b"\0" if value is None else b"\1" + sized(value))
    return out


def record(changes):
    """A record behind its gate, without the gates around it."""
    spelled = payload(changes)
    return b"\1" + len(spelled).to_bytes(4, "big") + spelled


def journal(width, batches, generation=1):
    """A file of batches: the header, each record behind an open gate, and a closed gate."""
    return header(width, generation) + b"".join(OPEN + record(it) for it in batches) + CLOSED


def laid(pairs, changes):
    """A map after changes."""
    after = {**pairs, **changes}
    return {key: value for key, value in after.items() if value is not None}


class Fields:
    """A reader of a payload, field by field. It raises ValueError where one is outside the grammar."""

    def __init__(self, some):
        self.some, self.at = some, 0

    def bytes(self, count):
        found = self.some[self.at : self.at + count]
        if len(found) != count:
            raise ValueError
        self.at += count
        return found

    def number(self):
        number = shift = 0
        while True:
            byte = self.bytes(1)[0]
            number |= (byte & 127) << shift
            if byte < 128:
                break
            shift += 7
        if number >= 1 << 64 or (byte == 0 and shift):
            raise ValueError
        return number

    def sized(self, limit):
        count = self.number()
        if count > limit:
            raise ValueError
        return self.bytes(count)


def changes_in(some):
    """The changes of a batch, from its payload."""
    fields, changes, last = Fields(some), {}, None
    for _ in range(fields.number()):
        key = fields.sized(KEY)
        if last is not None and key <= last:
            raise ValueError
        flag = fields.bytes(1)[0]
        if flag > 1:
            raise ValueError
        changes[key] = fields.sized(VALUE) if flag else None
        last = key
    if fields.at != len(some):
        raise ValueError
    return changes


def header_in(number, some):
    """The width and the generation of a file's header, or None where it is closed."""
    if len(some) < HEADER + 1 or some[:1] != OPEN:
        return None
    if some[1:9] != NAME:
        raise NotAStore(number)
    if some[9] not in (1, 2, 4, 8):
        raise Damaged(number, 9)
    for at in range(10, 16):
        if some[at]:
            raise Damaged(number, at)
    generation = int.from_bytes(some[16:24], "big")
    if not generation:
        raise Damaged(number, 16)
    return some[9], generation


def records_in(number, some):
    """The kind, the payload and the gate's place of each record before the first gate that is not open."""
    at, found = HEADER, []
    while some[at : at + 1] == OPEN:
        kind, count = some[at + 1 : at + 2], int.from_bytes(some[at + 2 : at + 6], "big")
        after = at + 6 + count
        known = kind == b"\1" or (kind == b"\2" and count == 0)
        if len(some) < at + 6 or not known or after >= len(some):
            raise Damaged(number, at)
        found.append((kind[0], some[at + 6 : after], at))
        at = after
    return found


def stands(files):
    """The map that two files stand for, and its width, which is None where no header is open."""
    headers = [header_in(number, some) for number, some in enumerate(files)]
    if headers == [None, None]:
        return {}, None
    number = 1 if headers[1] and (not headers[0] or headers[0][1] < headers[1][1]) else 0
    pairs = {}
    for kind, some, at in records_in(number, files[number]):
        if kind == 2:
            continue
        try:
            pairs = laid(pairs, changes_in(some))
        except ValueError:
            raise Damaged(number, at) from None
    return pairs, headers[number][0]
