"""Lines for `mdb`, for the scripts beside this one: how they are written and read, and the limits that they have."""
import os
import sys

KEY, VALUE = 256, 262_144


class Wrong(Exception):
    """What is wrong with an input, in a sentence."""


def word(some):
    """Bytes as a field of a line: hexadecimal digits, or `-` for no bytes."""
    return some.hex() or "-"


def bytes_of(field):
    if field != "-" and (len(field) % 2 or field.strip("0123456789abcdefABCDEF")):
        raise Wrong(f"{field[:40]} is not hexadecimal")
    return b"" if field == "-" else bytes.fromhex(field)


def key_word(key):
    if len(key) > KEY:
        raise Wrong(f"the key {key[:40]!r}.. has {len(key)} bytes, and {KEY} are allowed")
    return word(key)


def del_line(key):
    return f"del {key_word(key)}\n"


def put_line(key, value):
    front = f"put {key_word(key)}"
    if len(value) > VALUE:
        raise Wrong(f"the value of {key[:40]!r} has {len(value)} bytes, and {VALUE} are allowed: put its hash")
    return f"{front} {word(value)}\n"


def lines_of(pairs):
    """The lines of some pairs, of which no two may have one key: the later would replace the earlier."""
    found = {}
    for key, value in pairs:
        if key in found:
            raise Wrong(f"the key {key[:40]!r} comes twice")
        found[key] = put_line(key, value)
    return "".join(found.values())


def refuse(why):
    sys.exit(f"{os.path.basename(sys.argv[0])}: {why}")


def finish(make):
    """Writes what `make` returns, text or bytes, or nothing and status 1 where something is wrong. So no part of an
    input is taken for all of it."""
    try:
        made = make()
    except Wrong as why:
        refuse(why)
    except OSError as why:
        refuse(f"{os.fsdecode(why.filename or 'input')}: {why.strerror}")
    sys.stdout.buffer.write(made.encode() if isinstance(made, str) else made)
