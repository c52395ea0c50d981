"""Lines about proofs, for the scripts beside this one. Where a word stands for bytes it may be handed in as either."""
from session import hexed


def text(*lines):
    return "".join(f"{line}\n" for line in lines).encode()


def digits(some):
    return some if isinstance(some, str) else hexed(some).decode()


def puts(pairs):
    return [f"put {digits(key)} {digits(value)}" for key, value in pairs.items()]


def lines_of(changes):
    """The lines that make changes, each a key with its new value, or None where it is deleted."""
    return [f"del {digits(key)}" if value is None else f"put {digits(key)} {digits(value)}" for key, value in changes]


def bounds(asked):
    """The words of a range: a star where nothing bounds it."""
    return ["*" if it is None else digits(it) for it in (asked.start, asked.end)]


def range_words(root, asked, count, size):
    """The words that ask for the proof of a range: those of a script's line, and with a root in front of the command."""
    return ["range", digits(root), *bounds(asked), str(count), str(size)]


def point(root, key, some):
    """A line of `verify` of a point proof."""
    return " ".join(["point", digits(root), digits(key), digits(some)])


def ranged(root, asked, some):
    """A line of `verify` of a range proof."""
    return " ".join(["range", digits(root), *bounds(asked), digits(some)])


def change_words(former, later, asked, count, size):
    """The words that ask for the proof of what changed in a range between the maps that two ROOTs name."""
    return ["changes", digits(former), digits(later), *bounds(asked), str(count), str(size)]


def changing(root, asked, some):
    """A line of `verify` of a change proof."""
    return " ".join(["changes", digits(root), *bounds(asked), digits(some)])
