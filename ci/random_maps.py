"""Maps by chance, maps that differ from them, and keys and ranges to ask of them, for the scripts beside this one."""
from plain_proofs import Range

LONGEST = 257


def random_map(rng):
    """A map whose keys are short, so that many begin others, and whose values are about as long as a digest."""
    letters = rng.choice([(0, 1, 0x10, 0xFF), tuple(range(256)), (0x12, 0x13)])
    count = rng.choice((0, 1, 2, 3, 5, 8, 20, 40))
    return {bytes(rng.choices(letters, k=rng.randrange(5))): random_value(rng) for _ in range(count)}


def random_value(rng):
    return rng.randbytes(rng.choice((0, 1, 5, 31, 32, 33)))


def random_keys(rng, pairs):
    """Keys that are there, some near them, and some at random."""
    keys = rng.sample(sorted(pairs), min(6, len(pairs)))
    near = [it[: rng.randrange(len(it) + 1)] + rng.randbytes(rng.randrange(2)) for it in keys]
    return [*keys, *near, rng.randbytes(2), b""]


def random_neighbour(rng, pairs):
    """A map that differs from another at few keys or at many: it lacks some, has others besides, and has other values."""
    share = rng.choice((0, 0.1, 0.3, 0.8))
    kept = {key: value for key, value in pairs.items() if rng.random() >= share / 2}
    other = {key: random_value(rng) for key in kept if rng.random() < share}
    more = {key: random_value(rng) for key in rng.sample(random_keys(rng, pairs), rng.randrange(3))}
    return {**kept, **other, **more}


def random_bound(rng, pairs):
    """A key, what is right before or behind it or begins it, a bound before or behind all keys, the longest, or none."""
    key = rng.choice([*pairs, b"k"])
    before = key[:-1] + bytes([key[-1] - 1]) + b"\xff" if key.strip(b"\0") and key[-1] else key[:-1]
    near = [before, key + b"\0", key[: rng.randrange(len(key) + 1)], (key + bytes(LONGEST))[:LONGEST]]
    return rng.choice([key, key, *near, rng.randbytes(2), b"", b"\xff" * LONGEST, None, None])


def random_range(rng, pairs):
    """A range whose end is not below its start."""
    start, end = random_bound(rng, pairs), random_bound(rng, pairs)
    if start is not None and end is not None and end < start:
        start, end = end, start
    return Range(start, end)


def random_counts(rng):
    """How many pairs may be listed, and how many bytes of them: few or many."""
    return rng.choice((1, 2, 3, 10, 4_096)), rng.choice((1, 10, 60, 300, 2_097_152))
