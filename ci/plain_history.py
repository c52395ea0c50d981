"""Which maps a store holds, written plainly, for the scripts beside this one.

It follows docs/definitions.md and nothing of the program. A history is a list of maps: the present one stands first, and
behind each map the one before it.
"""

# How many commits can be taken back, and how much these may weigh together.
COMMITS_BACK, WEIGHT_BACK = 64, 268_435_456


def weight(former, later):
    """What a commit weighs that leads from one map to another: for each key that it changed, its bytes and those of the
    value before and of the value after."""
    changed = [key for key in {*former, *later} if former.get(key) != later.get(key)]
    return sum(len(key) + len(former.get(key, b"")) + len(later.get(key, b"")) for key in changed)


def held(maps):
    """The maps of a history that are held: the present one, and the latest before it within both limits."""
    kept, heavy = maps[:1], 0
    for later, former in zip(maps, maps[1 : COMMITS_BACK + 1]):
        heavy += weight(former, later)
        if heavy > WEIGHT_BACK:
            break
        kept.append(former)
    return kept
