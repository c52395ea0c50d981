"""Generated pairs for the benchmarks beside this file, and lines that put them.

The pairs come from a 64-bit state that begins with a seed. A turn replaces it by
state * 6364136223846793005 + 1442695040888963407 modulo 2^64 and gives the highest eight bits. A pair takes 32 bytes
as its key, two bytes b and c, and 8 + (b * 256 + c) mod 193 bytes as its value.
"""

MULTIPLIER, INCREMENT = 6364136223846793005, 1442695040888963407
KEY = 32
# So many states are turned at once, each in a lane of 16 bytes of one large number.
LANES = 1 << 14


def turned_bytes(seed):
    """Gives the generator's bytes without end, LANES at a time.

    LANES turns are themselves one turn with another multiplier and increment, so a number that holds LANES states
    that follow one another becomes the next LANES states by one multiplication and one sum.
    """
    states, state = [], seed
    multiplier, increment = 1, 0
    for _ in range(LANES):
        state = (state * MULTIPLIER + INCREMENT) % 2**64
        states.append(state)
        multiplier = multiplier * MULTIPLIER % 2**64
        increment = (increment * MULTIPLIER + INCREMENT) % 2**64

    def in_lanes(numbers):
        return int.from_bytes(b"".join(it.to_bytes(16, "little") for it in numbers), "little")

    lanes = in_lanes(states)
    increments, lowest = in_lanes([increment] * LANES), in_lanes([2**64 - 1] * LANES)
    while True:
        yield lanes.to_bytes(16 * LANES, "little")[7::16]
        lanes = (lanes * multiplier + increments) & lowest


def put_lines(seed, count):
    """Gives the lines of so many pairs, a few thousand in a piece."""
    source, rest, lines = turned_bytes(seed), b"", []
    while count:
        rest += next(source)
        at, digits = 0, rest.hex()
        while count and at + KEY + 2 <= len(rest):
            value = at + KEY + 2
            end = value + 8 + (rest[value - 2] * 256 + rest[value - 1]) % 193
            if end > len(rest):
                break
            lines.append(f"put {digits[2 * at:2 * at + 2 * KEY]} {digits[2 * value:2 * end]}\n")
            at, count = end, count - 1
        rest = rest[at:]
        yield "".join(lines).encode()
        lines.clear()


def pairs(seed, count):
    """Gives the key and the value of so many pairs."""
    source, rest, at = turned_bytes(seed), b"", 0
    while count:
        value = at + KEY + 2
        end = value + 8 + (rest[value - 2] * 256 + rest[value - 1]) % 193 if value <= len(rest) else value
        if len(rest) < max(value, end):
            rest, at = rest[at:] + next(source), 0
            continue
        yield rest[at : at + KEY], rest[value:end]
        at, count = end, count - 1
