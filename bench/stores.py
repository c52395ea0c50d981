"""Stores and paths of proofs, for the benchmarks beside this file."""
import os
import statistics
import sys
import tempfile
from dataclasses import dataclass

from timing import timed

TOP = os.path.dirname(os.path.dirname(os.path.realpath(__file__)))
BUILT = f"{TOP}/crates/mdb_tool/out/mdb_tool"
sys.path.insert(0, f"{TOP}/ci")
from plain import sized, uvarint  # noqa: E402

# A commit takes so many pairs at most, and so many bytes of their keys and values.
COMMIT, COMMIT_BYTES = 20_000, 8 << 20


def put(key, value):
    return f"put {key.hex()} {value.hex()}\n"


def batches(made):
    """The pairs in batches, each with as many as one commit takes."""
    batch, size = [], 0
    for key, value in made:
        more = len(key) + len(value)
        if len(batch) == COMMIT or size + more > COMMIT_BYTES:
            yield batch
            batch, size = [], 0
        batch.append((key, value))
        size += more
    yield batch


def fill(program, factor, place, made):
    """Makes a store of these pairs of a key and a value, and gives its root."""
    os.mkdir(place)
    with tempfile.TemporaryDirectory() as folder:
        with open(f"{folder}/puts", "w") as file:
            for batch in batches(made):
                file.writelines(put(key, value) for key, value in batch)
                file.write("commit\n")
        timed([program, place, "apply", factor], f"{folder}/puts", f"{folder}/committed")
        with open(f"{folder}/committed") as file:
            return file.read().split()[-1]


def path_size(value, some):
    """The nodes of the path of a proof in hexadecimal, and its bytes: what stands behind version, kind and value."""
    at = 2 * (3 + len(sized(value)))
    nodes = int(some[at : at + 2], 16)
    # the number of nodes has one byte
    assert nodes < 128, nodes
    return nodes, len(some) // 2 - at // 2 - len(uvarint(nodes))


@dataclass
class Paths:
    """What the paths of some proofs have, on average and at most: nodes, and bytes."""

    nodes: float
    most_nodes: int
    size: float
    most_size: int


def paths_of(values, lines):
    """The figures of the paths in these lines, which print the proofs of keys with these values."""
    found = [path_size(value, line.split()[1]) for value, line in zip(values, lines, strict=True)]
    nodes, sizes = zip(*found)
    return Paths(statistics.fmean(nodes), max(nodes), statistics.fmean(sizes), max(sizes))
