"""Scenes, for the scripts beside this one: functions that run the program in a folder of their own, and compare what it prints
and how it ends with what is wanted.
"""
import argparse
import os
import subprocess
import tempfile

from proof_lines import text

TOP = os.path.dirname(os.path.dirname(os.path.realpath(__file__)))
BUILT = f"{TOP}/crates/mdb_tool/out/mdb_tool"

WIDTHS = {"2": 1, "4": 2, "16": 4, "256": 8}
FACTORS = {width: factor for factor, width in WIDTHS.items()}


class Store:
    """A folder, and the program on it."""

    def __init__(self, program, folder):
        self.program, self.folder = program, folder

    def ends(self, words, given=b"", out=b"", status=0, err=None, **where):
        """Runs the program, and asserts what it prints and how it ends."""
        ran = subprocess.run([self.program, *words], input=given, capture_output=True, timeout=120, **where)
        self.ended(words, ran, out, status, err)

    def ended(self, words, ran, out, status=0, err=None):
        wanted = (status, out, b"" if err is None else f"mdb: {err}\n".encode())
        assert (ran.returncode, ran.stdout, ran.stderr) == wanted, (words, ran.returncode, first_unlike(ran.stdout, out), ran.stderr, wanted[0], wanted[2])

    def does(self, lines, out, factor="16", **wanted):
        """Does a script, and asserts what it prints."""
        self.ends([self.folder, "apply", factor], given=text(*lines), out=text(*out), **wanted)

    def asks(self, words, factor="16", **wanted):
        """A command on the store."""
        command, *others = words
        self.ends([self.folder, command, factor, *others], **wanted)

    def below(self, name):
        """A store in a folder below this one, which is made."""
        path = f"{self.folder}/{name}"
        os.mkdir(path)
        return Store(self.program, path)

    def files(self):
        """What the folder holds, by the names of its files."""
        found = {}
        for name in sorted(os.listdir(self.folder)):
            with open(f"{self.folder}/{name}", "rb") as file:
                found[name] = file.read()
        return found

    def lay(self, number, some):
        """Lays a file of a store."""
        with open(f"{self.folder}/mdb{number}", "wb") as file:
            file.write(some)


def first_unlike(found, wanted):
    """The first line that is not as wanted, with its number and what was wanted."""
    found, wanted = found.split(b"\n"), wanted.split(b"\n")
    unlike = (it for it in enumerate(zip(found, wanted), 1) if it[1][0] != it[1][1])
    number, lines = next(unlike, (min(len(found), len(wanted)), (b"the end", b"the end")))
    return number, [it[:200] for it in lines]


def does(store, told, factor="16"):
    """Does the lines, each of which is given with what it prints, if it prints anything."""
    store.does([it for it, *_ in told], [it for _, *some in told for it in some], factor)


def asked_of(doc):
    """A reader of the arguments that such a script takes."""
    parser = argparse.ArgumentParser(description=doc, formatter_class=argparse.RawDescriptionHelpFormatter)
    parser.add_argument("--program", metavar="PATH", default=BUILT, help="this program, and not the built one")
    parser.add_argument("--only", metavar="TEXT", default="", help="only the scenes whose names have this text")
    return parser


def run(scenes, asked, *more):
    """Runs the scenes that are asked for, each in a folder of its own, with what else they are handed; gives the status."""
    program = os.path.abspath(asked.program)
    if not os.access(program, os.X_OK):
        print(f"there is no program {program}: rt ci and mdb build it")
        print("0 passed, 1 failed")
        return 1
    passed = failed = 0
    for scene in scenes:
        if asked.only not in scene.__name__:
            continue
        with tempfile.TemporaryDirectory() as folder:
            try:
                scene(Store(program, folder), *more)
                passed += 1
            except (AssertionError, OSError, subprocess.SubprocessError) as fault:
                print(f"FAILED {scene.__name__}: {fault!r}"[:2000], flush=True)
                failed += 1
    print(f"{passed} passed, {failed} failed")
    return 1 if failed else 0
