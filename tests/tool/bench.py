"""The bench that the tests stand on: fresh folders, the tool as people start it, and a count of what passed."""
import contextlib
import os
import pathlib
import shlex
import shutil
import subprocess
import sys
import tempfile
import time

ROOT = pathlib.Path(__file__).resolve().parents[2]
HERE = ROOT / "tests" / "tool"
TOOL = ROOT / "tool" / "chain"
EXAMPLES = ROOT / "examples"
SECOND = os.environ.get("SECOND", str(ROOT / "target" / "second" / "release" / "second"))
# Without the machine's own packages, so that nothing but the standard library is there; any warning is an error.
START = [sys.executable, "-S", "-W", "error", str(TOOL)]
sys.path.insert(0, str(ROOT / "tool"))


class Failed(Exception):
    pass


def need(truth, message):
    if not truth:
        raise Failed(message)


def equal(found, wanted, what):
    if found != wanted:
        at = next((n for n, (a, b) in enumerate(zip(str(found), str(wanted))) if a != b), min(len(str(found)), len(str(wanted))))
        low = max(at - 60, 0)
        raise Failed(f"{what}: found {str(found)[low:at + 160]!r}, wanted {str(wanted)[low:at + 160]!r}")


@contextlib.contextmanager
def folder():
    """A fresh folder with the example chains in it."""
    with tempfile.TemporaryDirectory(prefix="chain-") as name:
        room = pathlib.Path(name)
        for chain in EXAMPLES.glob("*.chain"):
            shutil.copy(chain, room)
        yield room


def commands_folder(room):
    """A folder for the path in which `chain` is the tool, started by this Python."""
    place = room / "bin"
    place.mkdir(exist_ok=True)
    script = place / "chain"
    script.write_text(f'#!/bin/sh\nexec {shlex.join(START)} "$@"\n')
    script.chmod(0o755)
    return place


def surroundings(asks=None, **more):
    """The environment of a command: the built asks, or another program in its place."""
    kept = {name: value for name, value in os.environ.items() if name != "CHAIN_ASKS"}
    if asks:
        kept["CHAIN_ASKS"] = asks
    return {**kept, "LC_ALL": "C.UTF-8", **more}


def chain(room, *arguments, asks=None, data=None, **more):
    """Runs the tool; gives status, standard output and standard error as bytes."""
    done = subprocess.run(
        [*START, *map(str, arguments)], cwd=room, input=data, env=surroundings(asks, **more),
        capture_output=True, check=False, **({} if data is not None else {"stdin": subprocess.DEVNULL}),
    )
    return done.returncode, done.stdout, done.stderr


def good(room, *arguments, **more):
    """Runs the tool where nothing may fail; gives its standard output."""
    status, out, err = chain(room, *arguments, **more)
    need(status == 0, f"chain {' '.join(map(str, arguments))}: status {status}: {err.decode()}")
    return out


@contextlib.contextmanager
def environment(asks):
    before = os.environ.pop("CHAIN_ASKS", None)
    if asks:
        os.environ["CHAIN_ASKS"] = asks
    try:
        yield
    finally:
        os.environ.pop("CHAIN_ASKS", None)
        if before is not None:
            os.environ["CHAIN_ASKS"] = before


class Count:
    def __init__(self):
        self.passed, self.failed = 0, 0

    def part(self, name, tests):
        begin = time.monotonic()
        for test in tests:
            try:
                said = test()
            except Failed as failure:
                self.failed += 1
                print(f"tool: {name}, {test.__name__}: {failure}")
                continue
            self.passed += 1
            if said:
                print(f"tool: {test.__name__.replace('_', ' ')}: {said}")
        print(f"tool: {name} took {time.monotonic() - begin:.1f} s")
        sys.stdout.flush()
