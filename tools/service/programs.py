"""The programs of the service: where they are, and how they are built."""
import os
import subprocess
import sys
from pathlib import Path

from service.cluster import Fault, reason

TOP = Path(__file__).resolve().parents[2]
TRANSPORT = TOP / "tools/transport"
FILTERS = "replica", "relay"


def say(text):
    print(f"bfs: {text}", file=sys.stderr, flush=True)


def run(command, folder, what):
    """Runs a command that builds something, without input."""
    try:
        # what it prints is for the operator, and not for who reads what `tools/bfs` prints
        status = subprocess.run(command, cwd=folder, stdin=subprocess.DEVNULL, stdout=sys.stderr).returncode
    except OSError as fault:
        raise Fault(f"{what}: it isn't built, and `{command[0]}`: {reason(fault)}") from None
    return status


def transport():
    """The path of the transport. It is built where it isn't there, or is older than its text."""
    path = TRANSPORT / "target/release/transport"
    texts = [TRANSPORT / "Cargo.toml", *TRANSPORT.glob("src/*.rs")]
    if not path.exists() or path.stat().st_mtime < max(text.stat().st_mtime for text in texts):
        command = ["cargo", "build", "--release", "--offline", "--quiet"]
        say(f"builds the transport: `{' '.join(command)}` in {TRANSPORT}")
        if run(command, TRANSPORT, path) != 0:
            raise Fault(f"{path}: it can't be built")
        os.utime(path)  # cargo leaves an old time where nothing of it has changed
    return str(path)


def built(name):
    return TOP / "crates" / name / "out" / name


def build():
    """Proves and builds the filters."""
    for name in FILTERS:
        folder, path = TOP / "crates" / name, built(name)
        if not path.exists():
            say(f"builds {path}: `rt run` proves all crates first, which takes about an hour")
            # without words and input the program itself ends at once, with a status of its own
            run(["rt", "run"], folder, path)
            if not path.exists():
                raise Fault(f"{path}: it can't be built; `rt run` in {folder} says why")


def filter_of(name, given):
    """The path of a filter: the given one, or else the repository's, which is built where it isn't there."""
    if not given and not built(name).exists():
        build()
    path = given or built(name)
    if not os.access(path, os.X_OK):
        raise Fault(f"{path}: there is no such program")
    return str(path)
