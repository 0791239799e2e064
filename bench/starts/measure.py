"""starts [replica=PATH relay=PATH]: what a start of a replica takes beside reading, hashing and doing again what its folder holds.

Of one replica that signs nothing, with 256 MiB in 16 files and with 60,000 empty files, each with a journal nearly as long as the text that was saved last: none
is longer. Seconds of a start, which saves the replica anew, and its peak of memory; beside them those of reading both files, of hashing them with `openssl` without the
processor's instructions for SHA-256, and those of a processor that the turns of the journal took when they were taken first.
"""
import itertools
import os
import pathlib
import shutil
import struct
import time

import lib
from lib import MEBIBYTE
from service.measure import BLOCK, MOUNT, NFS, UNSET, Client, Service, used

SETTINGS = {"replica": str(lib.TOP / "crates/replica/out/replica"), "relay": str(lib.TOP / "crates/relay/out/relay")}
AT_A_TIME = 64
FILES, LENGTH = 16, 16 * MEBIBYTE
EMPTY_FILES = 60_000
LEAST_JOURNAL = MEBIBYTE  # one of fewer bytes is never replaced by a saved replica
FULL = 0.9  # of the length at which it is
ROUNDS = 3
NO_INSTRUCTIONS = "env", "OPENSSL_ia32cap=:~0x20000000"


def make(client, calls):
    """Makes all these calls, and gives their replies, in any order."""
    calls, under_way, found = iter(calls), 0, []
    while True:
        more = [client.call(*call) for call in itertools.islice(calls, AT_A_TIME - under_way)]
        client.socket.sendall(b"".join(more))
        under_way += len(more)
        if not under_way:
            return found
        replies = client.replies()
        under_way -= len(replies)
        found += replies


def created(client, count):
    """The handles of so many new files in the root (RFC 1094 section 2.2.10)."""
    root = client.ask(MOUNT, 1, struct.pack(">I4s", 1, b"/"))[:32]
    name = lambda number: struct.pack(">I8s", 8, b"%08d" % number)
    return [reply[28:60] for reply in make(client, ((NFS, 9, root + name(number) + struct.pack(">I", 0o644) + UNSET * 7) for number in range(count)))]


def writes(handles):
    """WRITEs that fill these files (section 2.2.9)."""
    for handle in handles:
        for place in range(0, LENGTH, BLOCK):
            yield NFS, 8, handle + struct.pack(">4I", 0, place, 0, BLOCK) + os.urandom(BLOCK)


def changes(handles):
    """SETATTRs of the modes of these files (section 2.2.3)."""
    for handle in handles:
        yield NFS, 2, handle + struct.pack(">I", 0o600) + UNSET * 7


def files(client):
    handles = created(client, FILES)
    make(client, writes(handles))
    return lambda: writes(handles)


def empty_files(client):
    handles = created(client, EMPTY_FILES)
    return lambda: changes(handles)


STATES = {f"{FILES * LENGTH // MEBIBYTE} MiB in {FILES} files": files, f"{EMPTY_FILES:,} empty files": empty_files}


def newest(folder, kind):
    """The file of that kind with the highest number."""
    return max(folder.glob(f"{kind}-*[0-9]"), key=lambda path: int(path.name.partition("-")[2]))


def fill(client, calls, folder, process):
    """Makes calls until the journal is nearly as long as it gets, and gives the seconds of a processor that its turns took."""
    name = before = None
    while True:
        make(client, itertools.islice(calls, AT_A_TIME))
        saved, journal = newest(folder, "saved"), newest(folder, "journal")
        if saved.name != name:
            name, before = saved.name, used([process])
        elif journal.stat().st_size > FULL * max(saved.stat().st_size, LEAST_JOURNAL):
            return used([process]) - before


def timed(read):
    begun = time.monotonic()
    read()
    return time.monotonic() - begun


def started(settings, cluster, folder):
    """A run of the replica on a copy of its folder, whose input ends at once."""
    copy = pathlib.Path(f"{folder}-copy")
    shutil.rmtree(copy, ignore_errors=True)
    shutil.copytree(folder, copy)
    words = settings["replica"], cluster / "cluster.toml", cluster / "replica-0.toml", copy
    return lib.run("sh", "-c", 'exec "$@" < /dev/null', "sh", *words)


def measure(name, state, room, settings):
    room = pathlib.Path(room, state.__name__)
    room.mkdir()
    service = Service(room, {"f": 0, "clients": AT_A_TIME, "heights": "", "unsigned": 1, "bfs": str(lib.TOP / "tools/bfs")}, settings)
    cluster, folder = room / "cluster", room / "cluster/replica-0"
    try:
        client = Client(service.port)
        again = state(client)
        turns = fill(client, itertools.chain.from_iterable(again() for _ in itertools.count()), folder, service.filters[0])
    finally:
        service.end()
    paths = newest(folder, "saved"), newest(folder, "journal")
    runs = [started(settings, cluster, folder) for _ in range(ROUNDS)]
    start, peak = min(run.passed for run in runs), min(run.peak for run in runs)
    reading = min(timed(lambda: [path.read_bytes() for path in paths]) for _ in range(ROUNDS))
    hashing = min(lib.again(ROUNDS, *NO_INSTRUCTIONS, "openssl", "dgst", "-sha256", *paths).passed)
    saved, journal = (path.stat().st_size / MEBIBYTE for path in paths)
    parts = reading + hashing + turns
    print(f"{name}: saved {saved:.1f} MiB, journal {journal:.1f} MiB: a start {start:.2f} s, {start / (saved + journal) * 1e3:.1f} ms a MiB; memory {peak / MEBIBYTE:.0f} MiB")
    print(f"reading {reading:.2f} s, hashing {hashing:.2f} s, its turns {turns:.2f} s of a processor: a start takes {start / parts:.2f} of them")


def main(room, words):
    pairs = [word.partition("=") for word in words]
    lib.chosen([name for name, *_ in pairs], SETTINGS)
    settings = {**SETTINGS, **{name: value for name, _, value in pairs}}
    for name, state in STATES.items():
        measure(name, state, room, settings)
