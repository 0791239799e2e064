#!/usr/bin/env python3
"""Writes a workload as a trace: `workloads.py NAME`, to standard output. `workloads.py --list` names them."""
import random
import struct
import sys

MOST_BYTES = 67_108_864  # of a trace
BATCH = 1_024  # requests of a block


def words(*numbers):
    return struct.pack(f">{len(numbers)}I", *numbers)


def call(xid, procedure, arguments):
    """A call of NFS version 2 with no credential and no verifier (RFC 5531 section 9)."""
    return words(xid, 0, 2, 100003, 2, procedure, 0, 0, 0, 0) + arguments


def handle(fileid):
    return b"BFS2" + words(1, fileid, 0, 0, 0, 0, 0)


def opaque(data):
    return words(len(data)) + data + bytes(-len(data) % 4)


UNSET = words(*[0xFFFFFFFF] * 8)

FIRST = 3  # the ordinal of the first request


class Trace:
    """Requests in blocks, as many as a trace may hold."""

    def __init__(self):
        self.calls = 0
        self.bytes = 0
        self.seconds = 0

    def block(self, requests):
        self.seconds += 1
        lines = [f"batch {self.seconds}.000000\n"]
        for procedure, arguments in requests:
            self.calls += 1
            lines.append(f"0 {self.calls} raw {call(self.calls, procedure, arguments).hex()}\n")
        text = "".join(lines)
        self.bytes += len(text)
        if self.bytes > MOST_BYTES:
            return False
        sys.stdout.write(text)
        return True

    def blocks(self, requests):
        requests = list(requests)
        return all(self.block(requests[i : i + BATCH]) for i in range(0, len(requests), BATCH))


def getattr(trace):
    """400,000 GETATTRs of the root."""
    trace.blocks([(1, handle(2))] * 400_000)


def write(trace):
    """1,024 files, then batches of 1,024 WRITEs of 8,192 bytes, one to each, as many as a trace holds."""
    trace.blocks((9, handle(2) + opaque(b"f%d" % i) + UNSET) for i in range(BATCH))
    data = bytes(i % 251 for i in range(8_192))
    offset = 0
    while trace.block((8, handle(FIRST + i) + words(0, offset, 0) + opaque(data)) for i in range(BATCH)):
        offset += 8_192


def read(trace):
    """A file of 1,048,576 bytes, then 200,000 READs of 64 bytes all over it."""
    trace.blocks([(9, handle(2) + opaque(b"f") + UNSET), (8, handle(FIRST) + words(0, 1_048_575, 0) + opaque(b"x"))])
    trace.blocks((6, handle(FIRST) + words(i * 8_191 % 1_048_512, 64, 0)) for i in range(200_000))


def create(trace):
    """500 directories, then 50,000 CREATEs spread over them."""
    trace.blocks((14, handle(2) + opaque(b"d%d" % i) + UNSET) for i in range(500))
    trace.blocks((9, handle(FIRST + i % 500) + opaque(b"f%d" % i) + UNSET) for i in range(50_000))


def rename(trace):
    """100 directories with 100 files each, then 50,000 RENAMEs: five times each file goes on to the next directory."""
    trace.blocks((14, handle(2) + opaque(b"d%d" % i) + UNSET) for i in range(100))
    trace.blocks((9, handle(FIRST + i % 100) + opaque(b"f%d" % i) + UNSET) for i in range(10_000))

    def place(i, round):
        return handle(FIRST + (i + round) % 100) + opaque(b"f%d" % i)

    trace.blocks((11, place(i, round) + place(i, round + 1)) for round in range(5) for i in range(10_000))


# Workloads of one large directory, the root. Its entries have names of 16 bytes, which take 32 bytes on a page of READDIR.


def name_of(i):
    return opaque(b"file%012d" % i)


def make_entries(trace, entries):
    trace.blocks((9, handle(2) + name_of(i) + UNSET) for i in range(entries))


def directory(trace, entries=50_000):
    """50,000 CREATEs in one directory, then a REMOVE of each."""
    make_entries(trace, entries)
    trace.blocks((10, handle(2) + name_of(i)) for i in range(entries))


def pages(entries, count):
    """A READDIR of each page of at most that many bytes: `.`, `..` (20 bytes each) and the entries, whose cookies are their ordinals."""
    cookie, room = 0, count - 12 - 2 * 20
    for listed in range(entries):
        if room < 32:
            yield 16, handle(2) + words(cookie, count)
            room = count - 12
        cookie, room = FIRST + listed, room - 32
    yield 16, handle(2) + words(cookie, count)


def readdir(trace, entries=60_000):
    """60,000 CREATEs in one directory, then READDIRs of the whole directory page by page, with a count of 512 and of 8,192."""
    make_entries(trace, entries)
    trace.blocks(pages(entries, 512))
    trace.blocks(pages(entries, 8_192))


def lookup(trace, entries=50_000):
    """50,000 CREATEs in one directory, then 200,000 LOOKUPs of names at random."""
    make_entries(trace, entries)
    chosen = random.Random(1)
    trace.blocks((4, handle(2) + name_of(chosen.randrange(entries))) for _ in range(4 * entries))


def half_directory(trace):
    """The same as `directory`, with 25,000 entries."""
    directory(trace, 25_000)


def half_readdir(trace):
    """The same as `readdir`, with 30,000 entries."""
    readdir(trace, 30_000)


def half_lookup(trace):
    """The same as `lookup`, with 25,000 entries and 100,000 LOOKUPs."""
    lookup(trace, 25_000)


# Workloads of many short batches, as ordering makes them.


def short_pairs(trace):
    """20,000 batches of two WRITEs of 8 bytes, each to a file of its own."""
    make_files(trace, 2)
    for _ in range(20_000):
        trace.block((8, handle(FIRST + i) + words(0, 0, 0) + opaque(bytes(8))) for i in range(2))


def short_mix(trace):
    """2,000 times batches of 1, 2, 16 and 64 calls: in turn GETATTR, WRITE of 8 bytes, LOOKUP and READ of 8, of 64 files."""
    make_files(trace, 64)

    def small(i):
        file = handle(FIRST + i % 64)
        return [
            (1, file),
            (8, file + words(0, 0, 0) + opaque(bytes(8))),
            (4, handle(2) + opaque(b"f%d" % (i % 64))),
            (6, file + words(0, 8, 0)),
        ][i % 4]

    for turn in range(2_000):
        for count in (1, 2, 16, 64):
            trace.block(small(turn + i) for i in range(count))


# Workloads of one batch: the last block is what is planned or executed, and the blocks before it make what it touches.


def make_files(trace, count):
    trace.blocks((9, handle(2) + opaque(b"f%d" % i) + UNSET) for i in range(count))


def write_in_turn(trace, files, length):
    make_files(trace, files)
    data = bytes(i % 251 for i in range(length))
    trace.block((8, handle(FIRST + i % files) + words(0, 0, 0) + opaque(data)) for i in range(BATCH))


def small_writes(trace):
    """1,024 WRITEs of 8 bytes, each to a file of its own."""
    write_in_turn(trace, BATCH, 8)


def large_writes(trace):
    """1,024 WRITEs of 8,192 bytes, each to a file of its own."""
    write_in_turn(trace, BATCH, 8_192)


def fill_files(trace, files, length):
    make_files(trace, files)
    data = bytes(i % 251 for i in range(length))
    trace.blocks((8, handle(FIRST + i) + words(0, 0, 0) + opaque(data)) for i in range(files))


def large_reads(trace):
    """1,024 READs of 8,192 bytes, each of a file of its own."""
    fill_files(trace, BATCH, 8_192)
    trace.block((6, handle(FIRST + i) + words(0, 8_192, 0)) for i in range(BATCH))


def mix(trace):
    """1,024 calls on 256 files in turn, of 8,192 bytes each: READs, and every tenth a WRITE, which conflicts with the others of its file."""
    fill_files(trace, 256, 8_192)
    data = bytes(i % 241 for i in range(8_192))

    def one(i):
        file = handle(FIRST + i % 256)
        return (8, file + words(0, 0, 0) + opaque(data)) if i % 10 == 9 else (6, file + words(0, 8_192, 0))

    trace.block(one(i) for i in range(BATCH))


def one_file(trace):
    """1,024 WRITEs of 8 bytes to one file."""
    write_in_turn(trace, 1, 8)


def large_one_file(trace):
    """1,024 WRITEs of 8,192 bytes to one file."""
    write_in_turn(trace, 1, 8_192)


def short_chains(trace):
    """1,024 WRITEs of 8 bytes to 205 files in turn, so five to each."""
    write_in_turn(trace, 205, 8)


def long_chains(trace):
    """1,024 WRITEs of 8 bytes to five files in turn, so 205 to each."""
    write_in_turn(trace, 5, 8)


def large_chains(trace):
    """1,024 WRITEs of 8,192 bytes to five files in turn, so 205 to each."""
    write_in_turn(trace, 5, 8_192)


def pairs(trace):
    """1,024 WRITEs of 8 bytes to two files: 512 runs of two."""
    make_files(trace, 2)
    trace.block((8, handle(FIRST + (i + 1) // 2 % 2) + words(0, 0, 0) + opaque(bytes(8))) for i in range(BATCH))


def getattrs(trace):
    """1,024 GETATTRs of 1,024 files."""
    make_files(trace, BATCH)
    trace.block((1, handle(FIRST + i)) for i in range(BATCH))


def creates(trace):
    """1,024 CREATEs of different names in the root of a new file system."""
    make_files(trace, BATCH)


def look_ups(trace):
    """1,024 LOOKUPs in the root, one of each of its 1,024 names."""
    make_files(trace, BATCH)
    trace.block((4, handle(2) + opaque(b"f%d" % i)) for i in range(BATCH))


TO_RUN = {
    "getattr": getattr,
    "write": write,
    "read": read,
    "create": create,
    "rename": rename,
    "directory": directory,
    "readdir": readdir,
    "lookup": lookup,
    "short_pairs": short_pairs,
    "short_mix": short_mix,
    "half_directory": half_directory,
    "half_readdir": half_readdir,
    "half_lookup": half_lookup,
}
OF_ONE_BATCH = {
    "small_writes": small_writes,
    "large_writes": large_writes,
    "large_reads": large_reads,
    "mix": mix,
    "one_file": one_file,
    "large_one_file": large_one_file,
    "short_chains": short_chains,
    "long_chains": long_chains,
    "large_chains": large_chains,
    "pairs": pairs,
    "getattrs": getattrs,
    "creates": creates,
    "look_ups": look_ups,
}
WORKLOADS = TO_RUN | OF_ONE_BATCH

if __name__ == "__main__":
    if sys.argv[1:] == ["--list"]:
        for name, make in WORKLOADS.items():
            print(f"{name}: {make.__doc__}")
    elif len(sys.argv) == 2 and sys.argv[1] in WORKLOADS:
        trace = Trace()
        WORKLOADS[sys.argv[1]](trace)
    else:
        sys.exit("usage: workloads.py NAME | --list")
