"""digests [files|large|inodes|kept ..]: what digests, snapshots and their reading take, apart from the run before.

`files`: digests of 256 MiB in files, beside `openssl dgst -sha256` of as many bytes. `large`: those of 16 MiB in one file and in 64, and one of them behind a
WRITE. `inodes`: reading and writing texts of 25,000, 50,000 and 100,000 inodes. `kept`: the digests that 100,000 inodes keep, anew and behind a batch that
changes 1,024 of them.

A time of the program is that of the program that does the work so many times, without that of the program that does nothing: the least of five
rounds, in each of which all are run. Memory is the peak of the process. Of the digests that are kept the program tells its times itself.
"""
from collections import defaultdict

import lib
from lib import MEBIBYTE

FILES = 256
BATCH = 1_024  # requests of a block
DIRECTORIES = 500
ROUNDS = 5


def write_trace(path, requests):
    with open(path, "w") as trace:
        for number, request in enumerate(requests):
            if number % BATCH == 0:
                trace.write(f"batch {number // BATCH + 1}.000000\n")
            trace.write(f"0 {number + 1} {request}\n")


def full(requests):
    """The requests, and more that fill their last block, so that what follows has one of its own."""
    requests = [*requests]
    return requests + ["null"] * (-len(requests) % BATCH)


def milliseconds(program, times, trace, *works):
    """What each work takes."""
    found = lib.in_turn(range(ROUNDS), {work: (program, work, times, trace) for work in ("nothing", *works)})
    return [seconds * 1e3 for seconds in lib.beyond_nothing(found, times).values()][1:]


def files(program, room):
    trace, zeros = f"{room}/trace", f"{room}/zeros"
    write_trace(trace, (f"create #2 f{number} - - - {MEBIBYTE} - -" for number in range(FILES)))
    with open(zeros, "wb") as out:
        for _ in range(FILES):
            out.write(bytes(MEBIBYTE))
    words = lambda work: (program, work, 1, trace)
    commands = {
        "nothing": words("nothing"),
        "serial": words("serial"),
        "one": (*lib.ON_ONE, *words("parallel")),
        "every": words("parallel"),
        "snapshot": words("snapshot"),
        "openssl": ("openssl", "dgst", "-sha256", zeros),
    }
    found = lib.in_turn(range(ROUNDS), commands)
    _, serial, one, every, snapshot, _ = lib.beyond_nothing(found, 1).values()
    openssl, memory, plain = min(found["openssl"].passed), min(found["snapshot"].peak), min(found["nothing"].peak)
    print(f"{FILES} MiB in files: openssl {openssl:.2f} s; digest_serial {serial:.2f} s ({openssl / serial:.2f} of openssl's speed)")
    print(f"digest_parallel on one processor {one:.2f} s, on {lib.PROCESSORS} {every:.2f} s ({one / every:.1f} times)")
    print(f"snapshot {snapshot:.2f} s; memory {memory / MEBIBYTE:.0f} MiB, without it {plain / MEBIBYTE:.0f} MiB")


def large(program, room):
    size, times, works = 16 * MEBIBYTE, 10, ("nothing", "serial", "parallel")
    traces = {count: f"{room}/{count}" for count in (1, 64)}
    for count, trace in traces.items():
        made = full(f"create #2 f{number} - - - {size // count} - -" for number in range(count))
        write_trace(trace, [*made, f"write #3 {size // count // 2} x" + "61" * 8_192])
    passed, frozen = defaultdict(list), defaultdict(list)
    for _ in range(3):
        for name, runs in lib.in_turn(range(ROUNDS), {(work, count): (program, work, times, traces[count]) for work in works for count in traces}).items():
            passed[name] += runs.passed
        for count, trace in traces.items():
            frozen[count].append(lib.run(program, "freeze", times, trace, reads=True).numbers)
    for count in traces:
        nothing, serial, parallel = (min(passed[work, count]) / times * 1e3 for work in works)
        first, again = (min(column) / 1e3 for column in zip(*frozen[count]))
        print(f"16 MiB in {count} files: digest_serial {serial - nothing:.1f} ms, digest_parallel {parallel - nothing:.1f} ms; "
              f"freezing {first:.1f} ms, behind a WRITE of 8 KiB {again:.1f} ms")


def inodes(program, room):
    trace, works = f"{room}/trace", ("snapshot", "restore", "serial")
    for count in (25_000, 50_000, 100_000):
        write_trace(trace, make_inodes(count))
        print(f"{count} inodes: " + ", ".join(f"{work} {took:.1f} ms" for work, took in zip(works, milliseconds(program, 10, trace, *works))))


def make_inodes(count):
    yield from (f"mkdir #2 d{number} - - - - - -" for number in range(DIRECTORIES))
    yield from (f"create #{3 + number % DIRECTORIES} f{number} - - - - - -" for number in range(count - DIRECTORIES - 1))


def kept(program, room):
    trace, count = f"{room}/trace", 100_000
    changed = range(3 + DIRECTORIES, 3 + DIRECTORIES + BATCH)
    write_trace(trace, [*full(make_inodes(count)), *(f"setattr #{fileid} 600 - - - - -" for fileid in changed)])
    first, again = (min(column) / 1e3 for column in zip(*lib.again(ROUNDS, program, "freeze", 5, trace, reads=True).numbers))
    serial, parallel = milliseconds(program, 10, trace, "serial", "parallel")
    print(f"{count} inodes: freezing {first:.1f} ms, behind {BATCH} SETATTRs {again:.1f} ms; with nothing kept digest_serial {serial:.1f} ms, "
          f"digest_parallel {parallel:.1f} ms")


PARTS = {"files": files, "large": large, "inodes": inodes, "kept": kept}


def main(room, words):
    parts = lib.chosen(words, PARTS)
    program = lib.program_of("digests", room, "bfs_serial bfs_digest bfs_replay", "nothing", "1", lib.EXAMPLE)
    for part in parts:
        PARTS[part](program, room)
