"""cluster: what runs of replicas take, beside their hashes and executions.

What a batch of 1,024 requests takes a run of one replica and one of four: on one processor and on all, beside what must be hashed for it and its executions
one after another; and the memory of each run. A run has 24 batches, of which the least counts; the first ones of a process take longer.

What must be hashed, for n replicas: the client signs a request for each; each checks it when it comes, and not again in the PRE-PREPARE; each hashes
the batch; each signs its reply, and the client checks each. Counted in blocks of SHA-256, at the speed of the kit's `sha2`.

Then what a batch of 1, 16 and 256 requests takes four replicas by keyed hashes, and by signatures of four levels with requests that a relay signs by three: the
least mean of 64 batches. A tree of the last level signs 32 of them.
"""
import time

import lib

SECONDS, BATCHES, REQUESTS = 25, 24, 1_024
COUNTS, SIGNED_BATCHES, ROUNDS = (1, 16, 256), 64, 3
CALLS = {"getattr": 72, "write": 8_280}  # bytes of a call
REPLY = 32 + 96  # bytes of what is signed of a reply, with attributes as its result


def rounds():
    """As many as SECONDS hold."""
    end = time.monotonic() + SECONDS
    while time.monotonic() < end:
        yield


def blocks(length):
    return (length + 9 + 63) // 64


def keyed(length):
    return blocks(64 + length) + blocks(64 + 32)


def hashed(replicas, workload):
    """Blocks of SHA-256, for a batch."""
    request = 20 + CALLS[workload]
    batch = replicas * blocks(16 + REQUESTS * (request + 4 + 32 * replicas))
    return REQUESTS * (2 * replicas * keyed(request) + 2 * replicas * keyed(REPLY)) + batch


def measure(program, workload, faults):
    replicas = 3 * faults + 1
    commands = {
        "hash": (*lib.ON_ONE, program, "hash", 8_192, 1_024),
        "serial": (*lib.ON_ONE, program, "serial", workload, BATCHES),
        "one": (*lib.ON_ONE, program, "run", faults, workload, BATCHES),
        "every": (program, "run", faults, workload, BATCHES),
    }
    found = lib.in_turn(rounds(), commands, reads=True)
    # of each command the least of what it prints first, with what it prints beside it
    (hashing,), (serial,), (alone, *parts), (every, *parts_of_every) = (min(runs.numbers) for runs in found.values())
    plain, memory = (max(found[name].peak) for name in ("serial", "one"))
    due = hashing / (1_024 * blocks(8_192)) * hashed(replicas, workload) + replicas * serial
    tell = lambda times: " ".join(f"{took / 1000:.1f}" for took in times)
    print(
        f"{workload}, {replicas} replicas: hashes and executions {due / 1000:.1f} ms; one processor {alone / 1000:.1f} ms: {alone / due:.2f}; "
        f"{lib.PROCESSORS} processors {every / 1000:.1f} ms: {every / due:.2f}; signing, coming, ordering, counting {tell(parts)} ms "
        f"and {tell(parts_of_every)} ms; memory {memory / lib.MEBIBYTE:.0f} MiB: {memory / plain:.2f} of the plain run's"
    )


def compare(program, workload, count):
    """By signatures beside keyed hashes."""
    ways = {way: (program, way, workload, SIGNED_BATCHES, count, ROUNDS) for way in ("hashed", "signed")}
    for processors, before in (1, lib.ON_ONE), (lib.PROCESSORS, ()):
        hashed, signed = (lib.run(*before, *command, reads=True).numbers[0] / 1000 for command in ways.values())
        print(f"{workload}, batches of {count}, {processors} processors: hashed {hashed:.2f} ms, signed {signed:.2f} ms: {signed / hashed:.1f}")


def main(room, words):
    lib.chosen(words, ())
    crates = "bfs_types bfs_settings bfs_auth bfs_messages bfs_serial bfs_node bfs_clients bfs_cluster bfs_signatures lms sha2"
    program = lib.program_of("cluster", room, crates, "serial", "getattr", "1")
    for workload in CALLS:
        for faults in (0, 1):
            measure(program, workload, faults)
        for count in COUNTS:
            compare(program, workload, count)
