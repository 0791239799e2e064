"""order [decode|check|hold|vote|change|checkpoint ..]: what messages and votes take, beside their hashes.

`decode`: decoding a PRE-PREPARE of 1,024 requests of 8,192 bytes beside the SHA-256 of its bytes. `check`: checking its requests on one processor and on
all, the least of many. `hold`: how many bytes of memory each byte of it takes once it is decoded. `vote`: a vote beside its own keyed hashes, among 4 and
31 replicas, in a log of one number and of 32. `change`: a view change beside the hashes that its rules ask for. `checkpoint`: a CHECKPOINT with a wrong
keyed hash beside the check of that, among 4 and 31 replicas, with an empty log and a full one. But for `check`, medians of ROUNDS runs.
"""
import statistics

import lib

ROUNDS = 5


def medians(*command):
    return [statistics.median(column) for column in zip(*lib.again(ROUNDS, *command, reads=True).numbers)]


def decode(program):
    read, hashed = medians(program, "decode", 5)
    print(f"decode: {read / 1000:.1f} ms, SHA-256 of its bytes {hashed / 1000:.1f} ms: {read / hashed:.2f}")


def check(program):
    command = program, "check", 20
    found = lib.in_turn(range(2 * ROUNDS), {"one": (*lib.ON_ONE, *command), "every": command}, reads=True)
    (one,), (every,) = (min(runs.numbers) for runs in found.values())
    print(f"check: one processor {one / 1000:.1f} ms, {lib.PROCESSORS} processors {every / 1000:.1f} ms: {one / every:.2f} times")


def hold(program):
    few, many = (lib.run(program, "hold", times, reads=True) for times in (1, 9))
    (length,) = few.numbers
    print(f"hold: {(many.peak - few.peak) / 8 / length:.2f} bytes of memory for each of {length} bytes")


def vote(program):
    for faults in (1, 10):
        for numbers in (1, 32):
            took, hashes = medians(program, "vote", faults, numbers)
            print(f"vote, {3 * faults + 1} replicas, {numbers} numbers: {took} ns, its hashes {hashes} ns: {took / hashes:.2f}")


def change(program):
    requests, numbers, replicas = 1024, 32, 4
    *took, new, change, request, vote = medians(program, "change", requests)
    # what the keyed hashes within a VIEW-CHANGE take: those of the requests, and of each number's PRE-PREPARE and three PREPAREs
    within = numbers * (requests * request + 4 * vote) / 1000
    proposals = numbers * vote / 1000
    check = change + within
    due = [replicas * change, check, 3 * check, replicas * (new + proposals), new + proposals + 3 * check]
    names = ["making a VIEW-CHANGE", "checking it", "choosing from three", "choosing, and making the NEW-VIEW", "checking that"]
    for name, it, hashes in zip(names, took, due):
        print(f"change, {name}: {it / 1000:.1f} ms, its hashes {hashes / 1000:.1f} ms: {it / hashes:.2f}")


def checkpoint(program):
    for faults in (1, 10):
        for numbers in (0, 32):
            took, hashed = medians(program, "checkpoint", faults, numbers)
            print(f"checkpoint, {3 * faults + 1} replicas, {numbers} numbers: {took} ns, its keyed hash {hashed} ns: {took / hashed:.2f}")


PARTS = {"decode": decode, "check": check, "hold": hold, "vote": vote, "change": change, "checkpoint": checkpoint}


def main(room, words):
    parts = lib.chosen(words, PARTS)
    crates = "bfs_types bfs_settings bfs_auth bfs_messages bfs_codec bfs_pending bfs_order bfs_view_change bfs_node sha2"
    program = lib.program_of("order", room, crates, "vote", "1", "1")
    for part in parts:
        PARTS[part](program)
