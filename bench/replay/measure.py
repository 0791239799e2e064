"""replay [WORKLOAD ..]: what the built program takes on each workload, by each engine. Where none is named, `batches engines` follows.

By the sequential executor, and by runs and by levels on 1, 2 and 4 workers: calls, the least seconds of three runs, calls a second, the peak of memory.
"""
import os

import lib
import workloads
from batches import measure as batches

ENGINES = ("--engine serial", *(f"--engine {engine} --workers {workers}" for engine in ("runs", "levels") for workers in (1, 2, 4)))
USUAL = "getattr write read create rename directory readdir lookup short_pairs short_mix".split()


def measure(name, program, trace):
    with open(trace) as lines:
        calls = sum(not line.startswith("batch") for line in lines)
    for words in ENGINES:
        runs = lib.again(3, program, *words.split(), trace)
        best, peak = min(runs.passed), max(runs.peak)
        print(f"{name} {words}: {calls} calls, {best:.2f} s, {calls / best:,.0f} calls/s, {peak / lib.MEBIBYTE:.0f} MiB")


def main(room, words):
    names = lib.chosen(words, workloads.WORKLOADS, USUAL)
    program = os.environ.get("REPLAY") or "crates/replay/out/replay"
    if not os.access(program, os.X_OK):
        lib.build("crates/replay", lib.EXAMPLE)
    for name in names:
        measure(name, program, lib.trace_of(name, room))
    if not words:
        batches.main(room, ["engines"])
