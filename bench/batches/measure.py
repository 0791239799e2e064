"""batches planning|engines [WORKLOAD ..]: what the last batch of each workload takes, apart from reading and printing.

`planning`: to execute it and to plan it, in processor time, the least of five rounds. `engines`: to execute it by the sequential executor, and run after run
and level after level on 1, 2 and 4 workers: the time that passes, and beside it the processor time of all threads, the medians of seven rounds (some runs
are faster by a third, by where their memory lies). Each is what the program takes to do it many times, without what it takes to do nothing so often.
"""
import statistics

import lib
import workloads


def times_of(program, trace, seconds):
    """How often the batch is executed, to take so many seconds of a processor at least."""
    times = 64
    while lib.run(program, "serial", 1, times, trace).used - lib.run(program, "nothing", 1, times, trace).used < seconds:
        times *= 2
    return times


def planning(name, program, trace):
    times = times_of(program, trace, 0.5)
    found = lib.in_turn(range(5), {work: (program, work, 1, times, trace) for work in ("nothing", "serial", "groups", "runs")})
    _, executed, groups, runs = lib.beyond_nothing(found, times, "used").values()
    print(
        f"{name}: executed {executed * 1e6:,.0f} us, groups {groups * 1e6:,.0f} us ({groups / executed:.2f}), "
        f"runs {runs * 1e6:,.0f} us ({runs / executed:.2f})"
    )


def engines(name, program, trace):
    times = times_of(program, trace, 0.4)
    parallel = [f"{engine} {workers}" for engine in ("by-runs", "by-levels") for workers in (1, 2, 4)]
    found = lib.in_turn(range(7), {work: (program, *work.split(), times, trace) for work in ("nothing 1", "serial 1", *parallel)})
    passed, used = (lib.beyond_nothing(found, times, field, statistics.median) for field in ("passed", "used"))
    serial, alone = passed["serial 1"], used["serial 1"]
    told = [f"{work} {passed[work] * 1e6:,.0f} us ({passed[work] / serial:.2f}; processors {used[work] / alone:.2f})" for work in parallel]
    print(f"{name}: serial {serial * 1e6:,.0f} us; {', '.join(told)}")


PARTS = {
    "planning": (planning, "small_writes large_writes one_file large_one_file short_chains long_chains large_chains creates look_ups"),
    "engines": (engines, "large_writes large_reads mix creates one_file large_one_file long_chains getattrs small_writes pairs"),
}


def main(room, words):
    part, *names = words or [""]
    lib.chosen([part], PARTS)
    measure, usual = PARTS[part]
    names = lib.chosen(names, workloads.WORKLOADS, usual.split())
    crates = "bfs_types bfs_tree bfs_serial bfs_levels bfs_workers bfs_parallel bfs_replay"
    program = lib.program_of("batches", room, crates, "nothing", "1", "0", lib.EXAMPLE)
    for name in names:
        measure(name, program, lib.trace_of(name, room))
