"""What the benchmarks share: their words, their programs, and runs of these, one after another and in turn."""
import os
import pathlib
import shutil
import subprocess
import sys
import time
from typing import NamedTuple

TOP = pathlib.Path(__file__).resolve().parent.parent
EXAMPLE = TOP / "examples/getattr.trace"
MEBIBYTE = 1 << 20
PROCESSORS = len(os.sched_getaffinity(0))
ON_ONE = "taskset", "-c", str(min(os.sched_getaffinity(0)))  # stands before a command that is to have one processor


class Unknown(Exception):
    """A word is missing, or none that there is."""


class Run(NamedTuple):
    """The seconds that passed, those of processors, the peak of memory in bytes, and the numbers that were printed: each of one run, or those of several."""

    passed: float
    used: float
    peak: int
    numbers: list


def chosen(words, known, usual=()):
    """The words, which are to be among the known ones; where there are none, the usual ones, or else all that are known."""
    for word in words:
        if word not in known:
            raise Unknown(f"`{word}` is no word here" if word else "a word is missing")
    return words or usual or known


def signing(settings):
    """Words of `tools/bfs keys` and `tools/kernel` for the settings `heights` and `unsigned`."""
    return [*(["--heights", settings["heights"]] if settings["heights"] else []), *(["--unsigned"] if settings["unsigned"] else [])]


def build(crate, *words):
    """Builds the program of a crate and tries it with these words. Where one of these fails, what was said is printed."""
    tried = subprocess.run(["rt", "run", "--", *words], cwd=crate, stdout=subprocess.PIPE, stderr=subprocess.STDOUT, text=True, errors="replace")
    if tried.returncode != 0:
        sys.exit(tried.stdout)


def program_of(subject, room, crates, *words):
    """The program that the variable of its name says, or else the one of the subject's texts, which is tried with these words."""
    if program := os.environ.get(subject.upper()):
        return program
    # a crate beside copies of the others, with what their checks have kept: in this checkout the gate would prove it each time
    subprocess.run(["cp", "-a", "--reflink=auto", "crates", "crates.txt", "HANDLES", room], check=True)
    crate = pathlib.Path(room, "crates", subject)
    (crate / "src").mkdir(parents=True)
    for text in pathlib.Path("bench", subject).glob("*.txt"):
        shutil.copyfile(text, crate / "src" / f"{text.stem}.rt")
    with open(f"{room}/crates.txt", "a") as listed:
        listed.write(f"{subject}: {crates}\n")
    build(crate, *words)
    return f"{crate}/out/{subject}"


def trace_of(workload, room):
    """The path of a workload's trace."""
    path = f"{room}/trace"
    with open(path, "w") as trace:
        subprocess.run([sys.executable, "bench/workloads.py", workload], stdout=trace, check=True)
    return path


def run(*command, reads=False):
    """A run of a command. What it prints is read, as numbers, only where this is asked."""
    command = [str(word) for word in command]
    begin = time.monotonic()
    process = subprocess.Popen(command, stdout=subprocess.PIPE if reads else subprocess.DEVNULL)
    printed = process.stdout.read() if reads else b""
    _, status, usage = os.wait4(process.pid, 0)
    passed = time.monotonic() - begin
    if status != 0:
        sys.exit(f"{' '.join(command)}: ended with status {status}")
    return Run(passed, usage.ru_utime + usage.ru_stime, usage.ru_maxrss * 1024, [int(word) for word in printed.split()])


def in_turn(rounds, commands, reads=False):
    """The runs of each command. In each of the rounds all run, since other work on the machine may double a time."""
    found = {name: [] for name in commands}
    for _ in rounds:
        for name, command in commands.items():
            found[name].append(run(*command, reads=reads))
    return {name: Run(*zip(*runs)) for name, runs in found.items()}


def again(rounds, *command, reads=False):
    """So many runs of one command."""
    return in_turn(range(rounds), {"": command}, reads)[""]


def beyond_nothing(found, times, field="passed", choose=min):
    """Seconds that each command takes to do its work once, of those for so many times: without those of the first one, which does nothing."""
    took = {name: choose(getattr(runs, field)) for name, runs in found.items()}
    nothing, *_ = took.values()
    return {name: (seconds - nothing) / times for name, seconds in took.items()}
