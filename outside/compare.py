"""Compares what the programs write with what it should be, case by case, and keeps what differs."""
import tempfile
from itertools import zip_longest
from os.path import commonprefix
from pathlib import Path

import generate
import programs
import replicas
import scripts
import server
from programs import Case
from trace import BadLine, Settings, parse

ENGINES = ("serial", "runs", "levels")
BEFORE, SHOWN = 20, 120  # characters of a line that differs: before where it does, and in all


def said(lines):
    return "".join(f"{line}\n" for line in lines)


def server_cases(seeds, program):
    """One server by each engine, and a trace with faults. One more trace comes to the limits of directories, where the program may write as much."""
    settings = Settings()
    if program.writes_long:
        text = generate.limits_trace()
        yield Case("server-limits", text, said(server.run(parse(text, settings), settings)))
    for seed in seeds:
        text = generate.server_trace(seed, settings)
        wanted = said(server.run(parse(text, settings), settings))
        for place, engine in enumerate(ENGINES):
            words = ("--engine", engine, "--workers", str(1 + (seed + place) % 8))
            yield Case(f"server-{seed}-{engine}", text, wanted, words=words)
        yield faulty_case(f"server-{seed}-fault", generate.spoiled(seed, text), settings)


def faulty_case(name, text, settings):
    try:
        return Case(name, text, said(server.run(parse(text, settings), settings)))
    except BadLine as fault:
        return Case(name, text, "", f"replay: trace line {fault.number}\n", status=3)


def replicas_cases(seeds, program):
    """3f + 1 replicas, by one engine for each trace."""
    for seed in seeds:
        settings = generate.replicas_settings(seed)
        text = generate.replicas_trace(seed, settings)
        wanted = said(replicas.run(parse(text, settings), settings))
        words = ("--engine", ENGINES[seed % 3], "--workers", str(1 + seed % 8))
        yield Case(f"replicas-{seed}", text, wanted, words=words, settings=settings.text())


def replica_cases(seeds, program):
    """Single replicas, by the bytes that they are given and that they send."""
    for seed in seeds:
        lines, wanted = scripts.script(seed)
        yield Case(f"replica-{seed}", said(lines).encode(), said(wanted))


# Each part: its cases, and the program that they are run by
PARTS = {
    "server": (server_cases, programs.replay),
    "replicas": (replicas_cases, programs.replay),
    "replica": (replica_cases, programs.driver),
}


def difference(case, answer):
    """How an answer differs from what it should be, or None."""
    wanted, given = case.wanted.split("\n"), answer.output.split("\n")
    for number, (one, other) in enumerate(zip_longest(wanted, given), 1):
        if one != other:
            start = max(0, len(commonprefix([one or "", other or ""])) - BEFORE)
            one, other = (str(each)[start : start + SHOWN] for each in (one, other))
            return f"line {number} from character {start} on: wanted {one}, got {other}"
    if answer.status != case.status:
        return f"wanted status {case.status}, got {answer.status}: {answer.error[:SHOWN]}"
    if answer.error.strip() != case.wanted_error.strip():
        return f"wanted {case.wanted_error.strip()}, got {answer.error[:SHOWN]}"
    return None


class Kept:
    """A folder of cases that differ, made with the first of them."""

    def __init__(self):
        self.folder = None

    def keep(self, case):
        """Gives the words by which the program is run on the case again."""
        self.folder = self.folder or Path(tempfile.mkdtemp(prefix="bfs-outside-"))
        path = self.folder / case.name
        path.write_bytes(case.text)
        path.with_suffix(".wanted").write_text(case.wanted)
        path.with_suffix(".toml").write_text(case.settings)
        return " ".join([str(path), *case.named(str(path.with_suffix(".toml")))])


def compare(part, seeds):
    """Compares one part, prints what differs and a line of what was compared, and gives how many cases passed and how many did not."""
    make, program_of = PARTS[part]
    program, kept = program_of(), Kept()
    passed = failed = lines = 0
    for case, answer in program.answers(make(seeds, program)):
        lines += case.wanted.count("\n")
        found = difference(case, answer)
        if found:
            failed += 1
            print(f"{part}: {found}: {kept.keep(case)}", flush=True)
        else:
            passed += 1
    print(f"{part}: {passed + failed} cases of {len(seeds)} seeds, {lines} lines of output, {program}: {failed} differ", flush=True)
    return passed, failed
