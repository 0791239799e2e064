"""The programs of the repository that are compared with: built already, or built and run by `rt try`, which needs no proofs."""
import os
import re
import shutil
import subprocess
import tempfile
from dataclasses import dataclass
from pathlib import Path

REPOSITORY = Path(__file__).resolve().parent.parent
BUILT_REPLAY = REPOSITORY / "crates/replay/out/replay"
SECONDS = 600  # for one case


@dataclass
class Case:
    """A file that the program is run on, with further words, and what it is to write."""

    name: str
    text: bytes
    wanted: str
    wanted_error: str = ""
    status: int = 0
    words: tuple = ()
    settings: str = ""

    def named(self, settings):
        """The words behind the file's name, where the settings stand in that file."""
        return (*self.words, "--config", settings) if self.settings else self.words


@dataclass
class Answer:
    """What the program wrote, and how it ended."""

    output: str
    error: str
    status: object


class Built:
    """A program that is built already."""

    writes_long = True

    def __init__(self, path):
        self.path = path

    def __str__(self):
        return str(self.path)

    def answers(self, cases):
        with tempfile.TemporaryDirectory(prefix="bfs-outside-") as folder:
            for case in cases:
                text, settings = Path(folder, "case"), Path(folder, "settings")
                text.write_bytes(case.text)
                settings.write_text(case.settings)
                words = [self.path, str(text), *case.named(str(settings))]
                ended = subprocess.run(words, capture_output=True, timeout=SECONDS, check=False)
                yield case, Answer(ended.stdout.decode(), ended.stderr.decode(), ended.returncode)


class Tried:
    """A crate that `rt try` builds once, and runs on all cases. It takes 1 MiB of output."""

    writes_long = False

    def __init__(self, crate):
        self.crate = crate

    def __str__(self):
        return f"rt try in {self.crate}"

    def answers(self, cases):
        with tempfile.TemporaryDirectory(prefix="bfs-outside-") as folder:
            given = Path(folder, "cases")
            given.mkdir()
            settings, cases = {}, list(cases)
            for case in cases:
                (given / case.name).write_bytes(case.text)
                name = settings.setdefault(case.settings, f"settings{len(settings)}.toml")
                (given / f"{case.name}.args").write_text("".join(f"{word}\n" for word in case.named(name)))
            data = []
            for text, name in settings.items():
                path = Path(folder, name)
                path.write_text(text)
                data += ["--data", f"{name}={path}"]
            words = ["rt", "try", "--seconds", str(SECONDS), "--cases", str(given), *data, "--", "{}"]
            ended = subprocess.run(words, cwd=self.crate, capture_output=True, check=False)
            yield from self.told(cases, ended.stdout.decode(), ended.stderr.decode())

    def told(self, cases, output, error):
        """What `rt try` says of each case: its output behind a line with its name, and its errors before a line that tells how it ended."""
        outputs = dict(re.findall(r"^== (\S+)\n(.*?)(?=^== |\Z)", output, re.MULTILINE | re.DOTALL))
        ends = re.findall(r"(.*?)^case=(\S+) run=\S+(?: status=(\d+))?[^\n]*\n?", error, re.MULTILINE | re.DOTALL)
        errors = {name: (text, status) for text, name, status in ends}
        if not errors:
            raise SystemExit(f"outside: {self} gave no answer:\n{output[-2_000:]}{error[-2_000:]}")
        for case in cases:
            text, status = errors.get(case.name, ("", ""))
            yield case, Answer(outputs.get(case.name, ""), text, int(status) if status else None)


def replay():
    """The program `replay`: what REPLAY names, or what the gate has left, or else what `rt try` builds."""
    path = os.environ.get("REPLAY") or (BUILT_REPLAY if BUILT_REPLAY.exists() else None)
    return Built(str(path)) if path else Tried(REPOSITORY / "crates/replay")


class Driver:
    """The program of driver.txt, as a crate of a copy of the repository: it stands on what `example_node` does, and on the log."""

    crate = "outside_driver"
    writes_long = False

    def __str__(self):
        return "rt try of outside/driver.txt"

    def answers(self, cases):
        with tempfile.TemporaryDirectory(prefix="bfs-outside-") as folder:
            copy = Path(folder)
            shutil.copytree(REPOSITORY / "crates", copy / "crates", ignore=shutil.ignore_patterns("out"))
            shutil.copy(REPOSITORY / "HANDLES", copy)
            lines = (REPOSITORY / "crates.txt").read_text()
            below = re.search(r"^example_node:(.*)$", lines, re.MULTILINE)[1]
            (copy / "crates.txt").write_text(f"{lines}{self.crate}:{below} bfs_log\n")
            source = copy / "crates" / self.crate / "src"
            source.mkdir(parents=True)
            shutil.copy(REPOSITORY / "outside/driver.txt", source / "main.rt")
            yield from Tried(source.parent).answers(cases)


def driver():
    """The program that carries out scripts: what REPLICA names, or else what `rt try` builds."""
    path = os.environ.get("REPLICA")
    return Built(path) if path else Driver()
