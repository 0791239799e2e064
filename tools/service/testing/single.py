"""One replica without a transport, as a child: turns are given to it, and its folder is looked into."""
import os
import shutil
import struct
import subprocess
import time
from pathlib import Path

from service.testing.frames import ASK_REPORT, REPLY, REPORT, REQUEST, framed
from service.cluster import read_cluster
from service.keys import INDEXES, SIGNING_KEY, replica_signing
from service.testing.outsiders import OwnKeys, Signing, messages, read
from service.testing.running import PATIENCE, check

PARCEL = struct.Struct(">BQBI")  # to whom, the number, kind, length
HEAD = 40  # bytes of a record before its body: the length, twice, and a digest
NULL = struct.pack(">10I", 1, 0, 2, 100_003, 2, 0, 0, 0, 0, 0)  # a call of procedure 0 (RFC 5531 section 9)


class Ended(Exception):
    """The replica has ended: its status, and what it wrote to standard error."""

    def __init__(self, status, said):
        super().__init__(f"it ended with status {status}: {said}")
        self.status, self.said = status, said


class Single:
    """Replica `number` of a deployment, with that folder."""

    def __init__(self, service, folder, *options, number=0, prepare=None, **environment):
        signs = replica_signing(service.folder, read_cluster(service.folder), number)
        words = [service.programs["replica"], f"{service.folder}/cluster.toml", f"{service.folder}/replica-{number}.toml", folder, *signs, *options]
        pipes = {name: subprocess.PIPE for name in ("stdin", "stdout", "stderr")}
        self.process = subprocess.Popen(words, env={**os.environ, **environment}, preexec_fn=prepare, restore_signals=prepare is None, **pipes)

    def turn(self, *frames, at=None):
        """The kinds and payloads of its answer to a turn."""
        head = struct.pack(">III", *divmod(int((at or time.time()) * 1_000_000), 1_000_000), len(frames))
        try:
            self.process.stdin.write(head + b"".join(frames))
            self.process.stdin.flush()
        except BrokenPipeError:
            pass  # it is told when something is read
        for _ in range(struct.unpack(">I", self.take(4))[0]):
            _, _, kind, length = PARCEL.unpack(self.take(PARCEL.size))
            yield kind, self.take(length)

    def take(self, count):
        data = self.process.stdout.read(count)
        if len(data) < count:
            raise Ended(*self.ends())
        return data

    def ends(self):
        """Its status once its input has ended, and what it wrote to standard error."""
        _, said = self.process.communicate(timeout=PATIENCE)
        return self.process.returncode, said.decode(errors="replace")

    def kill(self):
        self.process.kill()
        self.process.communicate()

    def executed(self):
        """How many numbers it says to have executed."""
        (report,) = [payload for kind, payload in self.turn(framed(ASK_REPORT)) if kind == REPORT]
        return int(dict(word.partition("=")[::2] for word in report.decode().split())["executed"])


def client(folder, number):
    """The keys of a client, with those by which its relay signs."""
    cluster = read(f"{folder}/cluster.toml")
    signing = Signing(f"{folder}/{SIGNING_KEY}", f"{folder}/{INDEXES}") if "signers" in cluster else None
    return OwnKeys(f"{folder}/client-{number}.toml", cluster, signing)


class Asking:
    """A client of one replica."""

    def __init__(self, service):
        self.keys, self.timestamp = client(service.folder, 0), 0

    def ask(self, single):
        """Has a request executed, and gives its timestamp."""
        self.timestamp += 1
        request = self.keys.sign(messages.Request(0, self.timestamp, NULL)).text
        kinds = [kind for kind, _ in single.turn(framed(REQUEST, request))]
        check(REPLY in kinds, f"no reply among {kinds}")
        return self.timestamp


def only(folder, kind):
    """The file of that kind in a folder, which has one."""
    (path,) = Path(folder).glob(f"{kind}-*[0-9]")
    return path


def records(journal):
    """Where each record of a journal ends."""
    at, ends = 0, []
    while at < len(journal):
        first, again = struct.unpack_from(">II", journal, at)
        check(first == again, f"a record at {at} has two lengths")
        at += HEAD + first
        ends.append(at)
    return ends


def copied(folder, name):
    """A copy of a folder beside it."""
    copy = f"{folder}-{name}"
    shutil.rmtree(copy, ignore_errors=True)
    return shutil.copytree(folder, copy)
