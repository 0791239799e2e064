"""Checks of whole services: sessions of a client by libnfs while replicas and the relay are killed, lie, and come back."""
import os
import signal
import struct
import subprocess
import threading
import time
from pathlib import Path

from service.keys import COUNTER, INDEXES, NEW
from service.testing.calls import Stream
from service.testing.files import MOUNT, Client, settings, text
from service.testing.packages import install
from service.testing.running import HERE, check, children, is_gone, until

SLOW = 120  # seconds that something may take while a view changes or a state is fetched
BLOCK = 8_192


def build(room):
    """The path of the client, built."""
    install("libnfs-dev", "gcc")
    path = f"{room}/session"
    subprocess.run(["cc", "-O1", "-Wall", "-o", path, HERE / "session.c", "-lnfs"], check=True)
    return path


class Session:
    """A run of that client, in a directory of this name."""

    def __init__(self, service, name, rounds=1):
        words = [service.session, str(service.relay[1]), name, str(rounds)]
        self.process = subprocess.Popen(words, stdout=subprocess.PIPE, stderr=subprocess.STDOUT, stdin=subprocess.DEVNULL, text=True)

    def past(self, rounds):
        """Waits until so many rounds are done."""
        for line in self.process.stdout:
            if line == f"round {rounds}\n":
                return
            check(line.startswith("round "), line)
        check(False, "the session has ended")

    def end(self):
        """Waits until it has ended, and checks what it found."""
        said, _ = self.process.communicate(timeout=SLOW)
        check(self.process.returncode == 0 and said.endswith(" wrong=0\n"), said)


class Kernel(Client):
    """A client that sends a call again, by a new connection, until it has a reply."""

    def __init__(self, address):
        self.address, self.stream, self.xid = address, None, 0

    def call(self, *arguments):
        end, xid = time.monotonic() + SLOW, self.xid
        while True:
            try:
                self.stream = self.stream or Stream(self.address, SLOW)
                return super().call(*arguments)
            except OSError as fault:
                check(time.monotonic() < end, f"no reply: {fault}")
                self.stream, self.xid = None, xid
                time.sleep(0.1)

    def make(self, name):
        """A new file in the root."""
        root = self.call(1, text(b"/"), MOUNT, 1)[4:36]
        return self.good(9, root + text(name) + settings(0o644))[:32]

    def write(self, handle, block, data):
        self.good(8, handle + struct.pack(">III", 0, block * BLOCK, 0) + text(data))

    def read(self, handle, block):
        results = self.good(6, handle + struct.pack(">III", block * BLOCK, BLOCK, 0))
        return results[72 : 72 + struct.unpack_from(">I", results, 68)[0]]


class Worker(threading.Thread):
    """A kernel that writes blocks and reads them again until it is ended, and then all of them once more."""

    def __init__(self, service, name):
        super().__init__(daemon=True)
        self.kernel, self.name_of_file, self.is_told, self.done, self.fault = Kernel(service.relay), name, False, 0, None
        self.handle, self.written = None, {}  # its file, and what was written last of each block
        self.start()

    def run(self):
        try:
            self.handle = self.kernel.make(self.name_of_file)
            while not self.is_told:
                block, data = self.done % 16, b"%08d" % self.done * 64
                self.kernel.write(self.handle, block, data)
                self.written[block] = data
                self.look(block)
                self.done += 1
        except Exception as fault:
            self.fault = fault

    def look(self, block):
        data = self.written[block]
        check(self.kernel.read(self.handle, block)[: len(data)] == data, f"other data in block {block}")

    def goes_on(self, more=5):
        """Waits until it has done so much more."""
        before = self.done
        until(lambda: self.fault or self.done >= before + more, "calls go on", SLOW)
        check(not self.fault, f"the worker: {self.fault}")

    def end(self):
        self.is_told = True
        self.join(SLOW)
        check(not self.is_alive() and not self.fault, f"the worker: {self.fault}")
        for block in self.written:
            self.look(block)


def reports(service):
    """The words of each replica's report by their names; none of one that gives none."""
    lines = service.bfs("status", service.folder)[0].splitlines()
    names = lines[0].split()
    rows = [line.split() for line in lines[1:-1]]
    return [dict(zip(names, cells)) if len(cells) == len(names) else {} for cells in rows]


def same(service, numbers):
    """Waits until these replicas have executed as much, and have one digest. Gives both. One that was left behind fetches a state at the next checkpoint, so
    calls are made meanwhile."""
    kernel = Kernel(service.relay)
    handle, end = kernel.make(b"after %d" % time.monotonic_ns()), time.monotonic() + SLOW
    while True:
        rows = reports(service)
        states = {(rows[number].get("executed"), rows[number].get("digest")) for number in numbers}
        if len(states) == 1 and None not in (state := states.pop()):
            return state
        check(time.monotonic() < end, f"replicas {list(numbers)}: {[' '.join(row.values()) for row in rows]}")
        for block in range(4):
            kernel.write(handle, block, b"after")


def kill(service, *words):
    """Kills a transport and its filter with -9."""
    kill_all(service, words)


def kill_all(service, *all_words):
    """The same of each of several, at once."""
    running = lambda: [service.process_of(*words) for words in all_words]
    until(lambda: all(running()), "they run")
    processes = [process for both in running() for process in both]
    for process in processes:
        try:
            os.kill(process, signal.SIGKILL)
        except ProcessLookupError:
            pass  # it has followed the other one
    until(lambda: all(map(is_gone, processes)), "they are gone")


def end(service):
    """All end as they are told, and nothing is left."""
    for process in reversed(service.started):
        if process.poll() is None:
            status, left = service.end(process)
            check(status == 0 and not left, f"status {status}, left {left}")


def whole(service):
    """A session on a whole service; all replicas have one digest, and none counts as new any more."""
    service.up()
    check(not list(Path(service.folder).glob(f"replica-*/{NEW}")), "replicas are new")
    Session(service, "whole", 2).end()
    same(service, range(len(service.replicas)))
    end(service)


def stopped(service):
    """All end as they are told, and are started again: what was written is there, and calls go on."""
    service.up()
    worker = Worker(service, b"work")
    worker.goes_on()
    worker.end()
    end(service)
    service.up()
    for block in worker.written:
        worker.look(block)
    Session(service, "behind").end()
    same(service, range(4))
    end(service)


def killed(service):
    """Replica 3 is killed with -9 within a session: that goes on, and another one."""
    service.up()
    session = Session(service, "first", 4)
    session.past(1)
    kill(service, "replica", "3")
    session.end()
    Session(service, "second").end()
    same(service, range(3))


def returned(service):
    """It is started again without its folder, as a new one: it fetches a state, and has the others' digest."""
    folder = Path(service.folder, "replica-3")
    for path in folder.iterdir():
        path.unlink()
    Path(folder, NEW).touch()
    transport = service.start("replica", "3")
    until(lambda: children(transport.pid), "its filter")
    until(lambda: service.log.read_text().count("replica 0: replica 3 is connected") > 1, "it is connected")
    Session(service, "third", 2).end()  # more batches than two checkpoints have
    same(service, range(4))


def needed(service):
    """The primary is killed with -9: the one that has come back is needed now, and calls go on."""
    kill(service, "replica", "0")
    Session(service, "fourth").end()
    same(service, range(1, 4))
    end(service)


def returned_quietly(service):
    """Replica 3 is started again while calls are few, so that no checkpoint comes; then another one is killed, and it is needed."""
    service.up()
    Session(service, "first").end()
    kill(service, "replica", "3")
    service.start("replica", "3")
    kernel = Kernel(service.relay)
    handle = kernel.make(b"slowly")
    for number in range(8):
        kernel.write(handle, 0, b"%d" % number)
        time.sleep(0.5)
    kill(service, "replica", "1")
    Session(service, "second").end()
    same(service, (0, 2, 3))
    end(service)


def killed_primary(service):
    """The primary is killed with -9 within a session: that goes on in the next view."""
    service.up()
    session = Session(service, "first", 4)
    session.past(1)
    kill(service, "replica", "0")
    session.end()
    Session(service, "second").end()
    views = [row.get("view") for row in reports(service)[1:]]
    check(all(view and int(view) > 0 for view in views), f"views {views}")
    same(service, range(1, 4))
    end(service)


def lies(number, words, views=False):
    """A check that one replica, which lies so, changes nothing."""

    def lied(service):
        service.up(LIAR=str(number), LIES=words, REPLICA=str(service.true))
        Session(service, "first", 2).end()
        others = [other for other in range(4) if other != number]
        if views:
            check(all(int(reports(service)[other]["view"]) > 0 for other in others), "no later view")
        same(service, others)
        end(service)

    lied.__name__ = f"liar_{number}_{words.replace(',', '_')}"
    return lied


def another_hand(service):
    """One replica is that of outside/, and without another one it is needed: sessions go on, and it has the others' digest."""
    service.up(LIAR="2", LIES="plain", REPLICA=str(service.true))
    Session(service, "first", 2).end()
    kill(service, "replica", "3")
    Session(service, "second", 2).end()
    same(service, range(3))
    end(service)


def relay_again(service):
    """The relay is killed with -9 twice while calls are made: they go on, timestamps and indexes of its key rise, and their files stay private."""
    service.up()
    worker = Worker(service, b"work")
    worker.goes_on()
    paths = [Path(service.folder, name) for name in (COUNTER, INDEXES)]
    for _ in range(2):
        before = [int(path.read_text() or 0) for path in paths]
        kill(service, "relay")
        service.start("relay")
        worker.goes_on()
        after = [int(path.read_text()) for path in paths]
        check(all(one < other for one, other in zip(before, after)), f"the counters were {before}, and are {after}")
        check(all(path.stat().st_mode & 0o777 == 0o600 for path in paths), "the counters are not private")
    worker.end()
    Session(service, "behind").end()
    same(service, range(4))
    end(service)
