"""Starts fake deployments on loopback, and ends what it started by its ids."""
import os
import random
import signal
import socket
import subprocess
import sys
import time
from pathlib import Path

from service.cluster import read_cluster, text_of_signers

HERE = Path(__file__).resolve().parent
BFS = HERE.parents[1] / "bfs"
FAKES = {"replica": f"{HERE}/fake_replica", "relay": f"{HERE}/fake_relay"}
MEBIBYTE = 1 << 20
PATIENCE = 15  # seconds that something has to come about


class Failed(Exception):
    """What was not as it must be."""


def check(holds, text):
    if not holds:
        raise Failed(text)


def until(condition, text, seconds=PATIENCE):
    """Waits until the condition gives something true, and gives that."""
    end = time.monotonic() + seconds
    while not (found := condition()):
        check(time.monotonic() < end, f"{text}: not within {seconds} s")
        time.sleep(0.05)
    return found


def free_ports(count):
    """Ports that were free a moment ago, for TCP and for UDP, of those from which no connection begins: such a one would take that of a replica that is gone."""
    least = int(Path("/proc/sys/net/ipv4/ip_local_port_range").read_text().split()[0])
    ports = []
    while len(ports) < count:
        port = random.randrange(least // 2, least)
        if port not in ports and is_free(port):
            ports.append(port)
    return ports


def is_free(port):
    try:
        for kind in (socket.SOCK_STREAM, socket.SOCK_DGRAM):
            with socket.socket(socket.AF_INET, kind) as one:
                one.bind(("127.0.0.1", port))
        return True
    except OSError:
        return False


def children(process):
    """The ids of the processes that one has started."""
    try:
        return [int(word) for word in Path(f"/proc/{process}/task/{process}/children").read_text().split()]
    except OSError:
        return []


def below(process):
    return [each for child in children(process) for each in (child, *below(child))]


def words_of(process):
    """The words of a process that runs, else none."""
    try:
        return Path(f"/proc/{process}/cmdline").read_bytes().split(b"\0")[:-1]
    except OSError:
        return []


def is_gone(process):
    """Whether it has ended with all its threads, so that all that it had open is closed."""
    try:
        state = Path(f"/proc/{process}/stat").read_text().rpartition(")")[2].split()[0]
        return state in "XZ" and len(list(Path(f"/proc/{process}/task").iterdir())) == 1
    except OSError:
        return True


def used(process):
    """The seconds of processors that a process has taken."""
    fields = Path(f"/proc/{process}/stat").read_text().rpartition(")")[2].split()
    return (int(fields[11]) + int(fields[12])) / os.sysconf("SC_CLK_TCK")


def peak(process):
    """The most memory that a process had, in bytes."""
    (line,) = [line for line in Path(f"/proc/{process}/status").read_text().splitlines() if line.startswith("VmHWM")]
    return int(line.split()[1]) * 1024


# words of `tools/bfs keys`: keys that are made at once, and sign in 32,768 turns, or in 31 views and 32,766 batches
QUICK = "--heights", "5,5,5", "--replica-heights", "5,5,5,5"
# keys that sign in 2^25 turns, or in 1,023 views and 2^20 - 2 batches; their relay and replicas start later
LASTING = "--heights", "5,10,10", "--replica-heights", "10,10,5,5"
# the same relay's, and replicas' of 32,766 batches, by which a replica in Python signs in any view at once
SPREAD = "--heights", "5,10,10", "--replica-heights", "10,5,5,5"
UNSIGNED = ("--unsigned",)


class Service:
    """A deployment of these filters in a folder: what `tools/bfs up` started, and what was started beside it. `more` stands in cluster.toml, too."""

    def __init__(self, folder, faults=1, clients=8, programs=FAKES, more="", signing=QUICK):
        self.folder, self.log, self.started, self.programs = folder, Path(f"{folder}.log"), [], programs
        *self.replicas, self.relay, self.portmap = [("127.0.0.1", port) for port in free_ports(3 * faults + 3)]
        text = lambda address: f'"{address[0]}:{address[1]}"'
        self.bfs("keys", folder, "--f", str(faults), "--clients", str(clients), "--relay", text(self.relay).strip('"'), *signing)
        listed, addresses = ", ".join(map(text, self.replicas)), f"relay = {text(self.relay)}\nportmap = {text(self.portmap)}\n"
        more = text_of_signers(read_cluster(folder)) + more
        Path(folder, "cluster.toml").write_text(f"f = {faults}\nclients = {clients}\nreplicas = [{listed}]\n{addresses}{more}")

    def bfs(self, *words):
        """What a command of `tools/bfs` printed, and its status."""
        run = subprocess.run([sys.executable, BFS, *words], stdout=subprocess.PIPE, stderr=subprocess.STDOUT, text=True)
        return run.stdout, run.returncode

    def start(self, *words, **environment):
        """Starts a command that goes on."""
        programs = [f"--{name}-program={path}" for name, path in self.programs.items()]
        with open(self.log, "ab") as log:
            command = [sys.executable, BFS, *words, self.folder, *programs]
            self.started.append(subprocess.Popen(command, stdout=log, stderr=log, stdin=subprocess.DEVNULL, env={**os.environ, **environment}))
        return self.started[-1]

    def said(self, text):
        return text in self.log.read_text(errors="replace")

    def up(self, **environment):
        """Starts all, and waits until each is connected with each. From one that lies nothing is wanted: others may close what it sends on."""
        process = self.start("up", **environment)
        each = [number for number in range(len(self.replicas)) if str(number) != environment.get("LIAR")]
        wanted = [f"replica {one}: replica {other} is connected" for one in each for other in each if one != other]
        wanted += [f"relay: replica {one} is connected" for one in each]
        if self.programs is FAKES:
            wanted += ["fake relay begins"] + [f"replica {one}: a fake replica begins" for one in each]
        until(lambda: all(map(self.said, wanted)), "all are connected")
        return process

    def process_of(self, *words):
        """The id of the running transport with these words, and of its filter."""
        for process in self.running():
            if words_of(process)[1:][: len(words)] == [word.encode() for word in words] and children(process):
                return process, children(process)[0]
        return None

    def running(self):
        own = [process.pid for process in self.started if process.poll() is None]
        return own + [each for process in own for each in below(process)]

    def end(self, process, number=signal.SIGTERM):
        """Ends one that was started here, and gives its status and what of its own still runs then."""
        own = [(each, words_of(each)) for each in below(process.pid)]
        process.send_signal(number)
        status = process.wait(PATIENCE)
        left = lambda: [each for each, words in own if words and words_of(each) == words]
        end = time.monotonic() + 5
        while left() and time.monotonic() < end:
            time.sleep(0.05)
        return status, left()

    def end_all(self):
        """By force: nothing of it is left behind a failed check either."""
        for process in self.running():
            try:
                os.kill(process, signal.SIGKILL)
            except ProcessLookupError:
                pass
        for process in self.started:
            process.wait()
