"""service [f=N seconds=N clients=N replica=PATH relay=PATH heights=H,H,H unsigned=1 bfs=PATH ganesha=1]: what calls take through a relay and replicas.

GETATTRs and WRITEs of 8 KiB, 1 and 64 at a time, on this machine: calls a second, the median and the slowest hundredth of the times that calls took, and the
processor time of a call in transports (their part of both) and in filters; beside them what appending and syncing alone takes, in the folder where replicas
do that before they answer. Without programs the filters are bench/service/fakes.rs, which do next to nothing.
`heights=` are those of the trees by which the relay signs; with `unsigned=1` nothing is signed. `bfs=` names another checkout's tools/bfs. With `ganesha=1` it is Debian's
one NFS server in user space instead, alone and with its files in memory, by version 3 of NFS, since it speaks no version 2.
"""
import os
import pathlib
import shutil
import socket
import statistics
import struct
import subprocess
import sys
import time

import lib
from service import ganesha

SETTINGS = {"f": 1, "seconds": 5, "clients": 64, "replica": "", "relay": "", "bfs": str(lib.TOP / "tools/bfs"), "heights": "", "unsigned": 0, "ganesha": 0}
BLOCK, BLOCKS = 8_192, 64  # bytes of a WRITE, and how many of them the file has
AT_A_TIME = 1, 64
WARM = 0.5  # seconds before it is measured
PATIENCE = 60
RECORD, RECORDS = 1_024, 200  # bytes that are appended and synced, and how often
UNSET = bytes([255]) * 4
SECOND = os.sysconf("SC_CLK_TCK")
NFS, MOUNT = (100_003, 2), (100_005, 1)


class Client:
    """A kernel's part: calls of user 0 (RFC 5531), of which some are under way at a time."""

    def __init__(self, port):
        self.socket, self.data, self.xid = socket.create_connection(("127.0.0.1", port)), b"", 0
        self.socket.setsockopt(socket.IPPROTO_TCP, socket.TCP_NODELAY, 1)
        self.socket.settimeout(PATIENCE)

    def call(self, program, procedure, arguments):
        """The bytes of a call with its record mark, and its xid."""
        self.xid += 1
        call = struct.pack(">6I7I2I", self.xid, 0, 2, *program, procedure, 1, 20, 0, 0, 0, 0, 0, 0, 0) + arguments
        return struct.pack(">I", 1 << 31 | len(call)) + call

    def replies(self):
        """Those that are whole, one at least."""
        found = []
        while not found:
            more = self.socket.recv(1 << 20)
            if not more:
                sys.exit("the relay has closed the connection")
            self.data += more
            at = 0
            while len(self.data) >= at + 4 and len(self.data) >= (end := at + 4 + (struct.unpack_from(">I", self.data, at)[0] & ~(1 << 31))):
                found.append(self.data[at + 4 : end])
                at = end
            self.data = self.data[at:]
        for reply in found:
            if reply[4:28] != struct.pack(">6I", 1, 0, 0, 0, 0, 0):
                sys.exit(f"a reply is {reply[:32].hex()}")
        return found

    def ask(self, program, procedure, arguments):
        """What stands behind the status 0 of one call."""
        self.socket.sendall(self.call(program, procedure, arguments))
        return self.replies()[0][28:]

    def run(self, outstanding, seconds, calls):
        """Makes calls for so long, and gives how long each took."""
        begun, took, end = {}, [], time.monotonic() + seconds

        def send(count):
            now, data = time.monotonic(), []
            for _ in range(count):
                data.append(self.call(*next(calls)))
                begun[self.xid] = now
            self.socket.sendall(b"".join(data))

        send(outstanding)
        while begun:
            replies = self.replies()
            now = time.monotonic()
            took += [now - begun.pop(struct.unpack_from(">I", reply)[0]) for reply in replies]
            if now < end:
                send(len(replies))
        return took


def made_file(client):
    """The handle of a new file."""
    root = client.ask(MOUNT, 1, struct.pack(">I4s", 1, b"/"))[:32]
    return client.ask(NFS, 9, root + struct.pack(">I4s", 4, b"file") + struct.pack(">I", 0o644) + UNSET * 7)[:32]


def getattrs(handle):
    while True:
        yield NFS, 1, handle


def writes(handle):
    while True:
        for block in range(BLOCKS):
            yield NFS, 8, handle + struct.pack(">4I", 0, block * BLOCK, 0, BLOCK) + bytes([block]) * BLOCK


def children(process):
    return [int(word) for word in pathlib.Path(f"/proc/{process}/task/{process}/children").read_text().split()]


def used(processes):
    """The seconds of processors that they have taken."""
    fields = [pathlib.Path(f"/proc/{process}/stat").read_text().rpartition(")")[2].split() for process in processes]
    return sum(int(each[11]) + int(each[12]) for each in fields) / SECOND


def free_ports(count):
    sockets = [socket.create_server(("127.0.0.1", 0)) for _ in range(count)]
    ports = [each.getsockname()[1] for each in sockets]
    for each in sockets:
        each.close()
    return ports


class Service:
    """What `tools/bfs up` runs."""

    def __init__(self, room, settings, programs):
        folder, count = f"{room}/cluster", 3 * settings["f"] + 1
        *ports, self.port = free_ports(count + 1)
        bfs = sys.executable, settings["bfs"]
        words = ["--f", str(settings["f"]), "--clients", str(settings["clients"]), *lib.signing(settings)]
        subprocess.run([*bfs, "keys", folder, *words], check=True, stdout=subprocess.DEVNULL)
        path = pathlib.Path(folder, "cluster.toml")
        text = path.read_text().replace("127.0.0.1:2049", f"127.0.0.1:{self.port}")
        for number, port in enumerate(ports):
            text = text.replace(f"127.0.0.1:{7_000 + number}", f"127.0.0.1:{port}")
        path.write_text(text)
        self.log = pathlib.Path(room, "log")
        options = [f"--{name}-program={path}" for name, path in programs.items() if path]
        with open(self.log, "wb") as log:
            self.process = subprocess.Popen([*bfs, "up", folder, *options], stdin=subprocess.DEVNULL, stdout=log, stderr=log)
        self.wait(count)

    def wait(self, count):
        end = time.monotonic() + PATIENCE
        wanted = [f"replica {one}: replica {other} is connected" for one in range(count) for other in range(count) if one != other]
        wanted += [f"relay: replica {one} is connected" for one in range(count)]
        while not all(text in self.log.read_text() for text in wanted):
            if time.monotonic() > end or self.process.poll() is not None:
                self.end()
                sys.exit(self.log.read_text())
            time.sleep(0.1)
        self.transports = children(self.process.pid)
        self.filters = [each for transport in self.transports for each in children(transport)]

    def end(self):
        self.process.terminate()
        self.process.wait()


def fakes(room):
    """The fakes, built."""
    built = {name: f"{room}/fake_{name}" for name in ("replica", "relay")}
    subprocess.run(["rustc", "--edition=2021", "-O", "-o", built["replica"], lib.TOP / "bench/service/fakes.rs"], check=True)
    shutil.copy(built["replica"], built["relay"])
    return built


def measure(service, client, all_calls, seconds):
    print("calls         at a time   calls/s   median ms   99 % ms   transports us   filters us   transports   processors")
    for name, calls in zip(("GETATTR", "WRITE 8 KiB"), all_calls):
        for outstanding in AT_A_TIME:
            client.run(outstanding, WARM, calls)
            before, begun = (used(service.transports), used(service.filters)), time.monotonic()
            took = client.run(outstanding, seconds, calls)
            passed = time.monotonic() - begun
            transports, filters = (now - then for now, then in zip((used(service.transports), used(service.filters)), before))
            part, all_used = transports / (transports + filters or 1), (transports + filters) / passed
            median, late = statistics.median(took) * 1_000, statistics.quantiles(took, n=100)[-1] * 1_000
            each = lambda seconds: f"{seconds / len(took) * 1e6:,.0f}"
            line = f"{name:12}  {outstanding:9}  {len(took) / passed:8,.0f}  {median:10.2f}  {late:8.2f}  {each(transports):>14}  {each(filters):>11}"
            print(f"{line}  {part:10.0%}  {all_used:11.2f}")


def measure_syncs(room):
    """What it takes to append a record and to sync it."""
    took = []
    with open(f"{room}/journal", "ab", buffering=0) as file:
        for _ in range(RECORDS):
            begun = time.monotonic()
            file.write(bytes(RECORD))
            os.fdatasync(file.fileno())
            took.append(time.monotonic() - begun)
    median, late = statistics.median(took) * 1_000, statistics.quantiles(took, n=100)[-1] * 1_000
    print(f"append, sync  {1:9}  {len(took) / sum(took):8,.0f}  {median:10.2f}  {late:8.2f}")


def main(room, words):
    pairs = [word.partition("=") for word in words]
    lib.chosen([name for name, *_ in pairs], SETTINGS)
    settings = {**SETTINGS, **{name: type(SETTINGS[name])(value) for name, _, value in pairs}}
    if settings["ganesha"]:
        with ganesha.Server(room) as server:
            client = Client(server.port)
            measure(server, client, ganesha.calls(client, Client(server.mount_port), server.folder, BLOCK, BLOCKS), settings["seconds"])
        return
    programs = {name: settings[name] for name in ("replica", "relay")}
    if not any(programs.values()):
        programs = fakes(room)
    service = Service(room, settings, programs)
    try:
        client = Client(service.port)
        handle = made_file(client)
        measure(service, client, (getattrs(handle), writes(handle)), settings["seconds"])
        measure_syncs(room)
    finally:
        service.end()
