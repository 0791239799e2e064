"""A check with a replica, a relay and a kernel that send all that they can: random frames, true ones with changes, false votes that are signed, and calls."""
import os
import random
import signal
import socket
import struct
import threading
import time
from pathlib import Path

from service.testing.calls import marked
from service.testing.files import MOUNT, text
from service.testing.frames import ASK_STATE, HELLO, NEW_VIEW, ORDER, RELAY, REPLICA, REPLY, REQUEST, STATE, STATUS, VIEW_CHANGE, framed
from service.testing.peer import Closed, Peer, hello
from service.testing.running import MEBIBYTE, check, peak, until, words_of
from service.testing.sessions import SLOW, Worker, kill, same
from service.testing.signing import CHECKPOINT, COMMIT, PREPARE, Signer

LIAR = 3  # the replica in whose place frames are sent
OF_REPLICAS = REQUEST, ORDER, VIEW_CHANGE, NEW_VIEW, REPLY, STATUS, ASK_STATE, STATE
SIZES = 0, 3, 12, 40, 60, 300, 5_000, 60_000  # of random payloads
KEPT = 64  # true frames of each kind
AT_ONCE = 20  # frames
MOST_MEMORY = 400 * MEBIBYTE
NFS, ROOT = 100_003, b"BFS2" + struct.pack(">II", 1, 2) + bytes(20)  # the program, and the root's handle
SIGNED = 8, 16  # bytes of each message that its keyed hashes are of
EDGES = 0, 1, 16, 32, 33, 1 << 31, (1 << 32) - 1


def listener_at(address):
    """None where one that was killed still listens there."""
    try:
        return socket.create_server(address)
    except OSError:
        return None


class Place:
    """Where a replica was: a listener, the connections of others to it, and some of the frames that came, by their kinds."""

    def __init__(self, address, words):
        self.listener, self.peers, self.words = until(lambda: listener_at(address), "its port is free"), {}, words
        self.frames = {ASK_STATE: [struct.pack(">IQQQ", LIAR, 0, 0, 0)]}
        threading.Thread(target=self.accept, daemon=True).start()

    def accept(self):
        try:
            while True:
                peer = Peer(self.listener.accept()[0], timeout=None)
                threading.Thread(target=self.hear, args=(peer,), daemon=True).start()
        except OSError:
            pass  # it is closed

    def hear(self, peer):
        try:
            _, role, first, _ = HELLO.unpack(peer.take(HELLO.size))
            self.peers[role, first] = peer
            while True:
                kind, payload = peer.frame()
                kept = self.frames.setdefault(kind, [])
                if len(kept) < KEPT:
                    kept.append(payload)
                elif self.words.random() < 0.1:
                    kept[self.words.randrange(KEPT)] = payload
        except (Closed, OSError):
            peer.close()

    def close(self):
        self.listener.close()
        for peer in self.peers.values():
            peer.close()


class Thrower:
    """Makes frames that one of the f faulty replicas, or a relay, may send."""

    def __init__(self, words, signer, frames):
        self.words, self.signer, self.frames = words, signer, frames

    def payload(self, kind):
        way = self.words.randrange(4)
        if way == 0:
            return self.words.randbytes(self.words.choice(SIZES))
        if way == 1 and kind == ORDER:
            return self.vote()
        if true := self.frames.get(kind if way < 3 else self.words.choice(list(self.frames))):
            return self.changed(self.words.choice(true))
        return self.words.randbytes(self.words.choice(SIZES))

    def number(self):
        return self.words.choice((*EDGES, self.words.randrange(200), self.words.randrange(1 << 64)))

    def vote(self):
        """One of this replica's, of any view, number and digest."""
        tag, digest = self.words.choice((PREPARE, COMMIT, CHECKPOINT)), self.words.randbytes(32)
        view = b"" if tag == CHECKPOINT else struct.pack(">Q", self.number())
        return self.signer.for_replicas(struct.pack(">II", tag, LIAR) + view + struct.pack(">Q", self.number()) + digest)

    def changed(self, true):
        """A true payload, or one with bytes changed, cut or added, one of those that its sender has signed among them. Who spoils the keyed hashes alone, of
        some receivers, can stop the service (docs/THREATS.md)."""
        data = bytearray(true)
        if len(data) < SIGNED[1] or self.words.randrange(8) == 0:
            return true
        data[self.words.randrange(*SIGNED)] ^= self.words.randrange(1, 256)
        for _ in range(self.words.randrange(4)):
            at, way = self.words.randrange(len(data) + 1), self.words.randrange(4)
            if way == 0:
                data[at : at + 1] = self.words.randbytes(1)
            elif way == 1:
                data[at & ~3 : (at & ~3) + 4] = struct.pack(">I", self.words.choice(EDGES))
            elif way == 2:
                del data[at : at + self.words.choice((1, 4, 1 << 16))]
            else:
                data[at:at] = self.words.randbytes(self.words.choice((1, 4, 32)))
        return bytes(data)

    def several(self, kinds):
        return b"".join(self.one(self.words.choice(kinds)) for _ in range(AT_ONCE))

    def one(self, kind):
        payload = self.payload(kind)[: 1 << 16]
        if kind in (ASK_STATE, STATE):  # in another's name they would close the connection
            payload = struct.pack(">I", LIAR) + payload[4:]
        return framed(kind, payload)


class Caller:
    """A kernel that sends calls of which the heads can be read, and reads what comes."""

    def __init__(self, address, words):
        self.socket, self.words, self.xid = socket.create_connection(address), words, 0
        self.socket.settimeout(SLOW)
        threading.Thread(target=self.hear, daemon=True).start()

    def hear(self):
        try:
            while self.socket.recv(1 << 18):
                pass
        except OSError:
            pass  # it is closed

    def send(self):
        """Calls of any procedure, most of them with the root's handle and a name, and bytes behind these."""
        records = []
        for _ in range(AT_ONCE):
            self.xid += 1
            handle = self.words.choice((ROOT, ROOT, ROOT[:11] + self.words.randbytes(1) + ROOT[12:], self.words.randbytes(32)))
            name = text(self.words.choice((b"..", b"x", b"y", self.words.randbytes(self.words.choice((0, 1, 8, 255, 256))))))
            rest = self.words.choice((struct.pack(">I", self.words.choice(EDGES)) * 8, self.words.randbytes(self.words.choice((0, 4, 36, 1_000, 8_192)))))
            program, version = self.words.choice(((NFS, 2), (NFS, 2), (NFS, 2), (NFS, 3), (MOUNT, 1)))
            head = struct.pack(">6I7I2I", self.xid, 0, 2, program, version, self.words.randrange(20), 1, 20, 0, 0, self.words.choice((0, 1)), 0, 0, 0, 0)
            records.append(marked(head + self.words.choice((handle + name + rest, handle + name + handle + name, handle + rest))))
        self.socket.sendall(b"".join(records))

    def close(self):
        self.socket.close()


def heard_of_views(service, place):
    """The primary is stopped for a while, so that frames of a change of views come, too."""
    _, primary = service.process_of("replica", "0")
    os.kill(primary, signal.SIGSTOP)
    end = time.monotonic() + 3
    try:
        while time.monotonic() < end and VIEW_CHANGE not in place.frames:
            time.sleep(0.1)
    finally:
        os.kill(primary, signal.SIGCONT)


def throw(service, thrower, place, count):
    """Sends so many frames and calls: to replicas as one of them and as a relay, and to the relay as a replica and as a kernel."""
    relays, caller = {}, Caller(service.relay, thrower.words)
    for sent in range(0, count, AT_ONCE):
        number = thrower.words.randrange(LIAR)
        way = thrower.words.randrange(8)
        if way == 0:
            caller.send()
        elif way == 1:
            if number not in relays or sent % 5_000 == 0:
                relays[number] = Peer(service.replicas[number], hello(RELAY, 900, 1), SLOW)
            relays[number].send(thrower.several([REQUEST]))
        elif way < 4:
            place.peers[RELAY, 0].send(thrower.several([REPLY, REPLY, *OF_REPLICAS]))
        else:
            place.peers[REPLICA, number].send(thrower.several(OF_REPLICAS))
    for each in (*relays.values(), caller):
        each.close()


def hostile(service):
    """Frames are thrown at replicas and the relay: none of these ends or takes much memory, and calls go on."""
    service.up()
    kill(service, "replica", str(LIAR))
    words = random.Random(service.frames)
    place = Place(service.replicas[LIAR], words)
    until(lambda: len(place.peers) == 4, "all are connected")
    worker = Worker(service, b"work")
    worker.goes_on()
    heard_of_views(service, place)
    worker.goes_on()
    processes = [process for name in (["relay"], ["replica", "0"], ["replica", "1"], ["replica", "2"]) for process in service.process_of(*name)]
    before, begun = worker.done, time.monotonic()
    throw(service, Thrower(words, Signer(Path(service.folder, f"replica-{LIAR}.toml")), place.frames), place, service.frames)
    thrown = time.monotonic() - begun
    worker.goes_on()
    kinds = ", ".join(f"{len(place.frames[kind])} of kind {kind}" for kind in sorted(place.frames))
    check(all(words_of(process) for process in processes), "one has ended")
    peaks = [peak(process) / MEBIBYTE for process in processes]
    print(f"hostile: {service.frames} frames and calls in {thrown:.1f} s, {(worker.done - before) * 2} true calls meanwhile; true frames: {kinds}")
    print(f"hostile: the most MiB of the relay's transport and filter, and of three replicas': {' '.join(f'{each:.0f}' for each in peaks)}")
    worker.end()
    check(max(peaks) * MEBIBYTE < MOST_MEMORY, f"MiB: {peaks}")
    place.close()
    same(service, range(LIAR))
    status, left = service.end(service.started[0])
    check(status == 0 and not left, f"status {status}, left {left}")
