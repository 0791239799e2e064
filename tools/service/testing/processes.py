"""Checks of processes that end, are killed, and are started again."""
import os
import random
import signal
import socket
import struct

from service.testing.frames import ASK_REPORT, CALL, ORDER, RELAY, REPLICA, REQUEST, STATE, framed
from service.testing.calls import call, one_call
from service.testing.peer import HUGE, Peer, hello
from service.testing.running import MEBIBYTE, PATIENCE, check, children, until, words_of


def killed_filter(service):
    """Where a filter is killed, its transport says so and ends with 3; the others go on, and connect again to the next one."""
    _, its_filter = service.process_of("replica", "3")
    os.kill(its_filter, signal.SIGKILL)
    until(lambda: service.said("replica 3: its filter: it was ended by signal 9"), "the line on the filter")
    until(lambda: service.said("up: replica 3 has ended with status 3"), "the line of `up`")
    one_call(service, 15)
    said, status = service.bfs("status", service.folder)
    check(status == 1 and "no connection: Connection refused" in said.splitlines()[4], said)


def in_its_place(service):
    """Where replica 3 was, a listener gets the hello of each other one, and what goes to all; rubbish is closed and dialed again."""
    listener = socket.create_server(service.replicas[3])
    listener.settimeout(PATIENCE)
    peers = {}
    while len(peers) < 4:
        peer = Peer(listener.accept()[0])
        magic, role, first, count = struct.unpack(">4sBII", peer.take(13))
        check(magic == b"BFS1" and (role, first, count) in ((RELAY, 0, 8), *((REPLICA, k, 1) for k in range(3))), f"hello {role} {first} {count}")
        peers[role, first] = peer
    number = one_call(service, 16)
    for sender, wanted in ((0, {b"P", b"c"}), (1, {b"p", b"c"})):
        steps = set()
        while steps != wanted:
            kind, payload = peers[REPLICA, sender].frame()
            check(kind == ORDER and payload[:1] in wanted, f"frame {kind} {payload[:1]} of replica {sender}")
            steps.add(payload[:1])
    until(lambda: peers[RELAY, 0].frame()[0] == REQUEST, "the request")
    rubbish_of_a_replica(peers[REPLICA, 0])
    for who, data in ((1, HUGE), (2, framed(ASK_REPORT))):
        peers[REPLICA, who].send(data)
        check(peers[REPLICA, who].is_closed(), f"{data[:5].hex()}: it is open")
        peers[REPLICA, who].close()
        peers[REPLICA, who] = Peer(listener.accept()[0])
        check(peers[REPLICA, who].take(13) == hello(REPLICA, who, 1), "another hello")
    # a call with a ticket, which the relay is not to take for one of a kernel
    peers[RELAY, 0].send(framed(CALL, struct.pack(">Q", 1 << 40) + call(90, 1)))
    check(peers[RELAY, 0].is_closed(), "a call of a replica: it is open")
    for peer in peers.values():
        peer.close()
    listener.close()
    check((found := one_call(service, 17)) == number + 1, f"{found - number - 1} other calls were executed between")


def rubbish_of_a_replica(peer):
    """Frames of unknown kinds, of few bytes and of many, are carried and passed over."""
    words = random.Random(2)
    for _ in range(200):
        peer.send(framed(words.randrange(14, 256), words.randbytes(words.randrange(300))) + framed(words.randrange(1, 6), words.randbytes(words.randrange(12))))
    peer.send(framed(STATE, struct.pack(">I", 3) + bytes(5 * MEBIBYTE)))


def killed_transport(service):
    """A replica's transport and filter are started again by hand; killed with -9, its filter ends too, and others connect to the next one."""
    for _ in range(2):
        count = service.log.read_text().count("replica 0: replica 3 is connected")
        transport = service.start("replica", "3")
        until(lambda: service.log.read_text().count("replica 0: replica 3 is connected") > count, "replica 0 is connected again")
        until(lambda: children(transport.pid), "its filter")
        status, left = service.end(transport, signal.SIGKILL)
        check(status == -signal.SIGKILL and not left, f"status {status}, left {left}")
    one_call(service, 18)


def relay_again(service):
    """The relay is ended and started again: it serves, and what was started by `up` isn't needed."""
    process, its_filter = service.process_of("relay")
    os.kill(process, signal.SIGTERM)
    until(lambda: not words_of(its_filter), "its filter ends")
    relay = service.start("relay")
    until(lambda: children(relay.pid), "its filter")
    until(lambda: connects(service.relay), "it listens")
    one_call(service, 19)
    status, left = service.end(relay)
    check(status == 0 and not left, f"status {status}, left {left}")


def connects(address):
    try:
        socket.create_connection(address).close()
        return True
    except OSError:
        return False


def ctrl_c(service):
    """Ctrl-C ends all, and leaves nothing."""
    status, left = service.end(service.started[0], signal.SIGINT)
    check(status == 0 and not left, f"status {status}, left {[words_of(each) for each in left]}")
    check("Traceback" not in service.log.read_text(), "a fault in Python")


def liar(service):
    """One of four that lies in each reply changes nothing; all end where `up` is killed with -9."""
    process = service.up(LIAR="2")
    for xid in range(20, 25):
        one_call(service, xid)
    status, left = service.end(process, signal.SIGKILL)
    check(not left, f"left {[words_of(each) for each in left]}")


def no_filters(service):
    """Programs that are no filters: one that ends at once, and one that writes rubbish. The line says which, and the status is 3."""
    for name, how in (("true", "it ended with status 0"), ("yes", "what it writes is no answer")):
        said, status = service.bfs("replica", "0", service.folder, f"--replica-program=/usr/bin/{name}")
        check(status == 3 and f"replica 0: its filter: {how}" in said, f"{name}: {status}, {said}")


def alone(service):
    """With f = 0 one replica serves."""
    process = service.up()
    check([one_call(service, xid) for xid in range(3)] == [0, 1, 2], "executed")
    status, left = service.end(process)
    check(status == 0 and not left, f"status {status}, left {[words_of(each) for each in left]}")


ALL = killed_filter, in_its_place, killed_transport, relay_again, ctrl_c
