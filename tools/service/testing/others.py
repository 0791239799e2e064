"""Checks of what replicas, relays, operators and strangers may send a replica's transport."""
import random
import struct
import time

from service.testing.frames import ASK_REPORT, OPERATOR, RELAY, REPLICA, REPLY, REPORT, REQUEST, STATE, framed
from service.testing.calls import call, executed, one_call
from service.testing.peer import HUGE, Peer, hello
from service.testing.running import MEBIBYTE, check, peak, used, words_of


def strangers(service):
    """Who says no hello, or one that can't be, is closed."""
    said = [b"GET / HTTP/1.1\r\n\r\n", b"BFS2" + bytes(9), hello(3, 0, 1), hello(REPLICA, 1, 1), hello(REPLICA, 3, 1), hello(REPLICA, 9, 1), hello(REPLICA, 0, 2)]
    said += [hello(RELAY, 0, 0), hello(RELAY, 0, 1 << 31), hello(OPERATOR, 0, 0) + framed(REQUEST, bytes(20)), random.randbytes(64)]
    peers = [Peer(service.replicas[1], data) for data in said]
    for peer, data in zip(peers, said):
        check(peer.is_closed(), f"{data[:13].hex()}: it is open")
        peer.close()


def relays(service):
    """Replies go to the relay that speaks for their client, and to no other; also where many say later that they do."""
    mine = [Peer(address, hello(RELAY, 500, 2)) for address in service.replicas]
    others = [Peer(address, hello(RELAY, 502, 2), 0.1) for address in service.replicas]
    others_for_it = [Peer(address, hello(RELAY, 490, 20)) for address in service.replicas for _ in range(6)]
    time.sleep(0.2)  # that the others are there, too
    request = struct.pack(">IQ", 501, 1) + call(3, 1)
    for peer in mine:
        peer.send(framed(REQUEST, request[:7]) + framed(REQUEST, request))
    for number, peer in enumerate(mine):
        kind, payload = peer.frame()
        check(kind == REPLY and struct.unpack_from(">IQI", payload) == (501, 1, number), f"frame {kind} {payload[:16].hex()}")
        executed(payload[16:], 3)
    for peer in others:
        check(not peer.is_closed(), "it is closed")
        peer.close()
    for peer in mine + others_for_it:
        peer.close()


def rubbish(service):
    """What a relay may not send closes its connection; others are served."""
    words = random.Random(1)
    for data in (HUGE, framed(STATE), framed(200, b"?"), struct.pack(">BI", REQUEST, 65_537), words.randbytes(100_000)):
        peer = Peer(service.replicas[0], hello(RELAY, 600, 1) + framed(REQUEST, words.randbytes(words.randrange(12))) + data)
        check(peer.is_closed(), f"{data[:8].hex()}: it is open")
        peer.close()
    one_call(service, 13)


def flood(service):
    """A peer that sends as fast as it can holds up no other, and takes no memory."""
    process, _ = service.process_of("replica", "2")
    peer = Peer(service.replicas[2], hello(RELAY, 700, 1), 5)
    data, begun, sent = framed(REQUEST, bytes(8)) * 5_000 + framed(REQUEST, bytes(50_000)), time.monotonic(), 0
    while time.monotonic() - begun < 2:
        peer.send(data)
        sent += len(data)
    one_call(service, 14)
    check(peak(process) < 200 * MEBIBYTE, f"its transport had {peak(process) / MEBIBYTE:.0f} MiB behind {sent / MEBIBYTE:.0f} MiB")
    check(words_of(process), "it is gone")
    peer.close()


def many(service):
    """Where there are too many connections, a silent one goes, and who has something to say is heard."""
    peers = [Peer(service.replicas[1], timeout=3) for _ in range(300)]
    one_call(service, 27)
    asked = Peer(service.replicas[1], hello(OPERATOR, 0, 0) + framed(ASK_REPORT))
    check(asked.frame()[0] == REPORT, "no report")
    check(sum(peer.is_closed() for peer in peers[:20]) == 20, "the oldest are open")
    for peer in (*peers, asked):
        peer.close()


def reports(service):
    """`status` prints a row for each replica; operators that ask at one time are all answered."""
    said, status = service.bfs("status", service.folder)
    lines = said.splitlines()
    check(status == 0 and len(lines) == 6 and lines[5].startswith("relay 127.0.0.1:") and ": answers in " in lines[5], said)
    check(lines[0].split() == ["replica", "view", "last", "executed", "waiting", "digest", "turns", "memory"], said)
    peers = [Peer(service.replicas[0], hello(OPERATOR, 0, 0) + framed(ASK_REPORT)) for _ in range(5)]
    for peer in peers:
        kind, payload = peer.frame()
        check(kind == REPORT and payload.startswith(b"view=0"), f"frame {kind} {payload}")
        peer.close()


def ticks(service):
    """Without anything to do there are ten turns a second, at the clock's time (the fakes end where a turn's time is wrong)."""
    turns = lambda: int(service.bfs("status", service.folder)[0].splitlines()[4].split()[6])
    begun, before = time.monotonic(), turns()
    time.sleep(1)
    after, passed = turns(), time.monotonic() - begun
    check(5 <= (after - before) / passed <= 20, f"{after - before} turns in {passed:.1f} s")


def quiet(service):
    """With nothing to do, no transport is busy, whatever came before."""
    transports = [service.process_of(*words)[0] for words in (["relay"], *(["replica", str(number)] for number in range(4)))]
    time.sleep(0.5)
    before = [used(each) for each in transports]
    time.sleep(2)
    took = [used(each) - then for each, then in zip(transports, before)]
    check(max(took) < 0.2, f"seconds of processors in 2 s: {took}")


ALL = strangers, relays, rubbish, flood, many, reports, ticks, quiet
