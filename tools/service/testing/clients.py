"""A check that a client which signs for itself, and is right for some replicas alone, stops no cluster whose clients sign."""
import time

from service.testing.frames import RELAY, REPLY, REQUEST, framed
from service.testing.outsiders import codec, messages
from service.testing.peer import Peer, hello
from service.testing.running import check, until
from service.testing.sessions import end, reports
from service.testing.single import NULL, client

CLIENTS, WAIT = 8, 2  # seconds, in which a request that waits would have the next view asked for


def wrong(one, other):
    """Requests in the name of the first of two clients, by what is wrong with them."""
    request = messages.Request(one.me, 1, NULL)
    hashed, signed = one.hashed(request), one.sign(request)
    anothers = other.sign(messages.Request(other.me, 1, NULL))
    yield "keyed hashes", hashed
    for receiver in range(len(hashed.entries)):
        right = tuple(entry if number == receiver else bytes(32) for number, entry in enumerate(hashed.entries))
        yield f"a keyed hash that is right for replica {receiver} alone", messages.Signed(request, right)
    yield "no keyed hash", messages.Signed(request, ())
    for place in (3, 7, 40, len(signed.signature) // 2, len(signed.signature) - 1):
        changed = bytearray(signed.signature)
        changed[place] ^= 1
        yield f"a signature with byte {place} changed", messages.Signed(request, (), bytes(changed))
    yield "a signature that is cut", messages.Signed(request, (), signed.signature[:-1])
    yield "no signature", messages.Signed(request, (), b"")
    yield "another client's signature", messages.Signed(request, (), anothers.signature)
    yield "another request's signature", messages.Signed(messages.Request(one.me, 2, NULL), (), signed.signature)


def refused(service, peers, why, payload):
    """None of the replicas takes it: nothing waits, and nothing is executed."""
    for peer in peers:
        peer.send(framed(REQUEST, payload))
    rows = reports(service)
    check(all((row.get("executed"), row.get("waiting")) == ("0", "0") for row in rows), f"{why}: {rows}")


def one_client(service):
    """Each replica refuses each wrong request of a client, whoever it is right for, and asks for no view; then all execute its next right one."""
    count = len(service.replicas)
    for number in range(count):
        service.start("replica", str(number))
    connected = [f"replica {one}: replica {other} is connected" for one in range(count) for other in range(count) if one != other]
    until(lambda: all(map(service.said, connected)), "all are connected")
    peers = [Peer(address, hello(RELAY, 0, CLIENTS)) for address in service.replicas]
    one, other = (client(service.folder, number) for number in range(2))
    for why, signed in wrong(one, other):
        refused(service, peers, why, signed.text)
    time.sleep(WAIT)
    rows = reports(service)
    check(all((row["view"], row["asked"], row["executed"], row["waiting"]) == ("0", "0", "0", "0") for row in rows), f"{rows}")
    right = one.sign(messages.Request(one.me, 3, NULL)).text
    for peer in peers:
        peer.send(framed(REQUEST, right))
    for number, peer in enumerate(peers):
        kind, payload = peer.frame()
        reply = codec.decode(payload) if kind == REPLY else None
        check(reply and one.passes(reply, one.me) and (reply.message.sender, reply.message.timestamp) == (number, 3), f"frame {kind} {payload[:40].hex()}")
        peer.close()
    end(service)
