"""Checks of calls, by TCP and UDP."""
import random
import resource
import socket
import struct
import threading
import time

from service.testing.calls import Stream, call, executed, marked, one_call
from service.testing.peer import Peer
from service.testing.running import MEBIBYTE, PATIENCE, check, peak


def fragments(service):
    """Records in fragments, and fragments in segments of one byte, several calls at a time: each has its reply."""
    stream = Stream(service.relay)
    stream.send(marked(call(1, 1, b"abcd"), 1, 5, 5, 40))
    executed(stream.reply(), 1, b"abcd")
    for byte in marked(call(2, 1), 7):
        stream.send(bytes([byte]))
    executed(stream.reply(), 2)
    stream.send(b"".join(marked(call(xid, 1, bytes(8192)), 4096) for xid in range(10, 40)))
    replies = {struct.unpack_from(">I", reply)[0]: reply for reply in (stream.reply() for _ in range(30))}
    numbers = sorted(executed(replies[xid], xid, bytes(8192)) for xid in range(10, 40))
    check(numbers == list(range(numbers[0], numbers[0] + 30)), f"executed {numbers}")
    stream.close()


def datagrams(service):
    """A call by UDP has its reply; sent again, it has the same, and isn't executed again; other bytes with its xid are another call."""
    caller = socket.socket(socket.AF_INET, socket.SOCK_DGRAM)
    caller.settimeout(PATIENCE)
    caller.connect(service.relay)
    ask = lambda data: (caller.send(data), caller.recv(1 << 16))[1]
    first = ask(call(77, 1, b"u"))
    number = executed(first, 77, b"u")
    check(ask(call(77, 1, b"u")) == first, "another reply")
    check(executed(ask(call(77, 1, b"v")), 77, b"v") == number + 1, "other bytes are no other call")
    caller.close()


def doubled(service):
    """A call that comes again while it is under way is executed once, and answered once at least."""
    stream = Stream(service.relay)
    stream.send(marked(call(5, 1)) * 20 + marked(call(6, 1)))
    numbers = {}
    while 6 not in numbers:
        reply = stream.reply()
        xid = struct.unpack_from(">I", reply)[0]
        numbers.setdefault(xid, set()).add(executed(reply, xid))
    check(len(numbers[5]) == 1 and numbers[6] == {min(numbers[5]) + 1}, f"executed {numbers}")
    stream.close()


def again(service):
    """A kernel whose connection broke, and which sends its call again from the same port, gets the first reply."""
    replies, port = [], 0
    for _ in range(2):
        caller = socket.socket()
        caller.setsockopt(socket.SOL_SOCKET, socket.SO_REUSEADDR, 1)
        caller.setsockopt(socket.SOL_SOCKET, socket.SO_LINGER, struct.pack("ii", 1, 0))  # it is reset, and its port is free at once
        caller.bind(("127.0.0.1", port))
        caller.connect(service.relay)
        port = caller.getsockname()[1]
        stream = Stream(caller)
        stream.send(marked(call(50, 1, b"again")))
        replies.append(stream.reply())
        stream.close()
    executed(replies[0], 50, b"again")
    check(replies[0] == replies[1], "another reply")


def mute(service):
    """What is no call, or has no reply, gets none, and holds up nothing, however often it comes."""
    stream = Stream(service.relay)
    xids = iter(range(1_000, 10_000))
    replies = [struct.pack(">10I", next(xids), 1, *range(8)) for _ in range(1_500)]
    long = [call(next(xids))[:28] + struct.pack(">I", 401) + bytes(412) for _ in range(1_500)]
    short = [call(next(xids))[:cut] for cut in (*range(40), *[36] * 1_500)]
    stream.send(b"".join(map(marked, [call(8, 99), *replies, *long, *short, call(9, 1)])))
    executed(stream.reply(), 9)
    stream.close()


def long_records(service):
    """A record above the limit, or of endless fragments, closes its connection, and no other."""
    for rubbish in (struct.pack(">I", 0x7FFFFFFF), struct.pack(">I", 0) * 5_000, marked(bytes(16_385)), random.randbytes(100_000)):
        peer = Peer(service.relay)
        peer.send(rubbish)
        check(peer.is_closed(), f"{rubbish[:8].hex()}: it is open")
        peer.close()
    one_call(service, 11)


def thousands(service):
    """Who sends thousands of calls at once, more than may be under way, has all replies, and others are served meanwhile."""
    stream, others = Stream(service.relay), Stream(service.relay)
    calls = b"".join(marked(call(xid, 1)) for xid in range(20_000, 23_000))
    sender = threading.Thread(target=stream.send, args=(calls,))
    sender.start()
    others.send(marked(call(24_000, 1)))
    executed(others.reply(), 24_000)
    seen = {struct.unpack_from(">I", stream.reply())[0] for _ in range(3_000)}
    check(seen == set(range(20_000, 23_000)), f"{len(seen)} replies")
    sender.join()
    others.close()
    stream.close()


def deaf(service):
    """Who sends calls and reads no reply is read no more, and others are served."""
    stream = Stream(service.relay, 1)
    begun = time.monotonic()
    try:
        for xid in range(100, 20_000):
            stream.send(marked(call(xid, 1, bytes(8192))))
            if time.monotonic() - begun > 20:
                break
    except TimeoutError:
        pass
    else:
        check(False, "all was taken")
    one_call(service, 12)
    relay, _ = service.process_of("relay")
    check(peak(relay) < 200 * MEBIBYTE, f"the relay's transport had {peak(relay) / MEBIBYTE:.0f} MiB")
    stream.close()


def port_mapper(service):
    """It knows the relay's port, by TCP and UDP, and answers what can be read of rubbish."""
    wanted = lambda program, version, protocol: struct.pack(">4I", program, version, protocol, 0)
    head = struct.pack(">6I", 30, 1, 0, 0, 0, 0)
    port = lambda number: head + struct.pack(">I", number)
    questions = [(wanted(100_003, 2, 6), service.relay[1]), (wanted(100_005, 1, 17), service.relay[1]), (wanted(100_003, 3, 6), 0), (wanted(100_021, 1, 6), 0)]
    stream, caller = Stream(service.portmap), socket.socket(socket.AF_INET, socket.SOCK_DGRAM)
    caller.settimeout(PATIENCE)
    caller.connect(service.portmap)
    for arguments, number in questions:
        asked = call(30, 3, arguments, 100_000)
        caller.send(random.randbytes(100))
        caller.send(asked)
        check(caller.recv(1 << 16) == port(number), "another port by UDP")
        stream.send(marked(asked[:39]) + marked(asked, 20))
        check(stream.reply() == port(number), "another port by TCP")
    stream.send(marked(call(30, 4, b"", 100_000)) + marked(call(30, 0, b"", 100_000)))
    check(len(stream.reply()) == 24 + 6 * 20 + 4 and stream.reply() == head, "DUMP and NULL")
    stream.close()
    peer = Peer(service.portmap)
    peer.send(random.randbytes(100_000))
    check(peer.is_closed(), "rubbish: it is open")
    one_call(service, 28)
    peer.close()
    caller.close()


def crowd(service):
    """Where there are too many connections, silent ones go, and who has something to say is heard."""
    _, most = resource.getrlimit(resource.RLIMIT_NOFILE)
    resource.setrlimit(resource.RLIMIT_NOFILE, (min(most, 4_096), most))
    peers = [Peer(service.relay, timeout=3) for _ in range(1_200)]
    for xid in range(30, 40):
        one_call(service, xid)
    check(sum(peer.is_closed() for peer in peers[:20]) == 20, "the oldest are open")
    for peer in peers:
        peer.close()


ALL = fragments, datagrams, doubled, again, mute, long_records, thousands, deaf, port_mapper, crowd
