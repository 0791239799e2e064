"""A client of RPC for tests: calls by TCP with record marks, and by UDP."""
import socket
import struct
import time

from service.testing.running import check

LAST = 1 << 31


def call(xid, procedure=0, arguments=b"", program=100_003):
    """A call of NFS version 2 without a credential, or of another program's version 2."""
    return struct.pack(">10I", xid, 0, 2, program, 2, procedure, 0, 0, 0, 0) + arguments


def marked(record, *cuts):
    """A record in fragments, cut at these places."""
    ends = [0, *cuts, len(record)]
    fragments = [record[begin:end] for begin, end in zip(ends, ends[1:])]
    return b"".join(struct.pack(">I", len(fragment) | (LAST if number == len(fragments) - 1 else 0)) + fragment for number, fragment in enumerate(fragments))


class Stream:
    """A connection to the relay, at that address or made already."""

    def __init__(self, where, timeout=10):
        self.socket, self.data = where if isinstance(where, socket.socket) else socket.create_connection(where), b""
        self.socket.settimeout(timeout)
        self.socket.setsockopt(socket.IPPROTO_TCP, socket.TCP_NODELAY, 1)

    def send(self, data):
        self.socket.sendall(data)

    def reply(self):
        """The next record, or nothing where the connection was closed."""
        while len(self.data) < 4 or len(self.data) < 4 + self.length():
            more = self.socket.recv(1 << 18)
            if not more:
                return b""
            self.data += more
        record, self.data = self.data[4 : 4 + self.length()], self.data[4 + self.length() :]
        return record

    def length(self):
        return struct.unpack_from(">I", self.data)[0] & ~LAST

    def calls_a_second(self, outstanding, seconds, arguments=b""):
        """How many calls are answered in a second, with so many outstanding ones."""
        begun, answered, xid = time.monotonic(), 0, 1 << 20
        self.send(b"".join(marked(call(xid + number, 1, arguments)) for number in range(outstanding)))
        xid += outstanding
        while (passed := time.monotonic() - begun) < seconds:
            self.reply()
            replies = 1
            while len(self.data) >= 4 and len(self.data) >= 4 + self.length():
                self.reply()
                replies += 1
            self.send(b"".join(marked(call(xid + number, 1, arguments)) for number in range(replies)))
            xid, answered = xid + replies, answered + replies
        return answered / passed

    def close(self):
        self.socket.close()


def executed(reply, xid, arguments=b""):
    """How many requests were executed before the call of this reply, which is to have that call in it."""
    check(reply[:24] == struct.pack(">6I", xid, 1, 0, 0, 0, 0), f"reply {reply[:40].hex()} to xid {xid}")
    check(reply[32:] == call(xid, 1, arguments)[4:], f"reply with the call {reply[32:100].hex()}")
    return struct.unpack_from(">Q", reply, 24)[0]


def one_call(service, xid, arguments=b""):
    stream = Stream(service.relay)
    try:
        stream.send(marked(call(xid, 1, arguments)))
        return executed(stream.reply(), xid, arguments)
    finally:
        stream.close()
