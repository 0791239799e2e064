"""A peer of transports for tests, which sends what it is told."""
import socket
import struct

from service.testing.frames import HELLO, MAGIC, STATE

HUGE = struct.pack(">BI", STATE, 0xFFFFFFFF)  # the head of a frame that is too large


class Closed(Exception):
    """The other side has closed the connection."""


class Peer:
    """A connection on which frames go, or rubbish."""

    def __init__(self, where, hello=b"", timeout=10):
        """To that address, or on a socket that was accepted."""
        self.socket = where if isinstance(where, socket.socket) else socket.create_connection(where)
        self.socket.settimeout(timeout)
        self.send(hello)

    def send(self, data):
        try:
            self.socket.sendall(data)
        except OSError:
            pass  # it is seen when something is read

    def take(self, count):
        data = b""
        while len(data) < count:
            try:
                more = self.socket.recv(count - len(data))
            except (ConnectionError, TimeoutError) as fault:
                raise Closed(str(fault)) from None
            if not more:
                raise Closed
            data += more
        return data

    def frame(self):
        """The next frame: its kind, and its payload."""
        kind, length = struct.unpack(">BI", self.take(5))
        return kind, self.take(length)

    def is_closed(self):
        """Whether the other side closes it, where it sends nothing more."""
        try:
            while True:
                self.take(1)
        except Closed as closed:
            return "timed out" not in str(closed)

    def close(self):
        self.socket.close()


def hello(role, first, count):
    return HELLO.pack(MAGIC, role, first, count)
