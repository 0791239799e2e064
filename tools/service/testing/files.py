"""A check with files: a client that makes, writes and reads them, over replicas that serve the files of outside/."""
import struct
import time

from service.testing.calls import Stream, marked
from service.testing.running import check, until

UNSET = 0xFFFFFFFF
MOUNT = 100_005


def text(data):
    return struct.pack(">I", len(data)) + data + bytes(-len(data) % 4)


def settings(mode):
    return struct.pack(">8I", mode, UNSET, UNSET, UNSET, UNSET, UNSET, UNSET, UNSET)


class Client:
    """Calls one after another, of user 0 (RFC 5531 appendix A)."""

    def __init__(self, address):
        self.stream, self.xid = Stream(address), 0

    def call(self, procedure, arguments=b"", program=100_003, version=2):
        """The results of a call that was accepted."""
        self.xid += 1
        credential = struct.pack(">II5I", 1, 20, 0, 0, 0, 0, 0)
        head = struct.pack(">6I", self.xid, 0, 2, program, version, procedure)
        self.stream.send(marked(head + credential + bytes(8) + arguments))
        reply = self.stream.reply()
        if not reply:
            raise ConnectionError("the connection was closed")
        check(reply[:24] == struct.pack(">6I", self.xid, 1, 0, 0, 0, 0), f"procedure {procedure}: {reply[:28].hex()}")
        return reply[24:]

    def good(self, procedure, arguments):
        """What follows the status 0."""
        results = self.call(procedure, arguments)
        check(results[:4] == bytes(4), f"procedure {procedure}: status {results[:4].hex()}")
        return results[4:]


def files(service):
    """Directories and files are made, written, read, listed and renamed; what was written is read, and all replicas have one digest."""
    process = service.up(FILES="1")
    client = Client(service.relay)
    status, root = (lambda reply: (reply[:4], reply[4:36]))(client.call(1, text(b"/"), MOUNT, 1))
    check(status == bytes(4), "MNT")
    directory = client.good(14, root + text(b"work") + settings(0o755))[:32]
    begun, made = time.monotonic(), 0
    while made < 20 and time.monotonic() - begun < 10:
        name, data = b"file %d" % made, (b"%d " % made) * 2_000
        handle = client.good(9, directory + text(name) + settings(0o644))[:32]
        client.good(8, handle + struct.pack(">III", 0, 0, 0) + text(data))
        read = client.good(6, handle + struct.pack(">III", 0, 8_192, 0))
        check(read[68:] == text(data), "other data")
        client.good(11, directory + text(name) + directory + text(b"new " + name))
        check(b"new " + name in client.good(16, directory + struct.pack(">II", 0, 8_192)), "it isn't listed")
        made += 1
    check(made, "none was made")
    digests = lambda: {line.split()[5] for line in service.bfs("status", service.folder)[0].splitlines()[1:5]}
    until(lambda: len(digests()) == 1, f"one digest of {digests()}")
    status, left = service.end(process)
    check(status == 0 and not left, f"status {status}, left {left}")
