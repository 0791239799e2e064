"""The last reply of each client (OSDI 1999 section 4.1), and an ordered batch that is executed with it."""
from hashlib import sha256

from rpc import answer
from xdr import double, opaque, words


class Replies:
    """For each client the timestamp of its last request that was executed, and the reply to that."""

    def __init__(self, clients):
        self.last = [None] * clients

    def text(self):
        """What of it stands in the text of a replica, and is hashed into its digest."""
        items = (words(0) if last is None else words(1) + double(last[0]) + opaque(last[1]) for last in self.last)
        return words(len(self.last)) + b"".join(items)


def replica_digest(files, replies):
    return sha256(files.digest() + replies.text()).digest()


def execute(files, replies, time, requests):
    """Executes a batch, and gives the reply to each request: None where it is older than its client's last one, or its client unknown."""
    files.begin_batch(time)
    given = []
    for request in requests:
        known = request.client < len(replies.last)
        last = replies.last[request.client] if known else None
        if known and (last is None or request.timestamp > last[0]):
            last = request.timestamp, answer(files, files.last_time, request.call)
            replies.last[request.client] = last
        given.append(last[1] if last and last[0] == request.timestamp else None)
    return given
