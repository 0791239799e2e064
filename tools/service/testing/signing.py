"""Messages that a replica of the tests signs with its own keys, true or not (docs/CLUSTER.md, "Keys"; OSDI 1999 section 4)."""
import hashlib
import hmac
import struct
import tomllib
from pathlib import Path

from service import keys, signatures

REQUEST, PRE_PREPARE, PREPARE, COMMIT, CHECKPOINT, VIEW_CHANGE, NEW_VIEW, REPLY = range(1, 9)  # the words that the texts of messages begin with
VOTE = 56  # bytes of the body of a PRE-PREPARE, PREPARE or COMMIT: its word, sender, view, number and digest
LAST_VOTE = 48  # and of a CHECKPOINT, which has no view
DIGEST = 32
OF_PLACES = PRE_PREPARE, PREPARE, CHECKPOINT, VIEW_CHANGE, NEW_VIEW  # which a replica signs that has a key
SIGNATURE_MARK = 0xFFFF_FFFF  # stands in front of a signature, where keyed hashes have their number
RESULT = 32  # where the result of a REPLY begins, behind its word, sender, view, client, timestamp and length


def word(data, at=0):
    return struct.unpack_from(">I", data, at)[0] if len(data) >= at + 4 else None


def own_key(path):
    """The signing key of a replica with that document, which is beside it, if it has one."""
    path = Path(path).with_suffix(".key")
    return keys.signing_key_in(path.read_text()) if path.exists() else None


def index_of(key, body):
    """By which index of a replica's key that body is signed: of its view what asks for it, what begins it, and its votes by their numbers; behind all views
    CHECKPOINTs. None where it is of no such place, or the key is spent there."""
    first, second = struct.unpack(">QQ", body[8:24].ljust(16, b"\0"))
    views, below, vote = key.first.leaves - 1, 1 << sum(key.below), (first, second + 2)
    places = {PRE_PREPARE: vote, PREPARE: vote, CHECKPOINT: (views, first), VIEW_CHANGE: (first, 0), NEW_VIEW: (first, 1)}
    leaf, number = places.get(word(body), (views, below))
    return leaf * below + number if number < below and (leaf < views or word(body) == CHECKPOINT) else None


def signature_of(key, body):
    """The signature of what is of a place by the key, if there is one."""
    index = None if key is None else index_of(key, body)
    return None if index is None else signatures.sign_texts(key, index, [body])[0]


class Signer:
    """A replica's keys, from its document, and its signing key."""

    def __init__(self, path):
        document = tomllib.loads(Path(path).read_text())
        self.number, self.key = document["me"]["replica"], own_key(path)
        self.replicas = [bytes.fromhex(pair["sending"]) for pair in document["replicas"]]
        self.clients = [bytes.fromhex(pair["sending"]) for pair in document.get("clients", [])]

    def signed(self, keys, body, attached=b""):
        """The text of a message with that body."""
        return body + struct.pack(">I", len(keys)) + b"".join(hmac.digest(key, body, "sha256") for key in keys) + attached

    def for_replicas(self, body, attached=b""):
        signature = signature_of(self.key, body)
        if signature is None:
            return self.signed(self.replicas, body, attached)
        return body + struct.pack(">II", SIGNATURE_MARK, len(signature)) + signature + attached

    def with_other_result(self, reply):
        """A REPLY whose result has other bytes, signed."""
        client, (length,) = word(reply, 16), struct.unpack_from(">I", reply, RESULT - 4)
        result = bytearray(reply[RESULT : RESULT + length])
        result[-1:] = bytes([result[-1] ^ 1]) if result else b""
        padding = bytes(-length % 4)
        return self.signed([self.clients[client]], reply[:RESULT] + bytes(result) + padding)

    def with_other_digest(self, order):
        """A PREPARE, COMMIT or CHECKPOINT of another digest, signed."""
        size = LAST_VOTE if word(order) == CHECKPOINT else VOTE
        return self.for_replicas(order[: size - DIGEST] + hashlib.sha256(order[size - DIGEST : size]).digest())

    def with_other_batch(self, pre_prepare):
        """A PRE-PREPARE of the same requests at another time, signed."""
        hashes, length = struct.unpack_from(">II", pre_prepare, VOTE)
        batch = bytearray(pre_prepare[VOTE + (8 + length if hashes == SIGNATURE_MARK else 4 + DIGEST * hashes) :])
        if word(batch) == 1:  # seconds and microseconds are next
            batch[11] ^= 1
        return self.for_replicas(pre_prepare[: VOTE - DIGEST] + hashlib.sha256(batch).digest(), bytes(batch))
