"""What replicas and clients say to one another (OSDI 1999 sections 4.1 to 4.4), and the bytes of it that keyed hashes are made of."""
from dataclasses import dataclass
from functools import cached_property
from hashlib import sha256

from xdr import double, opaque, words

REQUEST, PRE_PREPARE, PREPARE, COMMIT, CHECKPOINT, VIEW_CHANGE, NEW_VIEW, REPLY = range(1, 9)
SIGNATURE_MARK = 0xFFFF_FFFF  # stands in front of a signature, where keyed hashes have their number


@dataclass(frozen=True)
class Signed:
    """A message, and its sender's keyed hash for each receiver, or in the place of these a signature, which is for all."""

    message: object
    entries: tuple
    signature: bytes | None = None

    @cached_property
    def text(self):
        """The bytes that are sent. A PRE-PREPARE is followed by its batch, which its digest stands for in the keyed hashes."""
        behind = self.message.batch.text if self.message.tag == PRE_PREPARE else b""
        return self.message.body + self.authenticator + behind

    @property
    def authenticator(self):
        return words(len(self.entries)) + b"".join(self.entries) if self.signature is None else words(SIGNATURE_MARK) + opaque(self.signature)

    def read_by(self, receiver):
        """What a receiver reads of the authenticator: its keyed hash, or the whole signature."""
        return self.entries[receiver] if self.signature is None else self.signature


def texts(messages):
    """A list of signed messages."""
    return words(len(messages)) + b"".join(each.text for each in messages)


@dataclass(frozen=True)
class Batch:
    """Signed requests with the time that the primary proposes for them. Without a time it is the null request."""

    time: object
    requests: tuple = ()

    @cached_property
    def text(self):
        return words(0) if self.time is None else words(1, *self.time) + texts(self.requests)

    @cached_property
    def digest(self):
        return sha256(self.text).digest()


NULL = Batch(None)


@dataclass(frozen=True)
class Request:
    """A client's request: the call's bytes, by a timestamp that rises."""

    sender: int
    timestamp: int
    call: bytes
    tag = REQUEST

    @property
    def client(self):
        return self.sender

    @cached_property
    def body(self):
        return words(self.tag, self.sender) + double(self.timestamp) + opaque(self.call)


@dataclass(frozen=True)
class PrePrepare:
    sender: int
    view: int
    number: int
    batch: Batch
    tag = PRE_PREPARE

    @property
    def digest(self):
        return self.batch.digest

    @cached_property
    def body(self):
        return words(self.tag, self.sender) + double(self.view) + double(self.number) + self.digest


@dataclass(frozen=True)
class Vote:
    """A PREPARE or a COMMIT."""

    tag: int
    sender: int
    view: int
    number: int
    digest: bytes

    @cached_property
    def body(self):
        return words(self.tag, self.sender) + double(self.view) + double(self.number) + self.digest


@dataclass(frozen=True)
class Checkpoint:
    """The digest of a replica behind a number."""

    sender: int
    number: int
    digest: bytes
    tag = CHECKPOINT
    view = 0

    @cached_property
    def body(self):
        return words(self.tag, self.sender) + double(self.number) + self.digest


@dataclass(frozen=True)
class Certificate:
    """That a batch was prepared: the PRE-PREPARE of its view's primary, and PREPAREs that match it, all signed."""

    proposal: Signed
    prepares: tuple

    @property
    def number(self):
        return self.proposal.message.number

    @property
    def view(self):
        return self.proposal.message.view

    @cached_property
    def text(self):
        return self.proposal.text + texts(self.prepares)


@dataclass(frozen=True)
class ViewChange:
    sender: int
    view: int
    stable: int
    checkpoints: tuple
    certificates: tuple
    tag = VIEW_CHANGE

    @cached_property
    def body(self):
        head = words(self.tag, self.sender) + double(self.view) + double(self.stable)
        return head + texts(self.checkpoints) + texts(self.certificates)


@dataclass(frozen=True)
class NewView:
    sender: int
    view: int
    changes: tuple
    proposals: tuple
    tag = NEW_VIEW

    @cached_property
    def body(self):
        return words(self.tag, self.sender) + double(self.view) + texts(self.changes) + texts(self.proposals)


@dataclass(frozen=True)
class Reply:
    sender: int
    view: int
    client: int
    timestamp: int
    result: bytes
    tag = REPLY

    @cached_property
    def body(self):
        head = words(self.tag, self.sender) + double(self.view) + words(self.client)
        return head + double(self.timestamp) + opaque(self.result)
