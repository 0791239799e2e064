"""Messages read from bytes, strictly: what has another spelling, or breaks a limit, is a `Fault`. Their texts are spelled in `messages`."""
from messages import (
    CHECKPOINT, COMMIT, NEW_VIEW, NULL, PRE_PREPARE, PREPARE, REPLY, REQUEST, SIGNATURE_MARK, VIEW_CHANGE,
    Batch, Certificate, Checkpoint, NewView, PrePrepare, Reply, Request, Signed, ViewChange, Vote,
)  # fmt: skip
from xdr import Fault, Reader

MOST_OF_A_KIND = 31  # messages of different replicas, and entries of an authenticator
MOST_NUMBERS = 32  # certificates, and PRE-PREPAREs of a NEW-VIEW
MOST_REQUESTS = 1_024
MOST_BYTES = 16_384  # of a call, and of a result
MOST_SIGNATURE_BYTES = 12_288


def decode(data):
    """The message that all the bytes spell."""
    reader = Reader(data, strict=True)
    signed = signed_in(reader)
    reader.end()
    return signed


def signed_in(reader, wanted=None):
    """A signed message, of that kind if there is one that is wanted."""
    tag, sender = reader.word(), reader.word()
    if tag not in READERS or wanted not in (None, tag):
        raise Fault("kind")
    finish = READERS[tag](reader, tag, sender)
    authenticator = authenticator_in(reader)
    return Signed(finish(), *authenticator)


def authenticator_in(reader):
    """Keyed hashes, or none and a signature."""
    count = reader.word()
    if count == SIGNATURE_MARK:
        return (), reader.opaque(MOST_SIGNATURE_BYTES)
    if count > MOST_OF_A_KIND:
        raise Fault("many")
    return (tuple(reader.raw(32) for _ in range(count)),)


def number_in(reader):
    """A view, or a number."""
    number = reader.double()
    if number >= 2**63:
        raise Fault("number")
    return number


def list_in(reader, most, item):
    return tuple(item() for _ in range(reader.count(most)))


def messages_in(reader, wanted, most=MOST_OF_A_KIND):
    return list_in(reader, most, lambda: signed_in(reader, wanted))


def batch_in(reader):
    if not reader.boolean():
        return NULL
    time = reader.word(), reader.word()
    if time[1] >= 1_000_000:
        raise Fault("time")
    return Batch(time, messages_in(reader, REQUEST, MOST_REQUESTS))


def certificate_in(reader):
    return Certificate(signed_in(reader, PRE_PREPARE), messages_in(reader, PREPARE))


# Bodies: each gives a call that ends the message, since the batch of a PRE-PREPARE follows its keyed hashes


def whole(message):
    return lambda: message


def request_in(reader, tag, sender):
    return whole(Request(sender, reader.double(), reader.opaque(MOST_BYTES)))


def proposal_in(reader, tag, sender):
    view, number, digest = number_in(reader), number_in(reader), reader.raw(32)

    def with_batch():
        batch = batch_in(reader)
        if batch.digest != digest:
            raise Fault("digest")
        return PrePrepare(sender, view, number, batch)

    return with_batch


def vote_in(reader, tag, sender):
    return whole(Vote(tag, sender, number_in(reader), number_in(reader), reader.raw(32)))


def checkpoint_in(reader, tag, sender):
    return whole(Checkpoint(sender, number_in(reader), reader.raw(32)))


def change_in(reader, tag, sender):
    view, stable = number_in(reader), number_in(reader)
    checkpoints = messages_in(reader, CHECKPOINT)
    return whole(ViewChange(sender, view, stable, checkpoints, list_in(reader, MOST_NUMBERS, lambda: certificate_in(reader))))


def new_view_in(reader, tag, sender):
    view, changes = number_in(reader), messages_in(reader, VIEW_CHANGE)
    return whole(NewView(sender, view, changes, messages_in(reader, PRE_PREPARE, MOST_NUMBERS)))


def reply_in(reader, tag, sender):
    return whole(Reply(sender, number_in(reader), reader.word(), reader.double(), reader.opaque(MOST_BYTES)))


READERS = {
    REQUEST: request_in,
    PRE_PREPARE: proposal_in,
    PREPARE: vote_in,
    COMMIT: vote_in,
    CHECKPOINT: checkpoint_in,
    VIEW_CHANGE: change_in,
    NEW_VIEW: new_view_in,
    REPLY: reply_in,
}
