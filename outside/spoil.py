"""What liars make of messages (OSDI 1999 section 3): other fields, other certificates, other keyed hashes, other bytes."""
from dataclasses import fields, replace

from messages import COMMIT, NEW_VIEW, NULL, PRE_PREPARE, PREPARE, REQUEST, VIEW_CHANGE, Batch, Signed


def with_other_entry(chance, signed):
    """One keyed hash is wrong, or one is missing, or one too many."""
    entries = list(signed.entries)
    way = chance.randrange(6)
    if way == 0 or not entries:
        entries.append(chance.randbytes(32))
    elif way == 1:
        entries.pop()
    else:
        place = chance.randrange(len(entries))
        wrong = bytearray(entries[place])
        wrong[chance.randrange(32)] ^= 1 << chance.randrange(8)
        entries[place] = bytes(wrong)
    return Signed(signed.message, tuple(entries))


def with_other_bytes(chance, text):
    """Cut, lengthened, or changed in a byte or a word."""
    way = chance.randrange(4)
    if way == 0:
        return text[: chance.randrange(len(text))]
    if way == 1:
        return text + chance.randbytes(chance.choice([1, 4]))
    changed = bytearray(text)
    if way == 2:
        changed[chance.randrange(len(text))] ^= 1 << chance.randrange(8)
    else:
        place = 4 * chance.randrange(len(text) // 4)
        changed[place : place + 4] = chance.choice([0, 1, 2, 31, 32, 33, 1_024, 1_025, 2**31, 2**32 - 1]).to_bytes(4, "big")
    return bytes(changed)


def near(chance, number):
    return max(0, number + chance.choice([-17, -16, -1, 1, 2, 16, 31, 32, 33]))


def shuffled_part(chance, items):
    """Some of the items left out, doubled or in another order."""
    changed = list(items)
    if not changed:
        return ()
    way = chance.randrange(3)
    if way == 0:
        del changed[chance.randrange(len(changed))]
    elif way == 1:
        changed.append(chance.choice(changed))
    else:
        chance.shuffle(changed)
    return tuple(changed)


class Liar:
    """Makes other messages of a message. What it signs it signs by `sign`."""

    def __init__(self, chance, sign):
        self.chance = chance
        self.sign = sign

    def batch(self, batch):
        if batch.time is None or self.chance.random() < 0.3:
            return NULL if batch.time is not None else Batch((1, 1))
        if self.chance.random() < 0.5:
            return Batch((batch.time[0], self.chance.randrange(1_000_000)), batch.requests)
        return Batch(batch.time, shuffled_part(self.chance, batch.requests))

    def one_of(self, items, change):
        """One of the items is changed."""
        if not items:
            return items
        place = self.chance.randrange(len(items))
        return (*items[:place], change(items[place]), *items[place + 1 :])

    def inner(self, signed):
        """A message within another one: its entries or its fields are changed, signed anew or not."""
        way = self.chance.randrange(3)
        if way == 0:
            return with_other_entry(self.chance, signed)
        other = self.other(signed.message)
        return self.sign(other) if way == 1 else Signed(other, signed.entries)

    def certificate(self, certificate):
        way = self.chance.randrange(3)
        if way == 0:
            return replace(certificate, proposal=self.inner(certificate.proposal))
        if way == 1:
            return replace(certificate, prepares=shuffled_part(self.chance, certificate.prepares))
        return replace(certificate, prepares=self.one_of(certificate.prepares, self.inner))

    def other(self, message):
        """Another message of the same kind, not signed yet."""
        chance = self.chance
        if message.tag == VIEW_CHANGE and chance.random() < 0.8:
            return self.other_change(message)
        if message.tag == NEW_VIEW and chance.random() < 0.9:
            return self.other_view(message)
        if message.tag == PRE_PREPARE and chance.random() < 0.6:
            return replace(message, batch=self.batch(message.batch))
        if message.tag in (PREPARE, COMMIT) and chance.random() < 0.1:
            return replace(message, tag=PREPARE + COMMIT - message.tag)
        names = {each.name for each in fields(message)} & {"view", "number", "digest", "stable", "timestamp", "sender"}
        name = chance.choice(sorted(names))
        if name == "digest":
            return replace(message, digest=chance.randbytes(32))
        if name == "sender" and message.tag != REQUEST:
            return replace(message, sender=chance.randrange(5))
        return replace(message, **{name: near(chance, getattr(message, name))})

    def other_change(self, change):
        way = self.chance.randrange(5)
        if way == 0:
            return replace(change, checkpoints=shuffled_part(self.chance, change.checkpoints))
        if way == 1:
            return replace(change, checkpoints=self.one_of(change.checkpoints, self.inner))
        if way == 2:
            return replace(change, certificates=shuffled_part(self.chance, change.certificates))
        return replace(change, certificates=self.one_of(change.certificates, self.certificate))

    def other_view(self, new):
        way = self.chance.randrange(5)
        if way == 0:
            return replace(new, changes=shuffled_part(self.chance, new.changes))
        if way == 1:
            return replace(new, changes=self.one_of(new.changes, self.inner))
        if way == 2:
            return replace(new, proposals=shuffled_part(self.chance, new.proposals))
        return replace(new, proposals=self.one_of(new.proposals, self.inner))

    def spoiled(self, signed):
        """The bytes of something else than was to be sent."""
        way = self.chance.randrange(4)
        if way == 0:
            return with_other_bytes(self.chance, signed.text)
        if way == 1:
            return with_other_entry(self.chance, signed).text
        return self.sign(self.other(signed.message)).text
