"""One replica in a storm of messages, signed by whomever, around what it would take: each refusal and its neighbours."""
import random
from dataclasses import replace

from files import DIRECTORY, SPENT, Caller, FileSystem
from keys import Keys
from messages import (
    COMMIT, NULL, PREPARE, Batch, Certificate, Checkpoint, NewView, PrePrepare, Reply, Request, ViewChange, Vote,
)  # fmt: skip
from order import INTERVAL, LOG_SIZE
from recorded import Recorded, Script
from schedules import some_call
from spoil import Liar, near, shuffled_part, with_other_bytes, with_other_entry
from table import Replies, execute, replica_digest
from trace import Settings, spelled
from views import choice


class Storm:
    def __init__(self, seed):
        self.chance = random.Random(seed)
        self.settings = Settings(self.chance.choice([0, 1, 1, 1, 1, 2]), self.chance.choice([1, 2, 3]), self.chance.randbytes(8))
        self.keys = Keys(self.settings)
        self.script = Script()
        self.liar = Liar(self.chance, self.keys.sign)
        self.me = self.chance.randrange(self.settings.replicas)
        self.node = Recorded(self.script, self.keys, self.me)
        self.order = self.node.replica.order
        self.timestamp = 0
        self.batches = {}  # what is said for a number of a view
        self.states = {}  # texts that replicas might have behind a number, with their digests

    def often(self, part):
        return self.chance.random() < part

    def deliver(self, signed):
        """As it is, or spoiled."""
        if self.often(0.06):
            self.node.deliver(self.liar.spoiled(signed))
        elif self.often(0.02):
            self.node.deliver(with_other_bytes(self.chance, signed.text))
        else:
            self.node.deliver(signed.text)

    # What is said

    def request(self):
        self.timestamp += self.chance.choice([0, 1, 1, 1])
        client = self.chance.randrange(self.settings.clients + (1 if self.often(0.05) else 0))
        return self.keys.sign(Request(client, self.timestamp, some_call(self.chance, self.timestamp)))

    def new_batch(self):
        if self.often(0.1):
            return NULL
        requests = [self.request() for _ in range(self.chance.choice([0, 1, 1, 2]))] + self.node.replica.pending[:2]
        if self.often(0.05):
            requests = [with_other_entry(self.chance, each) for each in requests]
        return Batch((self.chance.randrange(50), self.chance.randrange(1_000_000)), tuple(requests))

    def batch(self, view, number):
        """Mostly one and the same, and the one that the replica has taken already."""
        taken = self.order.proposal(view, number)
        if taken and self.often(0.95):
            return taken.message.batch
        known = self.batches.setdefault((view, number), self.new_batch())
        return known if self.often(0.95) else self.new_batch()

    def sender(self):
        return self.chance.randrange(self.settings.replicas) if self.often(0.98) else self.chance.choice([self.me, self.settings.replicas, 4_096])

    def view(self):
        return self.order.view if self.often(0.93) else near(self.chance, self.order.view)

    def number(self):
        """Mostly the next one, else one around the marks."""
        order = self.order
        if self.often(0.8):
            return max(order.last, order.low, order.floor) + self.chance.choice([1, 1, 1, 2])
        return max(0, self.chance.choice([order.low, order.floor, order.low + LOG_SIZE]) + self.chance.choice([-1, 0, 1, 2, 16]))

    def proposal(self, view, number, sender=None):
        sender = self.order.primary(view) if sender is None else sender
        return self.keys.sign(PrePrepare(sender, view, number, self.batch(view, number)))

    def vote(self, tag, view, number, sender):
        return self.keys.sign(Vote(tag, sender, view, number, self.batch(view, number).digest))

    def others(self, count):
        """So many replicas, but for this one where there are enough others."""
        others = [each for each in range(self.settings.replicas) if each != self.me]
        return self.chance.sample(others, min(count, len(others)))

    # Steps

    def say(self):
        """One message of the order."""
        view, number, sender = self.view(), self.number(), self.sender()
        if self.often(0.3):
            self.deliver(self.proposal(view, number, None if self.often(0.9) else sender))
        else:
            self.deliver(self.vote(self.chance.choice([PREPARE, COMMIT]), view, number, sender))

    def agree(self):
        """All that makes a number committed, in any order, or nearly all."""
        view, number = self.order.view, max(self.order.last, self.order.low, self.order.floor) + 1
        primary, faults = self.order.primary(view), self.settings.faults
        said = [self.proposal(view, number)] if primary != self.me else []
        said += [self.vote(PREPARE, view, number, each) for each in self.others(3 * faults) if each != primary]
        said += [self.vote(COMMIT, view, number, each) for each in self.others(3 * faults)]
        if self.often(0.2):
            said = shuffled_part(self.chance, said)
        for each in said:
            self.node.deliver(each.text)
        self.node.advance()

    def propose(self):
        self.node.propose((self.chance.randrange(100), self.chance.randrange(1_000_000)))

    def state(self, number):
        """A text that a replica might have behind a number: its own if it has one."""
        own = next((each for each in self.node.replica.snapshots if each.number == number), None)
        if own and self.often(0.9):
            return own.text, own.digest
        if number not in self.states:
            files, replies = FileSystem(), Replies(self.settings.clients)
            for _ in range(3):
                execute(files, replies, (number, 0), [self.request().message for _ in range(self.chance.randrange(4))])
            self.states[number] = replies.text() + files.text(), replica_digest(files, replies)
        return self.states[number]

    def checkpoints(self, number, count, digest=None):
        digest = digest or self.state(number)[1]
        senders = self.chance.sample(range(self.settings.replicas), min(count, self.settings.replicas))
        return tuple(self.keys.sign(Checkpoint(each, number, digest)) for each in senders)

    def tell(self):
        """CHECKPOINTs, mostly of a number that is due."""
        number = self.order.low + INTERVAL if self.often(0.7) else self.number()
        for each in self.checkpoints(number, self.chance.choice([1, 1, 2 * self.settings.faults + 1])):
            self.deliver(each)

    def ill_formed(self):
        """A text and its digest, of a file system that is none, mostly."""
        chance = self.chance
        files, replies = FileSystem(), Replies(self.settings.clients)
        verbs = (b"mkdir #2 d - - - - - -", b"create #3 f - - - - - -", b"mkdir #3 e - - - - - -", b"symlink #2 l a - - - - - -", b"link #4 #2 g")
        calls = (spelled(verb, given, 0, Caller(0, 0)) for verb, *given in (each.split(b" ") for each in verbs))
        execute(files, replies, (1, 0), [Request(0, number, call) for number, call in enumerate(calls)])
        fileid = chance.choice(sorted(files.inodes))
        inode = files.inodes[fileid]
        way = chance.randrange(7)
        if way == 0:
            inode.links += chance.choice([-1, 1])
        elif way == 1:
            inode.permissions = chance.choice([0o7777, 0o10000])
        elif way == 2:
            inode.mtime = (1, chance.choice([999_999, 1_000_000]))
        elif way == 3:
            files.next_ordinal = chance.choice([2, 3, 6, 7, 8, SPENT, SPENT + 1])
        elif way == 4:
            files.inodes[chance.choice([1, 6, 7, 9])] = files.inodes.pop(fileid)
        elif inode.kind == DIRECTORY and way == 5:
            inode.body.parent = chance.choice([2, 3, 5, 9])
        elif inode.kind == DIRECTORY:
            name = chance.choice([b"", b".", b"..", b"a/b", b"a\0", b"d", b"new"])
            inode.body.entries[name] = (chance.choice([2, 7, 8, 9]), chance.choice([2, 3, 4, 5, 6, 9]))
        return replies.text() + files.text(), replica_digest(files, replies)

    def adopt(self):
        """A text with its certificate, or with one that is not right."""
        number = self.chance.choice([self.order.low + INTERVAL, self.order.last + 1, self.order.last, self.order.low])
        is_ill = self.often(0.4)
        text, digest = self.ill_formed() if is_ill else self.state(number)
        certificate = self.checkpoints(number, 2 * self.settings.faults + 1, digest)
        if not is_ill and self.often(0.5):
            text = with_other_bytes(self.chance, text)
        if self.often(0.1):
            certificate = shuffled_part(self.chance, certificate)
        if self.often(0.1):
            certificate = self.liar.one_of(certificate, self.liar.inner)
        number += 16 * self.often(0.05)
        self.node.adopt(text, number, self.chance.randbytes(32) if self.often(0.05) else digest, certificate)

    def settle(self):
        """CHECKPOINTs of a number that it has executed, or nearly: they are collected, and settle it."""
        number = self.chance.choice([self.order.low + INTERVAL, self.order.low + INTERVAL, self.order.low + LOG_SIZE, self.order.last, self.order.low])
        digest = self.state(number)[1]
        certificate = self.checkpoints(number, 2 * self.settings.faults + self.chance.choice([0, 1, 1, 1, 2]), digest)
        if self.often(0.2):
            certificate = [with_other_entry(self.chance, each) if self.often(0.5) else each for each in certificate + certificate[:1]]
        self.node.collect(number, digest, certificate)
        self.node.settle(number, digest, certificate)

    def lag(self):
        """It gives again what it has said, to one that stands near, and tells what it was."""
        view = max(0, self.order.view - self.chance.choice([0, 0, 0, 1]))
        last = max(0, self.order.last - self.chance.choice([0, 1, 2, 40]))
        self.node.resend(view, last, max(0, self.order.low - self.chance.choice([0, 16, 1])))
        self.node.told(self.chance.choice([self.order.low, self.order.low + INTERVAL]))

    def offer(self):
        """A request, mostly one that waits or was executed."""
        own, clients = self.node.replica, self.settings.clients
        some = self.request()
        if own.pending and self.often(0.4):
            some = self.chance.choice(own.pending)
        elif self.often(0.4):
            client = self.chance.randrange(clients)
            last = own.replies.last[client]
            if last:
                some = self.keys.sign(Request(client, max(0, last[0] - self.chance.choice([0, 0, 1])), some_call(self.chance, last[0])))
        self.node.offer(with_other_entry(self.chance, some) if self.often(0.1) else some)

    def forget(self):
        self.chance.choice([self.node.forget_answered, self.node.forget_proposed])()

    # View changes

    def certificate(self, view, number):
        """Mostly of one batch for a number of a view. Liars alone bring about two."""
        if self.often(0.3):
            self.batches.pop((view, number), None)
        backups = [each for each in range(self.settings.replicas) if each != self.order.primary(view)]
        count = 2 * self.settings.faults + self.chance.choice([0, 0, 0, self.settings.faults])
        proposal = self.proposal(view, number)
        digest = proposal.message.digest
        prepares = (Vote(PREPARE, each, view, number, digest) for each in self.chance.sample(backups, min(count, len(backups))))
        return Certificate(proposal, tuple(map(self.keys.sign, prepares)))

    def change(self, sender, view):
        """A valid one."""
        stable = self.chance.choice([0, self.order.low, self.order.low, self.order.low + INTERVAL])
        stable -= stable % INTERVAL
        checkpoints = self.checkpoints(stable, 2 * self.settings.faults + self.chance.choice([1, 1, 2])) if stable else ()
        numbers = sorted(self.chance.sample(range(stable + 1, stable + LOG_SIZE + 1), self.chance.choice([0, 1, 1, 2, 4])))
        latest = view if self.often(0.03) else view - 1
        certificates = tuple(self.certificate(self.chance.randint(max(0, latest - 1), latest), each) for each in numbers)
        return ViewChange(sender, view, stable, checkpoints, certificates)

    def spoiled_change(self, change):
        """Perhaps no valid one."""
        for _ in range(self.chance.choice([0, 0, 1, 1, 2])):
            change = self.liar.other_change(change)
        return change

    def later_view(self):
        return max(self.order.view, self.order.asked) + self.chance.choice([0, 1, 1, 1, 2, 3])

    def ask(self):
        """VIEW-CHANGEs of others, with which a view may begin where this replica leads it and has left for it."""
        view = self.order.asked if self.order.asked > self.order.view and self.often(0.7) else max(1, self.later_view())
        for sender in self.others(self.chance.choice([1, 2 * self.settings.faults, 3 * self.settings.faults])):
            change = self.change(sender, view)
            self.deliver(self.keys.sign(self.spoiled_change(change) if self.often(0.4) else change))

    def begin(self):
        """A NEW-VIEW, which may be wrong in many ways."""
        view = max(1, self.later_view())
        count = 2 * self.settings.faults + self.chance.choice([1, 1, 1, 1, 0, 2])
        senders = self.chance.sample(range(self.settings.replicas), min(count, self.settings.replicas))
        changes = [self.keys.sign(self.change(each, view)) for each in senders]
        if self.often(0.05):
            changes = [self.keys.sign(self.spoiled_change(each.message)) for each in changes]
        _, chosen = choice([each.message for each in changes]) if changes else (0, [])
        sender = self.order.primary(view)
        proposals = tuple(self.keys.sign(PrePrepare(sender, view, number, batch)) for number, batch in chosen[:LOG_SIZE])
        new = NewView(sender, view, tuple(changes), proposals)
        if self.often(0.3):
            new = self.liar.other_view(new)
        if self.often(0.05):
            new = replace(new, sender=self.sender())
        self.deliver(self.keys.sign(new))

    def stray(self):
        """What no replica sends to another one, or bytes that are no message."""
        way = self.chance.randrange(3)
        if way == 0:
            self.deliver(self.keys.sign(Reply(self.sender() % self.settings.replicas, 0, 0, 1, b"")))
        elif way == 1:
            self.node.deliver(self.chance.randbytes(self.chance.randrange(60)))
        else:
            self.node.deliver(self.padded())

    def padded(self):
        """A request with padding, which is no zero."""
        self.timestamp += 1
        signed = self.keys.sign(Request(0, self.timestamp, b"\0" * self.chance.choice([1, 2, 3, 5])))
        text = bytearray(signed.text)
        text[len(signed.message.body) - 1] = self.chance.randrange(2)
        return bytes(text)

    def flood(self):
        """More requests than may wait."""
        for _ in range(1_026):
            self.node.deliver(self.request().text)

    def play(self):
        """Gives the script of what was done."""
        steps = {
            self.say: 30, self.agree: 12, self.propose: 2, self.tell: 4, self.adopt: 2, self.ask: 3, self.begin: 2, self.stray: 1,
            self.node.timeout: 2, self.node.advance: 3, lambda: self.deliver(self.request()): 8, self.settle: 2, self.lag: 2, self.offer: 4,
            self.forget: 1, lambda: self.node.leave(self.later_view()): 1,
        }  # fmt: skip
        for _ in range(self.chance.choice([60, 150, 300])):
            if not self.script.is_long():
                self.chance.choices(list(steps), list(steps.values()))[0]()
        if self.often(0.02):
            self.flood()
        return self.script
