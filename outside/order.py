"""The order of one replica (OSDI 1999 sections 4.2 and 4.3): its log, what it takes, and what it answers."""
from messages import CHECKPOINT, COMMIT, PRE_PREPARE, PREPARE, Checkpoint, PrePrepare, Vote

LOG_SIZE = 32  # numbers between the marks
INTERVAL = 16  # numbers between checkpoints
MOST_NUMBER = 2**63 - 1  # of views and numbers

BAD_AUTHENTICATOR, WRONG_VIEW, OUTSIDE_MARKS, CONFLICTING, NOT_PRIMARY, ALREADY_HAVE = 24, 25, 26, 27, 28, 29
NO_CERTIFICATE, WRONG_KIND = 34, 36


class Refusal(Exception):
    """Why a call on a replica is refused. Nothing has changed then."""

    def __init__(self, code):
        super().__init__(code)
        self.code = code


def refuse_if(holds, code):
    if holds:
        raise Refusal(code)


class Order:
    """Votes by their kind, view and number, and of these by their senders, in the order in which they came."""

    def __init__(self, keys, me):
        self.keys = keys
        self.faults = keys.settings.faults
        self.replicas = keys.settings.replicas
        self.me = me
        self.view = 0  # the one entered last
        self.asked = 0  # the one that was left for; that one, once it is entered
        self.low = 0
        self.last = 0  # the number executed last
        self.floor = 0  # up to which the view has no numbers
        self.handed = 0  # the greatest number that was handed over to the view
        self.log = {}

    # What the log tells

    def primary(self, view):
        return view % self.replicas

    def leads(self):
        return self.asked == self.view and self.primary(self.view) == self.me

    def votes(self, tag, view, number):
        return self.log.get((tag, view, number), {})

    def telling(self, tag, view, number, digest):
        """The messages of that digest."""
        return [each for each in self.votes(tag, view, number).values() if each.message.digest == digest]

    def proposal(self, view, number):
        return self.votes(PRE_PREPARE, view, number).get(self.primary(view))

    def backing(self, proposal):
        """The PREPAREs of backups that match a PRE-PREPARE."""
        message = proposal.message
        matching = self.telling(PREPARE, message.view, message.number, message.digest)
        return [each for each in matching if each.message.sender != message.sender]

    def prepared(self, view, number):
        """The PRE-PREPARE of a number that is prepared: 2f backups match it, this replica among them if it is one."""
        proposal = self.proposal(view, number)
        if proposal is None:
            return None
        senders = {each.message.sender for each in self.backing(proposal)}
        is_enough = len(senders) >= 2 * self.faults and (self.me in senders or self.me == self.primary(view))
        return proposal if is_enough else None

    def next_committed(self):
        """The PRE-PREPARE of the next number, if it is committed here (OSDI 1999 section 4.2)."""
        proposal = self.prepared(self.view, self.last + 1)
        if proposal is None:
            return None
        senders = {each.message.sender for each in self.telling(COMMIT, self.view, self.last + 1, proposal.message.digest)}
        return proposal if len(senders) >= 2 * self.faults + 1 and self.me in senders else None

    # What comes

    def refuse(self, signed):
        message = signed.message
        refuse_if(not PRE_PREPARE <= message.tag <= CHECKPOINT, WRONG_KIND)
        requests = message.batch.requests if message.tag == PRE_PREPARE else ()
        refuse_if(not all(self.keys.passes(each, self.me) for each in (signed, *requests)), BAD_AUTHENTICATOR)
        self.refuse_place(message)

    def refuse_place(self, message):
        """What stands against a message that is authentic."""
        is_checkpoint = message.tag == CHECKPOINT
        refuse_if(not is_checkpoint and (message.view != self.view or self.asked > self.view), WRONG_VIEW)
        floor = self.low if is_checkpoint else max(self.low, self.floor)
        refuse_if(not floor < message.number <= self.low + LOG_SIZE, OUTSIDE_MARKS)
        refuse_if(is_checkpoint and message.number % INTERVAL, OUTSIDE_MARKS)
        is_primarys = message.sender == self.primary(message.view)
        refuse_if(message.tag == PRE_PREPARE and not is_primarys, NOT_PRIMARY)
        told = self.votes(message.tag, message.view, message.number).get(message.sender)
        refuse_if(message.tag == PREPARE and is_primarys, CONFLICTING)
        refuse_if(told and told.message.digest != message.digest, CONFLICTING)
        refuse_if(told, ALREADY_HAVE)

    def take(self, signed):
        """Adds a message, and gives what is sent for it, which is added too. Other replicas count these, as the own log does."""
        message = signed.message
        self.add(signed)
        sent = []
        if message.tag == PRE_PREPARE and self.me != self.primary(message.view):
            sent += self.say_once(PREPARE, message)
        if message.tag in (PRE_PREPARE, PREPARE):
            proposal = self.prepared(message.view, message.number)
            if proposal and proposal.message.digest == message.digest:
                sent += self.say_once(COMMIT, message)
        if message.tag == CHECKPOINT:
            self.settle(message)
        return sent

    def add(self, signed):
        message = signed.message
        self.log.setdefault((message.tag, message.view, message.number), {})[message.sender] = signed

    def say_once(self, tag, about):
        if self.me in self.votes(tag, about.view, about.number):
            return []
        own = self.keys.sign(Vote(tag, self.me, about.view, about.number, about.digest))
        self.add(own)
        return [own]

    # Proposing

    def propose(self, batch):
        """Behind all that stands in the view. A COMMIT follows at once where there is no other replica."""
        refuse_if(not self.leads(), NOT_PRIMARY)
        proposed = [number for tag, view, number in self.log if tag == PRE_PREPARE and view == self.view and self.proposal(view, number)]
        number = max(self.low, self.floor, self.handed, *proposed, 0) + 1
        refuse_if(number > self.low + LOG_SIZE, OUTSIDE_MARKS)
        own = self.keys.sign(PrePrepare(self.me, self.view, number, batch))
        self.add(own)
        if self.replicas == 1:
            self.say_once(COMMIT, own.message)
        return own

    # Checkpoints

    def certificate(self, number, digest):
        """The CHECKPOINTs of a number that tell a digest."""
        return self.telling(CHECKPOINT, 0, number, digest)

    def settle(self, message):
        """Once 2f + 1 replicas tell one digest, the number is stable, and the log up to it goes (OSDI 1999 section 4.3)."""
        certificate = self.certificate(message.number, message.digest)
        if len(certificate) >= 2 * self.faults + 1:
            self.low = message.number
            self.drop(certificate)

    def drop(self, certificate):
        """What stands up to the low mark goes, but for the CHECKPOINTs that tell it."""
        self.log = {place: votes for place, votes in self.log.items() if place[2] > self.low}
        for each in certificate:
            self.add(each)

    def refuse_checkpoint(self):
        refuse_if(self.last % INTERVAL or not self.low < self.last <= self.low + LOG_SIZE, OUTSIDE_MARKS)
        refuse_if(self.me in self.votes(CHECKPOINT, 0, self.last), ALREADY_HAVE)

    def checkpoint(self, digest):
        """Tells the digest of this replica behind the last number."""
        own = self.keys.sign(Checkpoint(self.me, self.last, digest))
        self.take(own)
        return own

    def is_certificate(self, certificate):
        """Whether these are CHECKPOINTs of 2f + 1 replicas or more, all of one number and digest."""
        told = {(each.message.tag, each.message.number, each.message.digest) for each in certificate if each.message.tag == CHECKPOINT}
        senders = {each.message.sender for each in certificate}
        is_one = len(told) == 1 and all(each.message.tag == CHECKPOINT for each in certificate)
        is_enough = len(senders) == len(certificate) >= 2 * self.faults + 1
        return is_one and is_enough and all(self.keys.passes(each, self.me) for each in certificate)

    def install(self, certificate):
        """Goes on behind a checkpoint that others have made stable."""
        self.last = max(self.last, certificate[0].message.number)
        self.rise(certificate)

    def rise(self, certificate):
        """The low mark rises to that checkpoint, where it is below, and the number executed last stays."""
        number, digest = certificate[0].message.number, certificate[0].message.digest
        if number > self.low:
            self.low = number
            kept = self.certificate(number, digest)
            known = {each.message.sender for each in kept}
            self.drop(kept + [each for each in certificate if each.message.sender not in known])

    # Views

    def leave(self, view):
        refuse_if(not max(self.view, self.asked) < view <= MOST_NUMBER, WRONG_VIEW)
        self.asked = view

    def refuse_entering(self, view):
        refuse_if(not (self.view < view <= MOST_NUMBER and self.asked <= view), WRONG_VIEW)

    def enter(self, view, floor, proposals):
        """Takes what a NEW-VIEW hands over, but for what lies outside the marks (OSDI 1999 section 4.4)."""
        self.view = self.asked = view
        self.floor = floor
        self.handed = max((each.message.number for each in proposals), default=0)
        sent = []
        for each in proposals:
            try:
                self.refuse_place(each.message)
            except Refusal:
                continue
            sent += self.take(each)
        return sent
