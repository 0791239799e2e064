"""One replica (OSDI 1999 section 4): its order, the file system that it executes batches on, what waits, and the snapshots that it keeps."""
from dataclasses import dataclass

from files import FileSystem
from messages import CHECKPOINT, COMMIT, NEW_VIEW, PRE_PREPARE, PREPARE, REPLY, REQUEST, VIEW_CHANGE, Batch, Reply
from order import ALREADY_HAVE, BAD_AUTHENTICATOR, LOG_SIZE, NO_CERTIFICATE, WRONG_KIND, WRONG_VIEW, Order, Refusal, refuse_if
from snapshot import restored
from table import Replies, execute, replica_digest
from views import BAD_CERTIFICATE, change_of, check_new_view, is_valid, new_view_of

MOST_PENDING = 1_024
BATCH_FULL, DIGEST_DIFFERS = 13, 35


@dataclass
class Snapshot:
    """The text of a replica behind a number, and its digest."""

    number: int
    text: bytes
    digest: bytes


class Replica:
    def __init__(self, keys, me):
        self.keys = keys
        self.me = me
        self.order = Order(keys, me)
        self.files = FileSystem()
        self.replies = Replies(keys.settings.clients)
        self.pending = []
        self.asked = {}  # the highest view that each replica has asked for
        self.changes = {}  # the last VIEW-CHANGE of each replica for a view that this one leads
        self.snapshots = []
        self.certificate = []  # the CHECKPOINTs of the stable snapshot
        self.own_change = self.new_view = None  # its last VIEW-CHANGE, and the NEW-VIEW by which it has entered its view

    # Messages

    def deliver(self, signed):
        """Takes a message, and gives those that are sent for it."""
        tag = signed.message.tag
        if tag == REQUEST:
            return self.wait(signed)
        if tag == VIEW_CHANGE:
            return self.take_change(signed)
        if tag == NEW_VIEW:
            return self.take_view(signed)
        refuse_if(tag == REPLY, WRONG_KIND)
        self.order.refuse(signed)
        low = self.order.low
        sent = self.order.take(signed)
        self.settle_snapshots(low, signed.message)
        return sent

    def wait(self, request):
        refuse_if(not self.keys.passes(request, self.me), BAD_AUTHENTICATOR)
        refuse_if(len(self.pending) >= MOST_PENDING, BATCH_FULL)
        self.pending.append(request)
        return []

    def offer(self, request):
        """Only a new request waits, one of each, and of a client no more than its share; the last one that was executed is answered again."""
        refuse_if(not self.keys.passes(request, self.me), BAD_AUTHENTICATOR)
        client, timestamp = request.message.sender, request.message.timestamp
        last = self.replies.last[client] if client < len(self.replies.last) else (timestamp + 1, b"")
        if last and timestamp <= last[0]:
            return [self.keys.sign(Reply(self.me, self.order.view, client, *last))] if timestamp == last[0] else []
        alike = [each for each in self.pending if (each.message.sender, each.message.timestamp) == (client, timestamp)]
        if alike and self.is_alike(alike[-1], request):
            return []
        waiting = sum(each.message.sender == client for each in self.pending)
        refuse_if(len(self.pending) >= MOST_PENDING or waiting >= MOST_PENDING // max(len(self.replies.last), 1), BATCH_FULL)
        self.pending.append(request)
        return []

    def is_alike(self, one, other):
        """Whether two requests are the same to this replica, which reads one keyed hash of each, or the signature."""
        return (one.message.body, one.read_by(self.me)) == (other.message.body, other.read_by(self.me))

    def forget_answered(self):
        """What was executed waits no longer."""
        last = self.replies.last
        self.pending = [each for each in self.pending if last[each.message.sender] is None or last[each.message.sender][0] < each.message.timestamp]
        return []

    def forget_proposed(self):
        """What it has proposed in its view, and not executed, waits no longer."""
        order, named = self.order, set()
        for (tag, view, number), votes in order.log.items():
            if (tag, view) == (PRE_PREPARE, order.view) and number > order.last and self.me in votes:
                named |= {(each.message.sender, each.message.timestamp) for each in votes[self.me].message.batch.requests}
        self.pending = [each for each in self.pending if (each.message.sender, each.message.timestamp) not in named]
        return []

    def resend(self, view, last, stable):
        """What it has said, and another one may lack that is in that view, and has executed and made stable these numbers."""
        order = self.order
        sent = [self.own_change] if order.view < order.asked else []
        sent += [self.new_view] if view < order.view else []
        are_together = order.asked <= order.view == view
        for number in range(order.low, order.low + LOG_SIZE + 1):
            kinds = [(PRE_PREPARE, view)] if are_together and last < number else []
            kinds += [(PREPARE, view), (COMMIT, view)] if are_together and stable < number else []
            kinds += [(CHECKPOINT, 0)] if stable < number else []
            sent += [votes[self.me] for votes in (order.votes(tag, of, number) for tag, of in kinds) if self.me in votes]
        return sent

    def propose(self, time):
        """All that waits, as one batch. It waits until it is executed."""
        return self.order.propose(Batch(time, tuple(self.pending)))

    # Views

    def timeout(self):
        """Leaves for the view behind the one entered, or asked for, and says so."""
        return self.leave(max(self.order.view, self.order.asked) + 1)

    def leave(self, view):
        self.order.leave(view)
        self.own_change = change_of(self.order, view)
        return [self.own_change, *self.keep_change(self.own_change)]

    def take_change(self, signed):
        change = signed.message
        refuse_if(not self.keys.passes(signed, self.me), BAD_AUTHENTICATOR)
        refuse_if(change.view <= self.order.view, WRONG_VIEW)
        refuse_if(change.view <= self.asked.get(change.sender, 0), ALREADY_HAVE)
        refuse_if(not is_valid(self.order, signed), BAD_CERTIFICATE)
        return self.keep_change(signed)

    def keep_change(self, signed):
        """Counts a VIEW-CHANGE, and begins the view that this replica has left for once 2f + 1 ask for it."""
        change = signed.message
        self.asked[change.sender] = change.view
        if self.order.primary(change.view) != self.me:
            return []
        self.changes[change.sender] = signed
        view = self.order.asked
        asking = [each for _, each in sorted(self.changes.items()) if each.message.view == view]
        if view == self.order.view or self.order.primary(view) != self.me or len(asking) < 2 * self.order.faults + 1:
            return []
        new, floor = new_view_of(self.order, view, asking)
        return [new, *self.enter(new, floor)]

    def take_view(self, signed):
        floor = check_new_view(self.order, signed)
        self.order.refuse_entering(signed.message.view)
        return self.enter(signed, floor)

    def enter(self, signed, floor):
        new, self.new_view = signed.message, signed
        self.changes = {sender: each for sender, each in self.changes.items() if each.message.view > new.view}
        if floor > self.order.low:
            certificate = next(each.message.checkpoints for each in new.changes if each.message.stable == floor)
            self.order.rise(certificate)
            self.settle_by(certificate)
        return self.order.enter(new.view, floor, new.proposals)

    def view_to_follow(self):
        """The least later view, once f + 1 replicas ask for later ones (OSDI 1999 section 4.5.2)."""
        own = max(self.order.view, self.order.asked)
        later = [view for view in self.asked.values() if view > own]
        return min(later) if len(later) > self.order.faults else None

    # Executing

    def advance(self):
        """Executes the next batch if it is committed, and makes the checkpoint that is due. Gives what is sent, or None where no batch is next."""
        proposal = self.order.next_committed()
        if proposal is None:
            return None
        batch = proposal.message.batch
        self.order.last += 1
        sent = self.execute(batch) if batch.time is not None else []
        return sent + self.due_checkpoint()

    def execute(self, batch):
        requests = [each.message for each in batch.requests]
        given = execute(self.files, self.replies, batch.time, requests)
        done = {(each.sender, each.timestamp) for each in requests}
        self.pending = [each for each in self.pending if (each.message.sender, each.message.timestamp) not in done]
        answered = ((each, reply) for each, reply in zip(requests, given) if reply is not None)
        return [self.keys.sign(Reply(self.me, self.order.view, each.sender, each.timestamp, reply)) for each, reply in answered]

    def digest(self):
        return replica_digest(self.files, self.replies)

    def advance_all(self):
        """Executes all that is committed, with the checkpoints that are due, and gives what is sent."""
        sent = self.due_checkpoint()
        while (more := self.advance()) is not None:
            sent += more
        return sent

    # Checkpoints

    def due_checkpoint(self):
        try:
            self.order.refuse_checkpoint()
        except Refusal:
            return []
        digest = self.digest()
        self.snapshots.append(Snapshot(self.order.last, self.replies.text() + self.files.text(), digest))
        low = self.order.low
        own = self.order.checkpoint(digest)
        self.settle_snapshots(low, own.message)
        return [own]

    def settle_snapshots(self, low, message):
        """Where a CHECKPOINT has made its number stable, a snapshot of it that is kept is the stable one, and those below it go."""
        if message.tag == CHECKPOINT and self.order.low > low:
            self.settle_by(self.order.certificate(message.number, message.digest))

    def settle_by(self, certificate):
        number, digest = certificate[0].message.number, certificate[0].message.digest
        is_later = not self.certificate or number > self.certificate[0].message.number
        if is_later and any((each.number, each.digest) == (number, digest) for each in self.snapshots):
            self.snapshots = [each for each in self.snapshots if each.number >= number]
            self.certificate = certificate

    def stable(self):
        """The stable snapshot, or None."""
        told = [(each.message.number, each.message.digest) for each in self.certificate[:1]]
        return next((each for each in self.snapshots if (each.number, each.digest) in told), None)

    def told(self, number):
        """The snapshot of a number that it keeps, stable or not, with the CHECKPOINTs that tell its digest; or None."""
        kept = next((each for each in self.snapshots if each.number == number), None)
        return kept and (kept, self.order.certificate(number, kept.digest))

    def collect(self, number, digest, told):
        """Of CHECKPOINTs those that are right and tell this, the first of each replica, where they are enough."""
        right = {}
        for each in told:
            message = each.message
            if (message.tag, message.number, message.digest) == (CHECKPOINT, number, digest) and self.keys.passes(each, self.me):
                right.setdefault(message.sender, each)
        return list(right.values()) if len(right) > 2 * self.order.faults else []

    def settle(self, number, digest, certificate):
        """A checkpoint that it has executed is stable, by the CHECKPOINTs that another one shows."""
        tell = all((each.message.number, each.message.digest) == (number, digest) for each in certificate)
        is_shown = tell and self.order.is_certificate(certificate)
        refuse_if(not (is_shown and self.order.low < number <= self.order.last), NO_CERTIFICATE)
        self.order.install(certificate)
        self.settle_by(certificate)
        return []

    def adopt(self, text, number, digest, certificate):
        """Goes on from the text of another replica's stable snapshot, by the CHECKPOINTs that tell its number and digest."""
        tell = all((each.message.number, each.message.digest) == (number, digest) for each in certificate)
        refuse_if(not (tell and self.order.is_certificate(certificate) and number > self.order.last), NO_CERTIFICATE)
        files, replies = restored(text, len(self.replies.last))
        refuse_if(replica_digest(files, replies) != digest, DIGEST_DIFFERS)
        self.order.install(certificate)
        self.files, self.replies = files, replies
        self.snapshots.append(Snapshot(number, text, digest))
        self.settle_by(certificate)
        return []
