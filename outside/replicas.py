"""What `replay` prints where 3f + 1 replicas in one process order the blocks of a trace by messages (OSDI 1999 section 4)."""
from collections import Counter, defaultdict, deque

from keys import Keys
from messages import REPLY, Request
from order import Refusal
from replica import Replica
from server import line_of
from trace import Block, Hearing


class Line:
    """A request's line: the result of each replica that has replied to it since its block (OSDI 1999 section 4.1)."""

    def __init__(self, request):
        self.request = request
        self.results = {}
        self.is_told = False

    def result(self, faults):
        agreed = [result for result, count in Counter(self.results.values()).items() if count > faults]
        return agreed[0] if agreed else None


class World:
    """The replicas, the messages that are on their way, and the lines that wait for replies."""

    def __init__(self, settings):
        self.settings = settings
        self.keys = Keys(settings)
        self.replicas = [Replica(self.keys, number) for number in range(settings.replicas)]
        self.silent = set()
        self.queue = deque()
        self.lines = []
        self.lines_for = defaultdict(list)  # by their clients and timestamps
        self.printed = []
        self.view = 0
        self.time = (0, 0)

    def heard(self):
        return [each for each in self.replicas if each.me not in self.silent]

    # Messages on their way

    def post(self, sent):
        for signed in sent:
            if signed.message.tag == REPLY:
                self.count(signed)
            else:
                self.queue.append(signed)

    def count(self, signed):
        reply = signed.message
        if self.keys.client_passes(signed, reply.client):
            for line in self.lines_for[reply.client, reply.timestamp]:
                line.results.setdefault(reply.sender, reply.result)

    def hand(self, replica, call, *arguments):
        """A call on a replica. What it refuses is lost."""
        try:
            self.post(call(*arguments))
        except Refusal:
            pass

    def settle(self):
        """Until nothing is on its way or can be executed, and no replica can catch up."""
        while self.deliver_all() or self.execute_all() or self.catch_up():
            pass

    def deliver_all(self):
        some = bool(self.queue)
        while self.queue:
            signed = self.queue.popleft()
            for replica in self.heard():
                if replica.me != signed.message.sender:
                    self.hand(replica, replica.deliver, signed)
        return some

    def execute_all(self):
        some = False
        for replica in self.heard():
            while (sent := replica.advance()) is not None:
                some = True
                self.post(sent)
        return some

    def catch_up(self):
        """The lowest replica that is behind adopts from the lowest one that is ahead, until none is behind."""
        some = False
        while behind := [(each, offer) for each in self.heard() if (offer := self.offer(each))]:
            replica, other = behind[0]
            stable = other.stable()
            replica.adopt(stable.text, stable.number, stable.digest, other.certificate)
            some = True
        return some

    def offer(self, replica):
        ahead = (each for each in self.heard() if each.stable() and each.stable().number > replica.order.last)
        return next(ahead, None)

    # Events of a trace

    def block(self, event):
        self.time = event.time
        lines = [Line(request) for request in event.requests]
        self.lines += lines
        for line in lines:
            self.lines_for[line.request.client, line.request.timestamp].append(line)
        for each in event.requests:
            signed = self.keys.sign(Request(each.client, each.timestamp, each.call))
            for replica in self.heard():
                self.hand(replica, replica.deliver, signed)
        for replica in self.heard():
            self.propose(replica)
        self.settle()
        for line in lines:
            self.tell(line)

    def propose(self, replica):
        self.hand(replica, lambda: [replica.propose(self.time)])

    def tell(self, line):
        result = line.result(self.settings.faults)
        line.is_told = result is not None
        self.printed.append(line_of(line.request, result))

    def timeout(self):
        for replica in self.heard():
            self.hand(replica, replica.timeout)
        self.settle()
        views = Counter(each.order.view for each in self.heard())
        for view, count in views.items():
            if count > 2 * self.settings.faults and view > self.view:
                self.view = view
                self.printed.append(f"view {view}")
        for replica in self.heard():
            if replica.pending:
                self.propose(replica)
        self.settle()
        for line in self.lines:
            if not line.is_told and line.result(self.settings.faults) is not None:
                self.tell(line)

    def standings(self):
        """Where the replicas stand at the end: the digests of those that have executed most."""
        most = max((each.order.last for each in self.heard()), default=0)
        for replica in self.heard():
            last = replica.order.last
            yield f"digest {replica.me} {replica.digest().hex()}" if last == most else f"behind {replica.me} {last}"


def run(events, settings):
    """The lines that are printed for a trace."""
    world = World(settings)
    for event in events:
        if isinstance(event, Block):
            world.block(event)
        elif isinstance(event, Hearing):
            (world.silent.discard if event.heard else world.silent.add)(event.replica)
        else:
            world.timeout()
    return world.printed + list(world.standings())
