"""Random schedules of replicas among liars, on a bad network."""
import random

from codec import decode
from files import Caller
from keys import Keys
from messages import REPLY, Request
from order import Refusal
from recorded import Recorded, Script
from replica import Replica
from spoil import Liar, with_other_bytes, with_other_entry
from trace import Settings, spelled
from xdr import Fault

CALLERS = (Caller(1_000, 100), Caller(0, 0))
CALLS = (
    b"null", b"getattr #2", b"create #2 a 644 - - - - -", b"write #3 0 x61", b"mkdir #2 d - - - - - -", b"remove #2 a", b"statfs #2",
    b"readdir #2 0 512",
)  # fmt: skip


def some_call(chance, timestamp):
    verb, *words = chance.choice(CALLS).split(b" ")
    return spelled(verb, words, timestamp % 2**32, chance.choice(CALLERS))


class Plain:
    """A replica that lies about what it does, and of which no answer is compared."""

    def __init__(self, keys, number):
        self.replica = Replica(keys, number)

    def attempt(self, call):
        try:
            return call()
        except (Refusal, Fault):
            return []

    def deliver(self, data):
        return self.attempt(lambda: self.replica.deliver(decode(data)))

    def advance(self):
        return self.replica.advance_all()

    def propose(self, time):
        return self.attempt(lambda: [self.replica.propose(time)])

    def timeout(self):
        return self.replica.timeout()

    def adopt(self, text, number, digest, certificate):
        return self.attempt(lambda: self.replica.adopt(text, number, digest, certificate))


class Schedule:
    """Replicas of which at most f lie, clients that may lie too, and a network that loses, repeats, reorders and changes what it brings."""

    def __init__(self, seed):
        self.chance = random.Random(seed)
        self.settings = Settings(self.chance.choice([0, 1, 1, 1, 1, 1, 1, 2]), self.chance.choice([1, 2, 3]), self.chance.randbytes(8))
        self.keys = Keys(self.settings)
        self.script = Script()
        self.liar = Liar(self.chance, self.keys.sign)
        numbers = range(self.settings.replicas)
        self.liars = set(self.chance.sample(numbers, self.chance.randint(0, self.settings.faults)))
        self.nodes = [Plain(self.keys, each) if each in self.liars else Recorded(self.script, self.keys, each) for each in numbers]
        self.network = []
        self.timestamp = 0
        self.seconds = 0
        self.blocked = set()  # replicas that nothing is brought to
        self.change_weather()

    def change_weather(self):
        """How much is lost, lied and reordered for a while, and how often views time out."""
        chance = self.chance
        self.loss = chance.choice([0, 0, 0, 0.02, 0.1])
        self.lies = chance.choice([0, 0, 0.1, 0.5, 0.9])
        self.timeouts = chance.choice([0, 0, 0.005, 0.03])
        self.reordering = chance.choice([0.3, 1, 10])
        if chance.random() < 0.5:
            self.blocked.clear()

    def send(self, number, sent):
        """Messages of a replica go to all others; what liars say may differ for each."""
        for signed in sent:
            if signed.message.tag == REPLY:
                continue
            for receiver in range(self.settings.replicas):
                data = signed.text
                if number in self.liars and self.chance.random() < self.lies:
                    data = self.liar.spoiled(signed)
                if receiver != number and self.chance.random() >= self.loss:
                    self.network.append((receiver, data))

    def request(self):
        """A client's request, which may be another one, or wrongly signed, for some replicas."""
        chance = self.chance
        client = chance.randrange(self.settings.clients)
        self.timestamp += chance.choice([0, 1, 1, 1, 1])
        for receiver in range(self.settings.replicas):
            if receiver == 0 or chance.random() < 0.05:
                signed = self.keys.sign(Request(client, self.timestamp, some_call(chance, self.timestamp)))
            if chance.random() < 0.02:
                signed = with_other_entry(chance, signed)
            self.network.append((receiver, signed.text))

    def bring(self):
        """A message comes, mostly an early one; some come twice."""
        chance = self.chance
        place = min(int(chance.expovariate(1 / self.reordering)), len(self.network) - 1)
        receiver, data = self.network[place] if chance.random() < 0.03 else self.network.pop(place)
        if receiver in self.blocked:
            return
        if chance.random() < 0.003:
            data = with_other_bytes(chance, data)
        self.send(receiver, self.nodes[receiver].deliver(data))
        node = self.nodes[receiver]
        if chance.random() < 0.8:
            self.send(receiver, node.advance())
        if node.replica.view_to_follow() and chance.random() < 0.3:
            self.send(receiver, node.timeout())

    def propose(self):
        """By primaries for which requests wait. Where they may propose no more, time runs out."""
        chance = self.chance
        self.seconds += chance.choice([0, 1])
        for number, node in enumerate(self.nodes):
            if (node.replica.order.leads() and (node.replica.pending or chance.random() < 0.1)) or chance.random() < 0.01:
                sent = node.propose((self.seconds, chance.randrange(1_000_000)))
                self.send(number, sent)
                if not sent and chance.random() < 0.2:
                    self.time_out()

    def time_out(self):
        """For all, or for one."""
        one = self.chance.randrange(self.settings.replicas)
        is_for_all = self.chance.random() < 0.6
        for number, node in enumerate(self.nodes):
            if is_for_all or number == one:
                self.send(number, node.timeout())

    def adopt(self):
        """One takes over what another one has, perhaps with something wrong."""
        chance = self.chance
        node, other = (chance.choice(self.nodes) for _ in range(2))
        stable = other.replica.stable()
        if not stable:
            return
        text, certificate = stable.text, list(other.replica.certificate)
        if chance.random() < 0.2:
            text = with_other_bytes(chance, text)
        if chance.random() < 0.1:
            certificate.pop(chance.randrange(len(certificate)))
        if chance.random() < 0.1:
            certificate = [with_other_entry(chance, each) for each in certificate]
        node.adopt(text, stable.number, stable.digest, certificate)

    def play(self):
        """Gives the script of what was done."""
        chance = self.chance
        for _ in range(chance.choice([300, 600, 1_500, 3_000])):
            if self.script.is_long():
                break
            drawn = chance.random()
            if drawn < 0.01:
                self.change_weather()
            elif drawn < 0.02:
                self.adopt()
            elif drawn < 0.023:
                self.blocked ^= {chance.randrange(self.settings.replicas)}
            elif drawn < 0.023 + self.timeouts:
                self.time_out()
            elif len(self.network) > 40 or (self.network and drawn < 0.85):
                self.bring()
            elif drawn > 0.96 and all(node.replica.order.asked > node.replica.order.view for node in self.nodes):
                self.time_out()
            elif drawn < 0.92 and len(self.nodes[0].replica.pending) < 4:
                self.request()
            else:
                self.propose()
        return self.script
