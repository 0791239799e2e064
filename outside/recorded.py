"""Replicas whose calls are written into a script for `driver.txt`, with what they are to answer."""
from codec import decode
from order import Refusal
from replica import Replica
from xdr import Fault

MALFORMED = 23
MOST_GIVEN, MOST_WANTED = 1_000_000, 250_000  # characters, behind which a script is long enough: `rt try` takes 1 MiB of output


class Script:
    """Lines for the program, and those that it is to print."""

    def __init__(self):
        self.lines = []
        self.wanted = []
        self.places = 0
        self.given = self.told = 0

    def say(self, line):
        self.lines.append(line)
        self.given += len(line)

    def want(self, line):
        self.wanted.append(line)
        self.told += len(line)

    def is_long(self):
        return self.given > MOST_GIVEN or self.told > MOST_WANTED


class Recorded:
    """A replica whose calls are written into a script, with their answers."""

    def __init__(self, script, keys, number):
        self.script = script
        self.place = script.places
        script.places += 1
        script.say(f"replica {number} {keys.settings.text().encode().hex()}")
        self.replica = Replica(keys, number)

    def call(self, words, call):
        """Makes the call, and gives what is sent."""
        name, *given = words
        self.script.say(" ".join([name, str(self.place), *given]))
        want = self.script.want
        sent = []
        try:
            sent = call()
            for each in sent:
                want(f"sent {each.text.hex()}")
        except Refusal as refusal:
            want(f"refused {refusal.code}")
        except Fault:
            want(f"refused {MALFORMED}")
        replica, order = self.replica, self.replica.order
        follow = replica.view_to_follow() or 0
        stand = f"view {order.view} asked {order.asked} follow {follow} last {order.last} stable {order.low} pending {len(replica.pending)}"
        want(f"{stand} digest {replica.digest().hex()}")
        return sent

    def deliver(self, data):
        return self.call(["deliver", data.hex()], lambda: self.replica.deliver(decode(data)))

    def advance(self):
        return self.call(["advance"], self.replica.advance_all)

    def propose(self, time):
        return self.call(["propose", *map(str, time)], lambda: [self.replica.propose(time)])

    def timeout(self):
        return self.call(["timeout"], self.replica.timeout)

    def leave(self, view):
        return self.call(["leave", str(view)], lambda: self.replica.leave(view))

    def offer(self, request):
        return self.call(["offer", request.text.hex()], lambda: self.replica.offer(request))

    def resend(self, *lag):
        return self.call(["resend", *map(str, lag)], lambda: self.replica.resend(*lag))

    def forget_answered(self):
        return self.call(["forget_answered"], self.replica.forget_answered)

    def forget_proposed(self):
        return self.call(["forget_proposed"], self.replica.forget_proposed)

    def told(self, number):
        return self.call(["told", str(number)], lambda: (self.replica.told(number) or (None, []))[1])

    def collect(self, number, digest, told):
        words = ["collect", str(number), digest.hex(), *(each.text.hex() for each in told)]
        return self.call(words, lambda: self.replica.collect(number, digest, told))

    def settle(self, number, digest, certificate):
        words = ["settle", str(number), digest.hex(), *(each.text.hex() for each in certificate)]
        return self.call(words, lambda: self.replica.settle(number, digest, certificate))

    def adopt(self, text, number, digest, certificate):
        words = ["adopt", text.hex(), str(number), digest.hex(), *(each.text.hex() for each in certificate)]
        return self.call(words, lambda: self.replica.adopt(text, number, digest, certificate))
