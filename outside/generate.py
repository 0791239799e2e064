"""Random traces: calls on what is there and on what is not, hostile bytes, callers, requests sent again, and replicas that fall silent."""
import random

from files import DIRECTORY, LINK, MOST_LINKS, REGULAR, ROOT, FileSystem
from table import Replies, execute
from trace import MOST_REQUESTS, Reading, Settings, spelled
from xdr import words

NAMES = ["a", "b", "c", "d", "e", "f0", "long-name", "%20", "%25", "caf%c3%a9", "#2", "~"]
BAD_NAMES = [".", "..", "%", "a%2fb", "%00", "a%00", "%2F", "x" * 255, "y" * 256, "z" * 254]
PATHS = ["a", "a/b", "../c", "%", "/", "p" * 1023, "q" * 1024, "r" * 1025, "%00%ff"]
MODES = ["-", "0", "7", "40", "70", "400", "644", "700", "711", "755", "777", "7777", "100644", "37777777777"]
UIDS = [0, 1_000, 1_001, 1_002, 65_534, 5]
GIDS = [0, 100, 7, 65_534]
SIZES = [0, 1, 7, 100, 4_095, 4_096, 4_097, 8_192, 20_000, 65_536]
LARGE_SIZES = [16_777_215, 16_777_216, 16_777_217, 4_294_967_294]
COUNTS = [0, 11, 12, 28, 32, 51, 52, 72, 100, 512, 8_192, 8_193, 4_294_967_295]
TIMES = ["-", "now", "0.000000", "5.999999", "4294967295.000000", "4294967294.999999"]

VERBS = {
    "null": 1, "root": 1, "writecache": 1, "getattr": 4, "setattr": 7, "lookup": 6, "readlink": 2, "read": 6, "write": 9, "create": 12, "remove": 6,
    "rename": 9, "link": 6, "symlink": 4, "mkdir": 8, "rmdir": 4, "readdir": 5, "statfs": 2, "raw": 8,
}  # fmt: skip


def shown(name):
    """A name as a word."""
    return "".join(chr(each) if 33 <= each <= 126 and each != ord("%") else f"%{each:02x}" for each in name)


class Calls:
    """Verbs with their words, drawn with an eye on the file system as it is."""

    def __init__(self, chance, files, has_large_files):
        self.chance = chance
        self.files = files
        self.has_large_files = has_large_files

    def often(self, part):
        return self.chance.random() < part

    def kept(self, *kinds):
        """A fileid that is there, of one of these kinds if there is such a one."""
        inodes = self.files.inodes
        return self.chance.choice([each for each in inodes if inodes[each].kind in kinds] or list(inodes))

    def fileid(self, *kinds):
        if self.often(0.88):
            return self.kept(*kinds)
        if self.often(0.5):
            return self.kept(REGULAR, DIRECTORY, LINK)
        near = self.files.next_ordinal + self.chance.randrange(-20, 8)
        return self.chance.choice([0, 1, ROOT, 2**32 - 1, max(0, near), max(0, near)])

    def directory(self):
        return ROOT if self.often(0.4) else self.fileid(DIRECTORY)

    def name(self, directory=None):
        """A name, of that directory if it has any."""
        inode = self.files.inodes.get(directory)
        if inode and inode.kind == DIRECTORY and inode.body.entries and self.often(0.6):
            return shown(self.chance.choice(list(inode.body.entries)))
        return self.chance.choice(NAMES if self.often(0.93) else BAD_NAMES)

    def place(self):
        """A directory and a name, which it has or not."""
        directory = self.directory()
        return f"#{directory}", self.name(directory)

    def place_of_directory(self):
        """One that has a directory, if there is any, which is then mostly above others."""
        inodes = self.files.inodes
        places = [
            (f"#{fileid}", shown(name))
            for fileid, inode in inodes.items()
            if inode.kind == DIRECTORY
            for name, (_, child) in inode.body.entries.items()
            if inodes[child].kind == DIRECTORY
        ]
        return self.chance.choice(places) if places else self.place()

    def size(self):
        if self.has_large_files and self.often(0.1):
            return self.chance.choice(LARGE_SIZES)
        return self.chance.choice(SIZES)

    def settings(self):
        def maybe(part, draw):
            return draw() if self.often(part) else "-"

        chance = self.chance
        drawn = [
            maybe(0.4, lambda: chance.choice(MODES)),
            maybe(0.15, lambda: str(chance.choice(UIDS + [2**32 - 1]))),
            maybe(0.15, lambda: str(chance.choice(GIDS + [2**32 - 1]))),
            maybe(0.3, lambda: str(self.size())),
        ]
        return drawn + [maybe(0.2, lambda: chance.choice(TIMES)) for _ in range(2)]

    def data(self):
        length = self.chance.choice([0, 1, 3, 4, 5, 50, 4_096, 8_191, 8_192, 8_193]) if self.often(0.3) else self.chance.randrange(40)
        return bytes([self.chance.randrange(256)]) * length

    def hexadecimal(self, data):
        return data.hex() if self.often(0.5) else data.hex().upper()

    def words(self, verb):
        """The words of a verb but for `raw`."""
        chance = self.chance
        any_kind = (REGULAR, DIRECTORY, LINK)
        if verb in ("null", "root", "writecache"):
            return []
        if verb in ("getattr", "statfs"):
            return [f"#{self.fileid(*any_kind)}"]
        if verb == "setattr":
            return [f"#{self.fileid(*any_kind)}", *self.settings()]
        if verb == "readlink":
            return [f"#{self.fileid(LINK)}"]
        if verb == "read":
            offset = self.size() if self.often(0.3) else chance.randrange(60)
            return [f"#{self.fileid(REGULAR)}", str(offset), str(chance.choice(COUNTS))]
        if verb == "write":
            offset = self.size() if self.often(0.3) else chance.randrange(60)
            return [f"#{self.fileid(REGULAR)}", str(offset), "x" + self.hexadecimal(self.data())]
        if verb in ("create", "mkdir"):
            return [*self.place(), *self.settings()]
        if verb == "symlink":
            return [*self.place(), chance.choice(PATHS), *self.settings()]
        if verb == "rename":
            place = self.place_of_directory() if self.often(0.2) else self.place()
            return [*place, *(self.place() if self.often(0.7) else (place[0], self.name()))]
        if verb == "link":
            return [f"#{self.fileid(REGULAR, LINK)}", *self.place()]
        if verb == "readdir":
            cookie = chance.choice([0, 0, 1, 2, 3, 5, self.files.next_ordinal - 3, 2**32 - 1])
            return [f"#{self.directory()}", str(max(0, cookie)), str(chance.choice(COUNTS))]
        return list(self.place())

    def hostile(self, xid, caller):
        """A good call with something wrong, or no call at all."""
        chance = self.chance
        verb = chance.choice([each for each in VERBS if each != "raw"])
        sent = bytearray(spelled(verb.encode(), [word.encode() for word in self.words(verb)], xid, caller))
        for _ in range(chance.choice([1, 1, 1, 2, 3])):
            way = chance.randrange(8)
            if way == 0:
                del sent[chance.randrange(len(sent)) if sent else 0 :]
            elif way == 1 and sent:
                sent[chance.randrange(len(sent))] = chance.randrange(256)
            elif way == 2:
                sent += chance.randbytes(chance.choice([1, 4, 8]))
            elif way == 3:
                at = 4 * chance.randrange(1 + len(sent) // 4)
                sent[at : at + 4] = words(chance.choice([0, 1, 2, 3, 17, 18, 255, 256, 400, 401, 1_024, 1_025, 8_193, 100_003, 2**31, 2**32 - 1]))
            elif way == 4:
                at = 4 * chance.randrange(1 + len(sent) // 4)
                sent[at:at] = words(chance.randrange(4))
            elif way == 5:
                at = 4 * chance.randrange(1 + len(sent) // 4)
                del sent[at : at + 4]
            elif way == 6:
                sent = self.other_credential(sent)
            else:
                at = chance.choice([4, 8, 12, 16, 20, 24, 28, 32])
                sent[at : at + 4] = words(chance.randrange(20))
        return bytes(sent) or b"\0"

    def other_credential(self, sent):
        """Another credential and verifier (RFC 5531 section 8.2) around the same arguments, if the bytes are long enough."""
        chance = self.chance
        if len(sent) < 72:
            return sent
        machine = bytes(chance.choice([0, 1, 255, 256]))
        gids = [chance.choice(GIDS) for _ in range(chance.choice([0, 1, 16, 17]))]
        body = words(0, len(machine)) + machine + chance.randbytes(-len(machine) % 4)
        body += words(chance.choice(UIDS), chance.choice(GIDS), len(gids), *gids) + bytes(chance.choice([0, 0, 0, 1, 4]))
        flavor = chance.choice([0, 1, 1, 1, 1, 2, 6])
        verifier = chance.randbytes(chance.choice([0, 0, 3, 400, 401]))
        length = int.from_bytes(sent[28:32], "big")
        credential = words(flavor, len(body)) + body + bytes(-len(body) % 4)
        behind = words(chance.randrange(3), len(verifier)) + verifier + bytes(-len(verifier) % 4)
        return bytearray(sent[:24] + credential + behind + sent[40 + length :])

    def draw(self, xid, caller):
        verb = self.chance.choices(list(VERBS), weights=VERBS.values())[0]
        if verb == "raw":
            return ["raw", self.hexadecimal(self.hostile(xid, caller)[:16_384])]
        return [verb, *self.words(verb)]


class Traces:
    """The lines of one random trace. A file system is kept beside it, as it would be if all were executed at once."""

    def __init__(self, seed, settings, has_large_files=False):
        self.chance = random.Random(seed)
        self.settings = settings
        self.files = FileSystem()
        self.replies = Replies(settings.clients)
        self.calls = Calls(self.chance, self.files, has_large_files)
        self.reading = Reading(settings)
        self.lines = []
        self.seconds = 0
        self.timestamps = {}
        self.clients = self.chance.sample(range(settings.clients), min(settings.clients, self.chance.choice([1, 2, 4, 6])))

    def say(self, line):
        """Adds a line, which the reading below keeps the callers of."""
        self.lines.append(line)
        self.reading.line(line.encode())

    def text(self):
        return ("\n".join(self.lines) + self.chance.choice(["\n", ""])).encode()

    def timestamp(self, client):
        """Mostly a later one than the client's last, else one that was used, or an old one."""
        last = self.timestamps.get(client, self.chance.choice([0, 1, 2**32 - 2, 2**40]))
        drawn = self.chance.random()
        if drawn < 0.06:
            return last
        if drawn < 0.09:
            return max(0, last - self.chance.randrange(4))
        self.timestamps[client] = min(last + (1 if drawn < 0.97 else self.chance.randrange(1, 1_000)), 2**64 - 1)
        return self.timestamps[client]

    def request(self):
        client = self.chance.choice(self.clients)
        timestamp = self.timestamp(client)
        drawn = self.calls.draw(timestamp % 2**32, self.reading.callers[client])
        self.say(" ".join([str(client), str(timestamp), *drawn]))

    def batch(self):
        self.seconds += self.chance.choice([1, 1, 1, 1, 0, 60, -1])
        self.seconds = max(0, self.seconds)
        seconds = self.seconds if self.chance.random() < 0.998 else 2**32 - 1
        self.say(f"batch {seconds}.{self.chance.choice([0, 0, 1, 500_000, 999_999]):06}")

    def block(self, requests):
        self.batch()
        for _ in range(min(requests, MOST_REQUESTS)):
            self.request()
        block = self.reading.block
        execute(self.files, self.replies, block.time, block.requests)

    def caller(self):
        client = self.chance.choice(self.clients)
        gids = [self.chance.choice(GIDS) for _ in range(self.chance.choice([1, 1, 1, 2, 3, 17]))]
        self.say(" ".join(map(str, ["as", client, self.chance.choice(UIDS), *gids])))

    def aside(self):
        """A line that says nothing, or who calls."""
        drawn = self.chance.random()
        if drawn < 0.1:
            self.lines.append(self.chance.choice(["", "# a comment\t", "#"]))
        elif drawn < 0.35:
            self.caller()


def server_trace(seed, settings):
    """A trace for one server, which is never silent."""
    traces = Traces(seed, settings, has_large_files=seed % 4 == 0)
    chance = traces.chance
    blocks, most = chance.choice([(3, 120), (8, 40), (20, 12), (40, 8), (70, 3)])
    for _ in range(blocks):
        traces.aside()
        if chance.random() < 0.05:
            traces.say(chance.choice(["heard 0", "timeout"]))
        traces.block(chance.randrange(most + 1))
    return traces.text()


def limits_trace():
    """Links of a file and of a directory up to the most, and a full directory (RFC 1094 leaves both to the server)."""
    made = "- - - - - -"
    calls = [f"create #2 {name} {made}" for name in "abc"] + [f"mkdir #2 {name} {made}" for name in "de"] + [f"create #7 x {made}"]
    calls += [f"link #3 #6 a{number}" for number in range(MOST_LINKS)]
    calls += [f"link #4 #6 b{number}" for number in range(MOST_LINKS)]
    calls += [f"link #5 #6 c{number}" for number in range(6)]
    calls += ["rename #6 a0 #6 m", "rename #7 x #6 y", "rename #7 x #6 a1", f"symlink #6 s a {made}", "remove #6 a2"]
    calls += [f"mkdir #6 z {made}", f"create #6 s {made}"]
    calls += [f"mkdir #7 n{number} {made}" for number in range(MOST_LINKS - 1)]
    calls += ["rename #6 z #7 z", "rename #6 z #7 n0", "rmdir #7 n1", "rename #7 n2 #6 m", "getattr #3", "getattr #6", "getattr #7", "statfs #2"]
    calls += [f"readdir #{directory} {cookie} 8192" for directory in (6, 7) for cookie in (0, 1_000, 65_000, 98_000)]
    lines = []
    for number, call in enumerate(calls):
        if number % MOST_REQUESTS == 0:
            lines.append(f"batch {number + 1}.000000")
        lines.append(f"0 {number + 1} {call}")
    return "\n".join(lines).encode()


def replicas_settings(seed):
    """Mostly four or seven replicas."""
    chance = random.Random(seed)
    faults = chance.choices(range(11), weights=[4, 60, 20, 5, 3, 2, 2, 1, 1, 1, 2])[0]
    return Settings(faults, chance.choice([1, 2, 16, 16, 16, 1_024]), chance.randbytes(chance.choice([1, 32, 32, 64])))


def replicas_trace(seed, settings):
    """A trace for replicas of which some are silent at times, and which change views."""
    traces = Traces(seed, settings)
    chance = traces.chance
    weights = chance.choice([(12, 1, 1, 1), (6, 1, 1, 2), (3, 1, 1, 1), (8, 2, 2, 1), (2, 1, 2, 2), (20, 1, 1, 0)])
    most_silent = chance.choice([settings.faults] * 4 + [settings.faults + 1, settings.replicas])
    most_requests = chance.choice([1, 2, 4, 8]) if settings.faults < 4 else 2
    silent = set()
    for _ in range(chance.choice([6, 15, 40, 60]) if settings.faults < 4 else 12):
        traces.aside()
        step = chance.choices(["block", "silent", "heard", "timeout"], weights)[0]
        replica = chance.randrange(settings.replicas)
        if step == "silent" and len(silent | {replica}) <= most_silent:
            silent.add(replica)
            traces.say(f"silent {replica}")
        elif step == "heard":
            replica = chance.choice([replica, *silent])
            silent.discard(replica)
            traces.say(f"heard {replica}")
        elif step == "timeout":
            traces.say("timeout")
        elif chance.random() < 0.05:
            for _ in range(chance.choice([5, 12, 17, 34])):
                traces.block(0)
        elif chance.random() < 0.002:
            traces.block(MOST_REQUESTS)
        else:
            traces.block(chance.randrange(most_requests + 1))
    return traces.text()


PUT_IN = [b" ", b"0", b"\r", b"4294967296", b"18446744073709551616", b"#", b"%2", b" now"]
PUT_FOR_ONE = [b"", b" ", b"\t", b"\r", b"%", b"-", b"+", b"0", b"x", b"#", b"\xff", b"  "]
OTHER_LINES = [
    b"timeout", b"silent 1", b"heard 00", b"as 0 1", b"as 0 1 2" + b" 3" * 17, b"timeout ", b" timeout", b"0 1 null x", b"batch 1.00000",
    b"batch 4294967296.000000", b"batch 01.000000", b"16 1 null", b"0 1 raw", b"0 1 raw 0", b"\r", b"0 1 NULL", b"015 18446744073709551615 null",
    b"0 18446744073709551616 null", b"0 1 mkdir #2 n 37777777777 - - - - -", b"0 1 mkdir #2 n 40000000000 - - - - -", b"0 1 mkdir #2 n 8 - - - - -",
    b"0 1 readdir #2 4294967295 007", b"0 1 readdir #2 0 4294967296", b"0 1 lookup #4294967296 n", b"0 1 lookup #2 %g0", b"0 1 lookup #2 \x7f",
    b"0 1 create #2 n - - - - 1.00000 -", b"0 1 create #2 n - - - - - 4294967295.999999", b"as 0 4294967296 0", b"as 0 1 2" + b" 3" * 16, b"as 16 1 1",
]  # fmt: skip


def spoiled(seed, text):
    """A trace with a fault, mostly: bytes changed, cut or put in, words doubled, or another line."""
    chance = random.Random(seed)
    lines = text.split(b"\n")
    for _ in range(chance.choice([1, 1, 1, 2])):
        at = chance.randrange(len(lines))
        line = bytearray(lines[at])
        place = chance.randrange(len(line) + 1)
        way = chance.randrange(7)
        if way == 0:
            line[place : place + 1] = chance.choice(PUT_FOR_ONE)
        elif way == 1:
            line[place:place] = chance.choice(PUT_IN)
        elif way == 2:
            del line[place:]
        elif way == 3:
            parts = bytes(line).split(b" ")
            parts.insert(chance.randrange(len(parts) + 1), chance.choice(parts))
            line = b" ".join(parts)
        elif way == 4:
            line = line.upper()
        else:
            line = chance.choice(OTHER_LINES)
        lines[at] = bytes(line)
    return b"\n".join(lines)
