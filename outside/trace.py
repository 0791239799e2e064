"""Traces (docs/TRACE.md): their lines read as events, with each call as the bytes that are sent, and the settings of a run."""
import re
from dataclasses import dataclass, field

from context import handle
from files import Caller
from rpc import call
from xdr import ALL_ONES, opaque, words

MOST_REQUESTS = 1_024  # of a block
MOST_CALL = 16_384
FIRST_UID, GID, MOST_GIDS = 1_000, 100, 16  # of callers, where no `as` says otherwise; gids behind the first
NOW = words(0, 1_000_000)


@dataclass(frozen=True)
class Settings:
    """How many replicas may be faulty, how many clients there are, and what all keys are derived from."""

    faults: int = 0
    clients: int = 16
    secret: bytes = bytes(32)

    @property
    def replicas(self):
        return 3 * self.faults + 1

    def text(self):
        """The settings as a document of TOML."""
        return f'f = {self.faults}\nclients = {self.clients}\nsecret = "{self.secret.hex()}"\n'


class BadLine(Exception):
    """A line that says nothing, by its number from 1 on."""

    def __init__(self, number):
        super().__init__(number)
        self.number = number


class NoWord(Exception):
    """A line, or a word of it, that says nothing."""


@dataclass
class Request:
    client: int
    timestamp: int
    call: bytes


@dataclass
class Block:
    time: tuple
    requests: list = field(default_factory=list)


@dataclass
class Hearing:
    """From here on a replica is heard, or silent."""

    replica: int
    heard: bool


@dataclass
class Timeout:
    pass


# Words


def number(word, below=2**32):
    if not re.fullmatch(rb"[0-9]+", word) or int(word) >= below:
        raise NoWord
    return int(word)


def moment(word):
    """Seconds and microseconds, of which there are six digits."""
    found = re.fullmatch(rb"([0-9]+)\.([0-9]{6})", word)
    if not found:
        raise NoWord
    return number(found[1]), int(found[2])


def hexadecimal(word):
    if not re.fullmatch(rb"(?:[0-9a-fA-F]{2})*", word):
        raise NoWord
    return bytes.fromhex(word.decode())


def name(word):
    """Bytes of a name or path: `%` and two digits stand for any one, and the word `%` for none."""
    if word == b"%":
        return b""
    if not re.fullmatch(rb"(?:[!-$&-~]|%[0-9a-fA-F]{2})+", word):
        raise NoWord
    return re.sub(rb"%(..)", lambda found: bytes.fromhex(found[1].decode()), word)


# Arguments as they are sent, each from the words that spell it


def sent_handle(word):
    if not word.startswith(b"#"):
        raise NoWord
    return handle(number(word[1:]))


def sent_number(word):
    return words(number(word))


def sent_name(word):
    return opaque(name(word))


def sent_bytes(word):
    if not word.startswith(b"x"):
        raise NoWord
    return opaque(hexadecimal(word[1:]))


def sent_mode(word):
    if word == b"-":
        return words(ALL_ONES)
    if not re.fullmatch(rb"[0-7]+", word) or int(word, 8) >= 2**32:
        raise NoWord
    return words(int(word, 8))


def sent_setting(word):
    return words(ALL_ONES) if word == b"-" else sent_number(word)


def sent_time(word):
    if word == b"-":
        return words(ALL_ONES, ALL_ONES)
    return NOW if word == b"now" else words(*moment(word))


SETTINGS = (sent_mode, sent_setting, sent_setting, sent_setting, sent_time, sent_time)
UNUSED = words(0)

# Each verb: its procedure, and what is sent of its words, with the words that no server reads between them
VERBS = {
    b"null": (0, ()),
    b"getattr": (1, (sent_handle,)),
    b"setattr": (2, (sent_handle, *SETTINGS)),
    b"root": (3, ()),
    b"lookup": (4, (sent_handle, sent_name)),
    b"readlink": (5, (sent_handle,)),
    b"read": (6, (sent_handle, sent_number, sent_number, UNUSED)),
    b"writecache": (7, ()),
    b"write": (8, (sent_handle, UNUSED, sent_number, UNUSED, sent_bytes)),
    b"create": (9, (sent_handle, sent_name, *SETTINGS)),
    b"remove": (10, (sent_handle, sent_name)),
    b"rename": (11, (sent_handle, sent_name, sent_handle, sent_name)),
    b"link": (12, (sent_handle, sent_handle, sent_name)),
    b"symlink": (13, (sent_handle, sent_name, sent_name, *SETTINGS)),
    b"mkdir": (14, (sent_handle, sent_name, *SETTINGS)),
    b"rmdir": (15, (sent_handle, sent_name)),
    b"readdir": (16, (sent_handle, sent_number, sent_number)),
    b"statfs": (17, (sent_handle,)),
}


def spelled(verb, arguments, xid, caller):
    """The bytes of the call that a verb and its words stand for."""
    if verb == b"raw" and len(arguments) == 1:
        return hexadecimal(arguments[0])
    if verb not in VERBS:
        raise NoWord
    procedure, parts = VERBS[verb]
    left = list(arguments)
    if len(left) != sum(part != UNUSED for part in parts):
        raise NoWord
    sent = b"".join(part if part == UNUSED else part(left.pop(0)) for part in parts)
    return call(xid, procedure, caller, sent)


# Lines


class Reading:
    """The events of the lines so far, and what the next line rests on: the block that it may stand in, and who each client's calls come from."""

    def __init__(self, settings):
        self.settings = settings
        self.events = []
        self.block = None
        self.callers = [Caller(FIRST_UID + client, GID) for client in range(settings.clients)]

    def line(self, text):
        head, *rest = text.split(b" ")
        if b"" in (head, *rest):
            raise NoWord
        if head == b"batch" and len(rest) == 1:
            self.block = Block(moment(rest[0]))
            self.events.append(self.block)
        elif head in (b"silent", b"heard") and len(rest) == 1:
            self.event(Hearing(number(rest[0], self.settings.replicas), head == b"heard"))
        elif head == b"timeout" and not rest:
            self.event(Timeout())
        elif head == b"as":
            self.caller(*rest)
        else:
            self.request(head, *rest)

    def event(self, event):
        self.events.append(event)
        self.block = None

    def caller(self, *numbers):
        if not 3 <= len(numbers) <= 3 + MOST_GIDS:
            raise NoWord
        client = number(numbers[0], self.settings.clients)
        uid, gid, *gids = map(number, numbers[1:])
        self.callers[client] = Caller(uid, gid, tuple(gids))
        self.block = None

    def request(self, *given):
        if len(given) < 3 or self.block is None or len(self.block.requests) >= MOST_REQUESTS:
            raise NoWord
        client = number(given[0], self.settings.clients)
        timestamp = number(given[1], 2**64)
        sent = spelled(given[2], given[3:], timestamp % 2**32, self.callers[client])
        if not 1 <= len(sent) <= MOST_CALL:
            raise NoWord
        self.block.requests.append(Request(client, timestamp, sent))


def parse(text, settings):
    """The events of a trace, or `BadLine` for the first line at fault."""
    reading = Reading(settings)
    for at, line in enumerate(text.split(b"\n"), 1):
        if line and not line.startswith(b"#"):
            try:
                reading.line(line)
            except NoWord:
                raise BadLine(at) from None
    return reading.events
