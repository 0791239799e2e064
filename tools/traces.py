"""Traces, and what `replay` prints for them: what the tools beside this file share. docs/TRACE.md says what a line may be."""
import os
import re
import signal
import struct
import subprocess
import sys
from typing import NamedTuple

PROGRAM, VERSION = 100003, 2  # NFS version 2
CLIENTS = 16  # the clients of a trace are the numbers below it
FIRST_UID, GID = 1000, 100  # of client 0, and of all clients, where no line says otherwise
MOST_GIDS = 16  # of a caller, behind its gid
MOST_REQUESTS = 1_024  # of a block
MOST_BYTES = 16_384  # of a call, and of a reply
NO_REPLY = ("-", "none")  # what stands for a reply of no bytes, and where the replicas gave none
SECOND = 1_000_000  # times are in microseconds
TIMES = 2**32 * SECOND  # and below it
UNSET = 0xFFFFFFFF

# Every procedure: its verb, its arguments, and what follows the status 0, or `None` where there is no status. No server looks at
# `unused` words.
SETTINGS = "mode uid gid size atime mtime"
PROCEDURES = (
    ("null", "", None),
    ("getattr", "handle", "attributes"),
    ("setattr", "handle " + SETTINGS, "attributes"),
    ("root", "", None),
    ("lookup", "handle name", "handle attributes"),
    ("readlink", "handle", "path"),
    ("read", "handle offset count unused", "attributes data"),
    ("writecache", "", None),
    ("write", "handle unused offset unused data", "attributes"),
    ("create", "handle name " + SETTINGS, "handle attributes"),
    ("remove", "handle name", ""),
    ("rename", "handle name handle name", ""),
    ("link", "handle handle name", ""),
    ("symlink", "handle name path " + SETTINGS, ""),
    ("mkdir", "handle name " + SETTINGS, "handle attributes"),
    ("rmdir", "handle name", ""),
    ("readdir", "handle cookie count", "entries"),
    ("statfs", "handle", "tsize bsize blocks bfree bavail"),
)


class Fault(Exception):
    """What is wrong with a file, in words."""


class Request(NamedTuple):
    """A request: its line in the trace, how many timeouts are above it, its batch's effective time, its client and timestamp, and the bytes of its call."""

    line: int
    timeouts: int
    time: int
    client: int
    timestamp: int
    call: bytes


def pack(*numbers):
    return struct.pack(f">{len(numbers)}I", *numbers)


def opaque(data):
    return pack(len(data)) + data + bytes(-len(data) % 4)


def handle(fileid):
    return b"BFS2" + pack(1, fileid) + bytes(20)


def text(word):
    """The bytes of a name or a path, in which `%` and two digits stand for any byte, and `%` alone for none."""
    return b"" if word == "%" else re.sub(b"%(..)", lambda digits: bytes.fromhex(digits[1].decode()), word.encode())


def setting(word, radix=10):
    return pack(UNSET if word == "-" else int(word, radix))


def time_setting(word):
    return {"-": pack(UNSET, UNSET), "now": pack(0, SECOND)}.get(word) or pack(*map(int, word.split(".")))


# How the word of an argument is written, and the bytes that it stands for. What is not here is a number below 2^32.
NUMBER = r"\d+", lambda word: pack(int(word))
TEXT = r"%|([!-$&-~]|%[\da-fA-F]{2})+", lambda word: opaque(text(word))
ARGUMENTS = {
    "handle": (r"#\d+", lambda word: handle(int(word[1:]))),
    "name": TEXT,
    "path": TEXT,
    "data": (r"x[\da-fA-F]*", lambda word: opaque(bytes.fromhex(word[1:]))),
    "mode": (r"-|[0-7]+", lambda word: setting(word, 8)),
    **{label: (r"-|\d+", setting) for label in ("uid", "gid", "size")},
    **{label: (r"-|now|\d+\.\d{6}", time_setting) for label in ("atime", "mtime")},
}


def argument(label, word):
    pattern, build = ARGUMENTS.get(label, NUMBER)
    try:
        if re.fullmatch(pattern, word):
            return build(word)
    except (struct.error, ValueError):
        pass  # a number is too large, or digits are odd
    raise ValueError(f"{word[:40]!r} is no {label}")


def is_hexadecimal(word):
    return re.fullmatch(r"[\da-fA-F]+", word) and len(word) % 2 == 0


def caller_in(words):
    """The uid, the gid and the further gids of a caller, of the words behind the client of `as`; a ValueError says what is wrong with them."""
    numbers = [int(word) if re.fullmatch(r"[0-9]+", word) else 2**32 for word in words]
    if not 2 <= len(numbers) <= 2 + MOST_GIDS or max(numbers) >= 2**32:
        raise ValueError(f"`{' '.join(words)[:40]}` is no uid with a gid and at most {MOST_GIDS} further ones")
    return numbers


def call_of(caller, timestamp, verb, words):
    """The bytes of the call that a verb and the words behind it spell; a ValueError says what is wrong with them."""
    if verb == "raw" and len(words) == 1 and is_hexadecimal(words[0]):
        return bytes.fromhex(words[0])
    for procedure, (name, labels, _) in enumerate(PROCEDURES):
        labels = labels.split()
        if verb == name and len(words) == len(labels) - labels.count("unused"):
            rest = iter(words)
            arguments = [argument(label, "0" if label == "unused" else next(rest)) for label in labels]
            credential = pack(0) + opaque(b"replay") + pack(*caller[:2], len(caller) - 2, *caller[2:])
            header = pack(timestamp % 2**32, 0, 2, PROGRAM, VERSION, procedure, 1) + opaque(credential) + pack(0, 0)
            return header + b"".join(arguments)
    raise ValueError(f"`{verb}` with what stands behind it spells no call")


def lines(path):
    """The lines of a file with their numbers, from 1."""
    with open(path, "rb") as file:
        content = file.read().decode("ascii", "replace")
    return enumerate(content.removesuffix("\n").split("\n") if content else [], 1)


def read_trace(path):
    """The requests of a trace. Its first line that is at fault is a fault."""
    requests, last, room, timeouts, callers = [], 0, None, 0, {}
    for line, content in lines(path):
        try:
            if batch := re.fullmatch(r"batch (\d+)\.(\d{6})", content):
                proposed = int(batch[1]) * SECOND + int(batch[2])
                if proposed >= TIMES:
                    raise ValueError("the seconds are not below 2^32")
                last, room = proposed if proposed > last else min(last + 1, TIMES - 1), MOST_REQUESTS
            elif request := re.fullmatch(r"(\d+) (\d+) ([a-z]+)(( [^ ]+)*)", content):
                client, timestamp = int(request[1]), int(request[2])
                if client >= CLIENTS or timestamp >= 2**64:
                    raise ValueError(f"the client is not below {CLIENTS}, or the timestamp is not below 2^64")
                if not room:
                    raise ValueError("no batch is above it" if room is None else f"its batch has above {MOST_REQUESTS:,} requests")
                caller = callers.get(client, [FIRST_UID + client, GID])
                call, room = call_of(caller, timestamp, request[3], request[4].split(" ")[1:]), room - 1
                if len(call) > MOST_BYTES:
                    raise ValueError(f"the call has above {MOST_BYTES:,} bytes")
                requests.append(Request(line, timeouts, last, client, timestamp, call))
            elif named := re.fullmatch(r"as (\d+)(( [^ ]+)*)", content):
                if int(named[1]) >= CLIENTS:
                    raise ValueError(f"the client is not below {CLIENTS}")
                callers[int(named[1])], room = caller_in(named[2].split(" ")[1:]), None
            elif re.fullmatch(r"(silent|heard) \d+|timeout", content):
                room, timeouts = None, timeouts + (content == "timeout")
            elif content and not content.startswith("#"):
                raise ValueError("it is neither `batch S.UUUUUU` nor `CLIENT T VERB ..`")
        except ValueError as error:
            raise Fault(f"{path}: line {line}: {error}") from None
    return requests


def read_replies(path, requests):
    """The replies to the requests of a trace, by their place in it; `None` where a request got none, neither behind its block nor at a timeout."""
    output = [each for each in lines(path) if not re.fullmatch(r"digest \d+ [0-9a-f]{64}|behind \d+ \d+|view \d+", each[1])]
    replies, waiting, timeouts, late = [], [], 0, len(output) - len(requests)
    for line, content in output:
        request = requests[len(replies)] if len(replies) < len(requests) else None
        if late > 0 and (request is None or request.timeouts > timeouts):
            place = next((place for place in waiting if content.startswith(begin_of(requests[place]))), None)
            if place is not None:
                waiting.remove(place)
                replies[place], late = reply_in(path, line, content, requests[place]), late - 1
                continue
        if request is None:
            raise Fault(f"{path}: {len(output)} lines of replies, where the trace has {len(requests)} requests")
        timeouts = request.timeouts
        replies.append(reply_in(path, line, content, request))
        if content.endswith(" none"):
            waiting.append(len(replies) - 1)
    if len(replies) < len(requests):
        raise Fault(f"{path}: {len(output)} lines of replies, where the trace has {len(requests)} requests")
    return replies


def begin_of(request):
    return f"c{request.client} t{request.timestamp} "


def reply_in(path, line, content, request):
    """The reply that a line tells, which is one to that request; `None` where there is none."""
    begin = begin_of(request)
    reply = content[len(begin) :]
    if not content.startswith(begin) or reply not in NO_REPLY and not is_hexadecimal(reply) or len(reply) > 2 * MOST_BYTES:
        raise Fault(f"{path}: line {line}: no reply to line {request.line} of the trace, {begin.strip()}")
    return None if reply in NO_REPLY else bytes.fromhex(reply)


def start(program, *words, **streams):
    """Starts a program of Wireshark's."""
    try:
        return subprocess.Popen([program, *words], env={**os.environ, "TZ": "UTC"}, encoding="utf-8", errors="replace", **streams)
    except FileNotFoundError:
        raise Fault(f"{program} is not installed: apt-get install tshark") from None


def run(main, usage):
    """Runs a tool on its words. Its status is 2 where these are not as many as the usage has, and 1 where there is a fault."""
    signal.signal(signal.SIGINT, signal.SIG_DFL)
    words = sys.argv[1:]
    if {"-h", "--help"} & set(words):
        print("usage:", usage)
    elif len(words) != len(usage.partition(" >")[0].split()) - 1:
        print("usage:", usage, file=sys.stderr)
        sys.exit(2)
    else:
        try:
            main(*words)
            sys.stdout.flush()
        except BrokenPipeError:  # who reads the output wants no more
            os.dup2(os.open(os.devnull, os.O_WRONLY), sys.stdout.fileno())
        except OSError as error:
            sys.exit(f"{sys.argv[0]}: {error.filename or 'standard output'}: {error.strerror}")
        except Fault as fault:
            sys.exit(f"{sys.argv[0]}: {fault}")
