"""Turns of a filter in Python. One that reads what is no turn ends with status 9."""
import os
import struct
import sys
import time

MALFORMED = 9
MOST_TURN = 256 << 20  # bytes of payloads
source, sink = sys.stdin.buffer, sys.stdout.buffer


def take(count):
    """So many bytes; at the end of the input the filter ends well, within a turn it doesn't."""
    data = source.read(count)
    if len(data) < count:
        sys.exit(MALFORMED if data else 0)
    return data


def turns():
    """Each turn: its time in microseconds, and its frames as pairs of a kind and a payload."""
    while True:
        seconds, useconds, count = struct.unpack(">III", take(12))
        if useconds >= 1_000_000 or abs(seconds - time.time()) > 60:
            sys.exit(MALFORMED)
        frames, size = [], 0
        for _ in range(count):
            kind, length = struct.unpack(">BI", take(5))
            size += length
            if size > MOST_TURN:
                sys.exit(MALFORMED)
            frames.append((kind, take(length) if length else b""))
        yield seconds * 1_000_000 + useconds, frames


def parcel(to, number, kind, payload):
    return struct.pack(">BQBI", to, number, kind, len(payload)) + payload


def answer(parcels):
    """Writes an answer of these parcels."""
    try:
        sink.write(struct.pack(">I", len(parcels)) + b"".join(parcels))
        sink.flush()
    except BrokenPipeError:
        os._exit(0)  # its transport was killed
