"""A check that what was answered is there, and is the same everywhere, whichever replicas are killed and started again, all of them too."""
import random
import struct
import time
from pathlib import Path

from service.testing.sessions import Session, Worker, end, kill_all, reports, same
from service.testing.single import HEAD

WORKERS, REPLICAS = 3, 4
MOST_WAIT = 0.3  # seconds
MOST_VIEWS = 5
MOST_BODY = 5_000  # bytes
LENGTHS = struct.Struct(">II")  # that of a body, twice, at the head of its record


def join(service, workers):
    """One that has asked for a later view alone, and keeps its word, takes part again behind the next view: the primary is killed, until no one is left out."""
    for _ in range(MOST_VIEWS):
        rows = reports(service)
        if all(row.get("asked") == row.get("view") for row in rows):
            return
        primary = "replica", str(max(int(row.get("view", 0)) for row in rows) % REPLICAS)
        kill_all(service, primary)
        for worker in workers:
            worker.goes_on()
        service.start(*primary)
        for worker in workers:
            worker.goes_on()


def ends_whole(journal):
    """Whether a whole record stands at the end, or nothing."""
    place = 0
    while place + LENGTHS.size <= len(journal):
        place += HEAD + LENGTHS.unpack_from(journal, place)[0]
    return place == len(journal)


def tear(folder, words):
    """A write of a record that was cut stands behind what a replica has synced, unless the kill itself has cut one."""
    journals = sorted(Path(folder).glob("journal-*"), key=lambda path: int(path.name.partition("-")[2]))
    length = words.randrange(1, MOST_BODY)
    record = LENGTHS.pack(length, length) + words.randbytes(HEAD - LENGTHS.size + length)
    for path in journals[-1:]:
        if ends_whole(path.read_bytes()):
            with open(path, "ab") as file:
                file.write(record[: words.randrange(len(record))])


def kills(service):
    """While kernels work, replica 0, 1, 2, 3 and then all of them are killed with -9, their journals torn, and they started again, over and over."""
    service.up()
    words, workers = random.Random(service.seed), [Worker(service, b"work %d" % number) for number in range(WORKERS)]
    for worker in workers:
        worker.goes_on()
    for each in range(service.rounds):
        one = each % (REPLICAS + 1)
        victims = [("replica", str(number)) for number in range(REPLICAS) if one in (number, REPLICAS)]
        words.shuffle(victims)
        time.sleep(words.uniform(0, MOST_WAIT))
        kill_all(service, *victims)
        time.sleep(words.uniform(0, MOST_WAIT))
        for victim in victims:
            tear(f"{service.folder}/{'-'.join(victim)}", words)
            service.start(*victim)
        for worker in workers:
            worker.goes_on()
    join(service, workers)
    for worker in workers:
        worker.end()
    same(service, range(REPLICAS))
    Session(service, "behind").end()
    end(service)
