"""Checks of the folder in which a replica outlives its process: of one replica, without a transport."""
import os
import random
import re
import resource
import shutil
import signal
import struct
import subprocess
from pathlib import Path

from service.cluster import Address, read_cluster, text_of
from service.testing.running import HERE, QUICK, check
from service.testing.single import Asking, Ended, Single, copied, only, records

CUTS, CHANGES = 60, 20  # journals that are cut, and changed
REQUESTS = 8
OTHER_KEYS = "it began with other keys"
VERSION = slice(4, 8)  # of the bytes of a saved replica


def worked(service, name, requests=REQUESTS):
    """A folder in which a new replica has executed so many requests, one in a turn, and was killed."""
    folder, client = f"{service.folder}/{name}", Asking(service)
    single = Single(service, folder, "--new")
    for _ in range(requests):
        client.ask(single)
    single.executed()
    single.kill()
    return folder


def refused(service, folder, text, *options, number=0):
    """It is refused with that text in one line, and the files stay as they are."""
    before = {path.name: path.read_bytes() for path in Path(folder).glob("*-*")}
    status, said = Single(service, folder, *options, number=number).ends()
    check(status == 2 and said.count("\n") == 1 and text in said, f"{text!r}: status {status}, {said}")
    check(before == {path.name: path.read_bytes() for path in Path(folder).glob("*-*")}, f"{text!r}: files were changed")


def goes_on(service, folder, executed, *options):
    """A replica starts with that folder, and has executed so much."""
    single = Single(service, folder, *options)
    found = single.executed()
    check(found == executed, f"it has executed {found}, and not {executed}")
    status, said = single.ends()
    check(status == 0, f"status {status}, {said}")


def restarts(service):
    """Each start goes on behind the last one, also behind one that did nothing; of a folder's files those of one number stay."""
    folder, client = f"{service.folder}/restarts", Asking(service)
    for executed in range(4):
        single = Single(service, folder, *["--new"] * (not executed))
        check(single.executed() == executed, "it has executed something else")
        client.ask(single)
        single.kill()
        goes_on(service, folder, executed + 1)
    names = sorted(path.name for path in Path(folder).iterdir())
    check(names == ["journal-7", "keys", "lock", "saved-7"], names)
    modes = {path.stat().st_mode & 0o777 for path in (*Path(folder).iterdir(), Path(folder))}
    check(modes == {0o600, 0o700}, f"modes {modes}")


def cuts(service):
    """A journal that is cut anywhere, as a crash cuts what isn't synced, gives the replica behind its last whole record."""
    folder, words = worked(service, "cuts"), random.Random(service.seed)
    journal = only(folder, "journal").read_bytes()
    ends = records(journal)
    check(len(ends) == REQUESTS, f"{len(ends)} records")
    places = {0, len(journal), *ends, *(words.randrange(len(journal)) for _ in range(CUTS))}
    for place in sorted(places):
        copy = copied(folder, "copy")
        only(copy, "journal").write_bytes(journal[:place])
        goes_on(service, copy, sum(end <= place for end in ends))


def damages(service):
    """A journal with a byte changed, or with rubbish behind it, is refused; with --damaged what stands before that counts."""
    folder, words = worked(service, "damages"), random.Random(service.seed)
    journal = only(folder, "journal").read_bytes()
    ends = records(journal)
    for _ in range(CHANGES):
        place, copy, changed = words.randrange(len(journal)), copied(folder, "copy"), bytearray(journal)
        changed[place] ^= 1 << words.randrange(8)
        only(copy, "journal").write_bytes(changed)
        before = sum(end <= place for end in ends)
        refused(service, copy, f"is damaged behind {before} records")
        goes_on(service, copy, before, "--damaged")
        goes_on(service, copy, before)
    copy = copied(folder, "copy")
    only(copy, "journal").write_bytes(journal + words.randbytes(1_000))
    refused(service, copy, f"is damaged behind {REQUESTS} records")


def others(service):
    """A folder that another process has, another cluster's, one of another version, changed, empty, or used: each is refused."""
    folder = worked(service, "others")
    single = Single(service, folder)
    single.executed()
    refused(service, folder, "another process has it")
    single.ends()
    refused(service, folder, "it holds a replica", "--new")
    other = f"{service.folder}/other"
    service.bfs("keys", other, "--f", "0", "--clients", "9", *QUICK)
    of_another = type("Other", (), {"folder": other, "programs": service.programs})
    refused(of_another, folder, OTHER_KEYS)
    saved = only(folder, "saved")
    good = saved.read_bytes()
    for text, told in (
        (good[: VERSION.start] + struct.pack(">I", 99) + good[VERSION.stop :], "the text is of another version"),
        (good[:-1], "the text spells no replica"),
        (good[:100] + bytes([good[100] ^ 1]) + good[101:], "the text spells no replica"),
    ):
        saved.write_bytes(text)
        refused(service, folder, told)
    saved.unlink()
    refused(service, folder, "the saved replica is missing")
    only(folder, "journal").unlink()
    refused(service, folder, "it holds no replica")
    goes_on(service, folder, 0, "--new")
    shutil.rmtree(folder)
    refused(service, folder, "No such file")


def other_keys(service):
    """A folder whose replica began with other keys is refused: with another document, or without public keys of clients or of replicas, or the other way round."""
    folder, other = worked(service, "other_keys"), f"{service.folder}/changed"
    without = lambda key: lambda text: re.sub(rf"^{key} = \[.*?\]\n", "", text, flags=re.DOTALL | re.MULTILINE)
    for name, change in (("replica-0.toml", lambda text: text + "#"), ("cluster.toml", without("signers")), ("cluster.toml", without("replica_signers"))):
        shutil.rmtree(other, ignore_errors=True)
        os.mkdir(other, 0o700)
        for path in Path(service.folder).glob("*.*"):
            shutil.copy(path, other)
        changed = Path(other, name)
        before = changed.read_text()
        changed.write_text(change(before))
        check(changed.read_text() != before, f"{name} has not changed")
        of_another = type("Other", (), {"folder": other, "programs": service.programs})
        refused(of_another, folder, OTHER_KEYS)
    noted = Path(folder, "keys")
    keys = noted.read_bytes()
    noted.unlink()
    refused(service, folder, OTHER_KEYS)
    noted.write_bytes(keys)
    goes_on(service, folder, REQUESTS)


def crowded(service):
    """A cluster of so many replicas that sign that their NEW-VIEWs have no room for requests is refused."""
    other, cluster, count = f"{service.folder}/crowded", read_cluster(service.folder), 19
    os.mkdir(other, 0o700)
    for path in Path(service.folder).glob("*.*"):
        shutil.copy(path, other)
    of_many = cluster._replace(faults=6, replicas=tuple(Address("crowd", 7_000 + number) for number in range(count)), replica_signers=cluster.replica_signers * count)
    Path(other, "cluster.toml").write_text(text_of(of_many))
    of_another = type("Other", (), {"folder": other, "programs": service.programs})
    refused(of_another, f"{other}/replica-0", "leave NEW-VIEWs no room for requests", "--new")


def anothers(service):
    """Another replica's folder is refused."""
    folder = worked(service, "anothers", 0)
    refused(service, folder, OTHER_KEYS, number=1)


def full(service):
    """Where a disk is full the process ends, and says it; what it has told before is there when it is started again."""
    folder, client = worked(service, "full"), Asking(service)
    client.timestamp = REQUESTS
    size = only(folder, "saved").stat().st_size + 40_000
    limit = lambda: (signal.signal(signal.SIGXFSZ, signal.SIG_IGN), resource.setrlimit(resource.RLIMIT_FSIZE, (size, size)))
    single, last = Single(service, folder, prepare=limit), REQUESTS
    try:
        while last < 10_000:
            last = client.ask(single)
    except Ended as ended:
        check(ended.status == 2 and "cannot be written: File too large" in ended.said, str(ended))
    goes_on(service, folder, last)


def build(room):
    """The path of the library that refuses calls on files."""
    path = f"{room}/refuse.so"
    subprocess.run(["cc", "-shared", "-fPIC", "-O1", "-Wall", "-o", path, HERE / "refuse.c", "-ldl"], check=True)
    return path


def refused_calls(service):
    """The first call that changes files is refused, the second, and so on until none is met: of a first start with two requests, and of a later start with
    one more. Each run ends before the turn is told, and says why; what was told is there at the next start."""
    library, counts = build(service.folder), []
    for name, options, before in (("first", ["--new"], 0), ("later", [], 2)):
        refusal, met = 0, True
        while met:
            refusal += 1
            folder = f"{service.folder}/refused-{name}"
            shutil.rmtree(folder, ignore_errors=True)
            if before:
                shutil.copytree(worked_once(service, before), folder)
            met = one_refused(service, folder, options, before, LD_PRELOAD=library, REFUSE=str(refusal))
        counts.append(refusal - 1)
    check(min(counts) > 8, f"{counts} calls were refused")


def worked_once(service, requests):
    folder = f"{service.folder}/once"
    return folder if os.path.exists(folder) else worked(service, "once", requests)


def one_refused(service, folder, options, before, **environment):
    """Whether a call was refused."""
    client, told, fault = Asking(service), before, None
    client.timestamp = before
    single = Single(service, folder, *options, **environment)
    try:
        while told < before + 2:
            told = client.ask(single)
        single.ends()
    except Ended as ended:
        fault = ended
        check(ended.status == 2 and "Remote I/O error" in ended.said, f"{environment['REFUSE']}: {ended}")
    again = Single(service, folder)
    try:
        executed = again.executed()
        check(executed in (told, told + 1) if fault else executed == told, f"{environment['REFUSE']}: it told {told}, and has executed {executed}")
        again.ends()
    except Ended as ended:
        check(fault and not told and ("it holds no replica" in ended.said or "No such file" in ended.said), f"{environment['REFUSE']}: {ended}")
    return fault is not None


ALONE = restarts, cuts, damages, others, other_keys, crowded, full, refused_calls
