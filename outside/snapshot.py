"""The text of a replica's state, read strictly: its last replies, and its file system (docs/TRACE.md)."""
from context import MOST_NAME, MOST_PATH, is_bad
from files import (
    DIRECTORY, FIRST_ORDINAL, LINK, MOST_ENTRIES, MOST_FILE_BYTES, MOST_LINKS, REGULAR, ROOT, SPENT, VERSION,
    Directory, File, FileSystem, Inode, SymbolicLink,
)  # fmt: skip
from order import Refusal, refuse_if
from table import Replies
from xdr import Fault, Reader

MOST_REPLY = 16_384
MALFORMED, NOT_WELL_FORMED, WRONG_VERSION = 20, 21, 22


def restored(text, clients):
    """The file system and last replies that a text spells, or a refusal."""
    try:
        reader = Reader(text, strict=True)
        replies = replies_in(reader, clients)
        refuse_if(reader.raw(4) != b"BFSS", MALFORMED)
        refuse_if(reader.word() != VERSION, WRONG_VERSION)
        files = files_in(reader)
        reader.end()
    except Fault:
        raise Refusal(MALFORMED) from None
    refuse_if(not is_well_formed(files), NOT_WELL_FORMED)
    return files, replies


def want(holds):
    if not holds:
        raise Fault("limit")


def replies_in(reader, clients):
    replies = Replies(clients)
    want(reader.word() == clients)
    for client in range(clients):
        if reader.boolean():
            replies.last[client] = (reader.double(), reader.opaque(MOST_REPLY))
    return replies


def time_in(reader):
    time = reader.word(), reader.word()
    want(time[1] < 1_000_000)
    return time


def files_in(reader):
    files = FileSystem()
    files.next_ordinal = reader.double()
    want(FIRST_ORDINAL <= files.next_ordinal <= SPENT)
    files.last_time = time_in(reader)
    files.inodes = {}
    last = ROOT - 1
    for _ in range(reader.word()):
        fileid = reader.word()
        want(fileid > last)
        files.inodes[fileid] = inode_in(reader)
        last = fileid
    return files


def inode_in(reader):
    kind = reader.word()
    want(kind in (REGULAR, DIRECTORY, LINK))
    permissions, links, uid, gid = (reader.word() for _ in range(4))
    want(permissions <= 0o7777)
    times = [time_in(reader) for _ in range(3)]
    if kind == REGULAR:
        body = File(reader.opaque(MOST_FILE_BYTES))
    elif kind == LINK:
        body = SymbolicLink(reader.opaque(MOST_PATH))
    else:
        body = directory_in(reader)
    return Inode(permissions, links, uid, gid, *times, body)


def directory_in(reader):
    """Its entries are kept by their names, so one with a name that stands twice is kept under no good name: the tree is not well formed then."""
    directory = Directory(reader.word())
    last = FIRST_ORDINAL - 1
    for _ in range(reader.count(MOST_ENTRIES)):
        cookie, name, child = reader.word(), reader.opaque(MOST_NAME), reader.word()
        want(cookie > last)
        directory.entries[b"" if name in directory.entries else name] = (cookie, child)
        last = cookie
    return directory


def is_well_formed(files):
    """Whether the inodes are a tree under the root, all links are counted, and all is older than the next ordinal."""
    inodes = files.inodes
    if ROOT not in inodes or inodes[ROOT].kind != DIRECTORY or inodes[ROOT].body.parent != ROOT:
        return False
    named = {fileid: [] for fileid in inodes}  # the directories with entries that lead to it
    for fileid, inode in inodes.items():
        if inode.kind != DIRECTORY:
            continue
        for name, (cookie, child) in inode.body.entries.items():
            if is_bad(name) or child not in inodes or cookie >= files.next_ordinal:
                return False
            named[child].append(fileid)
    return all(is_in_place(files, fileid, inode, named[fileid]) for fileid, inode in inodes.items())


def is_in_place(files, fileid, inode, named):
    """Whether one inode has the links that it should, and a directory just one name, in its parent, below the root."""
    if fileid >= files.next_ordinal or inode.links > MOST_LINKS:
        return False
    if inode.kind != DIRECTORY:
        return inode.links == len(named) > 0
    below = sum(files.inodes[child].kind == DIRECTORY for _, child in inode.body.entries.values())
    if inode.links != 2 + below or named != ([] if fileid == ROOT else [inode.body.parent]):
        return False
    at, steps = fileid, 0
    while at != ROOT and steps <= len(files.inodes):
        at, steps = files.inodes[at].body.parent, steps + 1
    return at == ROOT
