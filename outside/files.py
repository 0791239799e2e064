"""A file system in memory: inodes, what a caller may do to them, and the digest of all (RFC 1094 sections 2.3 and 3.3)."""
from dataclasses import dataclass, field
from hashlib import sha256

from xdr import double, opaque, words

REGULAR, DIRECTORY, LINK = 1, 2, 5
ROOT = 2
FIRST_ORDINAL = 3
VERSION = 2  # of its text
SPENT = 2**32  # the ordinal behind the last one, under which nothing is made
LAST_TIME = (2**32 - 1, 999_999)

MOST_FILE_BYTES = 16_777_216
MOST_ENTRIES = 65_536
MOST_LINKS = 32_767

BLOCK = 4_096
READ, WRITE, SEARCH = 4, 2, 1


@dataclass(frozen=True)
class Caller:
    """Who calls (RFC 5531 appendix A). The user 0 may do everything."""

    uid: int
    gid: int
    gids: tuple = ()

    @property
    def is_superuser(self):
        return self.uid == 0

    def holds(self, gid):
        return self.is_superuser or gid == self.gid or gid in self.gids

    def owns(self, inode):
        return self.is_superuser or self.uid == inode.uid

    def may(self, inode, *kinds):
        """Whether the class of the caller, the owner, else the group, else others, has all these bits."""
        if self.is_superuser:
            return True
        if self.uid == inode.uid:
            shift = 6
        elif self.holds(inode.gid):
            shift = 3
        else:
            shift = 0
        bits = inode.permissions >> shift
        return all(bits & kind for kind in kinds)


@dataclass
class File:
    data: bytes = b""
    kind = REGULAR

    @property
    def size(self):
        return len(self.data)

    def text(self):
        return opaque(self.data)

    def hashed(self):
        blocks = (sha256(self.data[start : start + BLOCK]).digest() for start in range(0, len(self.data), BLOCK))
        return words(len(self.data)) + b"".join(blocks)


@dataclass
class SymbolicLink:
    path: bytes
    kind = LINK

    @property
    def size(self):
        return len(self.path)

    def text(self):
        return opaque(self.path)

    hashed = text


@dataclass
class Directory:
    """The entries, a cookie and a fileid for each name, by rising cookie: a later entry always has a higher one."""

    parent: int
    entries: dict = field(default_factory=dict)
    kind = DIRECTORY

    @property
    def size(self):
        return 32 * (len(self.entries) + 2)

    def text(self):
        entries = (words(cookie) + opaque(name) + words(child) for name, (cookie, child) in self.entries.items())
        return words(self.parent, len(self.entries)) + b"".join(entries)

    hashed = text


@dataclass
class Inode:
    permissions: int
    links: int
    uid: int
    gid: int
    atime: tuple
    mtime: tuple
    ctime: tuple
    body: object

    @property
    def kind(self):
        return self.body.kind

    @property
    def blocks(self):
        return -(-self.body.size // BLOCK)

    def touch(self, time):
        self.mtime = self.ctime = time

    def record(self, fileid, rest):
        """The inode as it is spelled, or hashed: the rest is the text of its body, or of a file the digests of its blocks."""
        return words(fileid, self.kind, self.permissions, self.links, self.uid, self.gid, *self.atime, *self.mtime, *self.ctime) + rest


class FileSystem:
    """All inodes by their fileids, the ordinal of the next call, and the time of the last batch."""

    def __init__(self):
        epoch = (0, 0)
        root = Inode(0o777, 2, 0, 0, epoch, epoch, epoch, Directory(ROOT))
        self.inodes = {ROOT: root}
        self.next_ordinal = FIRST_ORDINAL
        self.last_time = epoch

    def begin_batch(self, proposed):
        """The effective time of a batch: the proposed one where that is later than the last, else a microsecond after that."""
        if proposed <= self.last_time:
            seconds, microseconds = self.last_time
            carry, microseconds = divmod(microseconds + 1, 1_000_000)
            proposed = min((seconds + carry, microseconds), LAST_TIME)
        self.last_time = proposed

    def take_ordinal(self):
        """Each call uses one, also where it has no reply."""
        ordinal = self.next_ordinal
        self.next_ordinal = min(ordinal + 1, SPENT)
        return ordinal

    def header(self):
        return b"BFSS" + words(VERSION) + double(self.next_ordinal) + words(*self.last_time, len(self.inodes))

    def text(self):
        """All of it, in the latest version."""
        return self.header() + b"".join(inode.record(fileid, inode.body.text()) for fileid, inode in sorted(self.inodes.items()))

    def digest(self):
        records = ((fileid, inode.record(fileid, inode.body.hashed())) for fileid, inode in sorted(self.inodes.items()))
        return sha256(self.header() + b"".join(words(fileid) + sha256(record).digest() for fileid, record in records)).digest()
