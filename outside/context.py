"""What a call of NFS version 2 is carried out with: what handles and names lead to, and what stands against a change (RFC 1094 section 2.3)."""
from dataclasses import dataclass

from files import (
    BLOCK, DIRECTORY, LINK, MOST_ENTRIES, REGULAR, SEARCH, SPENT, WRITE, Caller, FileSystem, Inode,
)  # fmt: skip
from xdr import ALL_ONES, words

OK, PERM, NOENT, ACCES, EXIST, NOTDIR, ISDIR = 0, 1, 2, 13, 17, 20, 21
FBIG, NOSPC, NOTEMPTY, STALE = 27, 28, 66, 70

MOST_NAME, MOST_PATH, MOST_DATA = 255, 1_024, 8_192
TYPE_BITS = {REGULAR: 0o100000, DIRECTORY: 0o040000, LINK: 0o120000}
TOTAL_BLOCKS = 262_144
HANDLE_HEAD, HANDLE_TAIL = b"BFS2" + words(1), bytes(20)


class Refused(Exception):
    """A call that is answered by a status alone (RFC 1094 section 2.3.1)."""

    def __init__(self, status):
        super().__init__(status)
        self.status = status


def refuse_if(holds, status):
    if holds:
        raise Refused(status)


@dataclass
class Settings:
    """What `sattr` sets (RFC 1094 section 2.3.6): None where a field is not set."""

    mode: object
    uid: object
    gid: object
    size: object
    atime: object
    mtime: object

    @staticmethod
    def read(reader):
        mode, uid, gid, size = (settings_word(reader.word()) for _ in range(4))
        atime, mtime = (settings_time(reader.word(), reader.word()) for _ in range(2))
        return Settings(mode, uid, gid, size, atime, mtime)


def settings_word(word):
    return None if word == ALL_ONES else word


def settings_time(seconds, microseconds):
    """A time of which either word is all ones is not set; one that is no time, with too many microseconds, means now."""
    if ALL_ONES in (seconds, microseconds):
        return None
    return (seconds, microseconds) if microseconds < 1_000_000 else "now"


def handle(fileid):
    """The 32 bytes of a file's handle (RFC 1094 section 2.3.3)."""
    return HANDLE_HEAD + words(fileid) + HANDLE_TAIL


@dataclass
class Call:
    """A call that is carried out: its place in the history, and who calls."""

    files: FileSystem
    ordinal: int
    time: tuple
    caller: Caller

    # What handles and names lead to

    def inode(self, given):
        fileid = int.from_bytes(given[8:12], "big")
        refuse_if(given != handle(fileid) or fileid not in self.files.inodes, STALE)
        return fileid, self.files.inodes[fileid]

    def directory(self, given):
        fileid, inode = self.inode(given)
        refuse_if(inode.kind != DIRECTORY, NOTDIR)
        return fileid, inode

    def file(self, given):
        fileid, inode = self.inode(given)
        refuse_if(inode.kind == DIRECTORY, ISDIR)
        refuse_if(inode.kind == LINK, PERM)
        return fileid, inode

    def attributes(self, fileid):
        """`fattr` (RFC 1094 section 2.3.5)."""
        inode = self.files.inodes[fileid]
        numbers = (inode.kind, TYPE_BITS[inode.kind] | inode.permissions, inode.links, inode.uid, inode.gid, inode.body.size, BLOCK, 0, inode.blocks)
        return words(*numbers, 1, fileid, *inode.atime, *inode.mtime, *inode.ctime)

    def time_of(self, given, other):
        """The time that was set, the batch's for `now`, or the other one where none was."""
        if given is None:
            return other
        return self.time if given == "now" else given

    # What changes directories

    def may_change(self, directory):
        refuse_if(not self.caller.may(directory, WRITE, SEARCH), ACCES)

    def child(self, given, name):
        """The directory, and the inode that has the name in it, which is to lose it."""
        where, directory = self.directory(given)
        self.may_change(directory)
        refuse_if(is_bad(name), PERM)
        refuse_if(name not in directory.body.entries, NOENT)
        fileid = directory.body.entries[name][1]
        return where, directory, fileid, self.files.inodes[fileid]

    def new_name(self, directory, name, settings=None):
        """What stands against a new name in a directory. What is made belongs to the caller, and to a group that it holds."""
        self.may_change(directory)
        refuse_if(is_bad(name), PERM)
        refuse_if(name in directory.body.entries, EXIST)
        if settings is not None and not self.caller.is_superuser:
            refuse_if(settings.uid not in (None, self.caller.uid), PERM)
            refuse_if(settings.gid is not None and not self.caller.holds(settings.gid), PERM)
        self.room(directory)

    def room(self, directory):
        refuse_if(self.ordinal == SPENT, NOSPC)
        refuse_if(len(directory.body.entries) >= MOST_ENTRIES, NOSPC)

    def enter(self, directory, name, fileid):
        directory.body.entries[name] = (self.ordinal, fileid)
        directory.touch(self.time)

    def make(self, directory, name, settings, permissions, links, body):
        """A new inode, under the call's ordinal, and its entry."""
        uid = self.caller.uid if settings.uid is None else settings.uid
        gid = self.caller.gid if settings.gid is None else settings.gid
        atime, mtime = (self.time_of(given, self.time) for given in (settings.atime, settings.mtime))
        self.files.inodes[self.ordinal] = Inode(permissions, links, uid, gid, atime, mtime, self.time, body)
        self.enter(directory, name, self.ordinal)

    def lose_link(self, fileid):
        inode = self.files.inodes[fileid]
        inode.links -= 1
        inode.ctime = self.time
        if inode.links == 0:
            del self.files.inodes[fileid]

    def is_below(self, fileid, above):
        """Whether parents lead from one directory to another, or they are one."""
        while fileid != above and self.files.inodes[fileid].body.parent != fileid:
            fileid = self.files.inodes[fileid].body.parent
        return fileid == above


def is_bad(name):
    """No name of an entry that may be made, lost or moved."""
    return is_no_name(name) or name in (b".", b"..")


def is_no_name(name):
    return not name or b"\0" in name or b"/" in name


def permissions_of(settings, otherwise):
    return otherwise if settings.mode is None else settings.mode & 0o7777
