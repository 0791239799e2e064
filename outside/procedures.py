"""The procedures of NFS version 2 (RFC 1094 section 2.2): each reads its arguments, carries out the call, and gives its results as bytes."""
from context import (
    ACCES, FBIG, ISDIR, MOST_DATA, MOST_NAME, MOST_PATH, NOENT, NOSPC, NOTDIR, NOTEMPTY, OK, PERM, TOTAL_BLOCKS,
    Refused, Settings, handle, is_bad, is_no_name, permissions_of, refuse_if,
)  # fmt: skip
from files import BLOCK, DIRECTORY, LINK, MOST_FILE_BYTES, MOST_LINKS, READ, SEARCH, SPENT, WRITE, Directory, File, SymbolicLink
from xdr import opaque, words


def resized(data, size):
    """The first bytes, or all of them with zeros behind."""
    return data[:size] + bytes(max(0, size - len(data)))


def getattr_(reader):
    given = reader.fixed(32)
    return lambda call: call.attributes(call.inode(given)[0])


def setattr_(reader):
    """RFC 1094 section 2.2.3."""
    given, settings = reader.fixed(32), Settings.read(reader)

    def carry_out(call):
        fileid, inode = call.inode(given)
        caller = call.caller
        owned = (settings.mode, settings.gid, settings.atime, settings.mtime)
        refuse_if(any(each is not None for each in owned) and not caller.owns(inode), PERM)
        if not caller.is_superuser:
            refuse_if(settings.uid not in (None, inode.uid), PERM)
            refuse_if(settings.gid not in (None, inode.gid) and not caller.holds(settings.gid), PERM)
        if settings.size is not None:
            refuse_if(inode.kind == DIRECTORY, ISDIR)
            refuse_if(inode.kind == LINK, PERM)
            refuse_if(not (caller.owns(inode) or caller.may(inode, WRITE)), ACCES)
            refuse_if(settings.size > MOST_FILE_BYTES, FBIG)
            inode.body.data = resized(inode.body.data, settings.size)
            inode.mtime = call.time
        inode.permissions = permissions_of(settings, inode.permissions)
        inode.uid = inode.uid if settings.uid is None else settings.uid
        inode.gid = inode.gid if settings.gid is None else settings.gid
        inode.atime = call.time_of(settings.atime, inode.atime)
        inode.mtime = call.time_of(settings.mtime, inode.mtime)
        inode.ctime = call.time
        return call.attributes(fileid)

    return carry_out


def lookup(reader):
    """RFC 1094 section 2.2.5: a directory and the one above it are found, too."""
    given, name = reader.fixed(32), reader.opaque(MOST_NAME)

    def carry_out(call):
        where, directory = call.directory(given)
        refuse_if(not call.caller.may(directory, SEARCH), ACCES)
        refuse_if(is_no_name(name), PERM)
        known = {b".": where, b"..": directory.body.parent}
        refuse_if(name not in known and name not in directory.body.entries, NOENT)
        fileid = known[name] if name in known else directory.body.entries[name][1]
        return handle(fileid) + call.attributes(fileid)

    return carry_out


def readlink(reader):
    """RFC 1094 section 2.2.6."""
    given = reader.fixed(32)

    def carry_out(call):
        _, inode = call.inode(given)
        refuse_if(inode.kind != LINK, PERM)
        return opaque(inode.body.path)

    return carry_out


def read(reader):
    """RFC 1094 section 2.2.7. Who may execute a file may read it (section 3.3)."""
    given, offset, count, _ = reader.fixed(32), reader.word(), reader.word(), reader.word()

    def carry_out(call):
        fileid, inode = call.file(given)
        caller = call.caller
        refuse_if(not (caller.owns(inode) or caller.may(inode, READ) or caller.may(inode, SEARCH)), ACCES)
        data = inode.body.data[offset : offset + min(count, MOST_DATA)]
        return call.attributes(fileid) + opaque(data)

    return carry_out


def write(reader):
    """RFC 1094 section 2.2.9."""
    given, _, offset, _, data = reader.fixed(32), reader.word(), reader.word(), reader.word(), reader.opaque(MOST_DATA)

    def carry_out(call):
        fileid, inode = call.file(given)
        refuse_if(not (call.caller.owns(inode) or call.caller.may(inode, WRITE)), ACCES)
        end = offset + len(data)
        refuse_if(end > MOST_FILE_BYTES, FBIG)
        if data:
            old = inode.body.data
            inode.body.data = resized(old, offset) + data + old[end:]
        inode.touch(call.time)
        return call.attributes(fileid)

    return carry_out


def create(reader):
    """RFC 1094 section 2.2.10."""
    given, name, settings = reader.fixed(32), reader.opaque(MOST_NAME), Settings.read(reader)

    def carry_out(call):
        _, directory = call.directory(given)
        call.new_name(directory, name, settings)
        size = settings.size or 0
        refuse_if(size > MOST_FILE_BYTES, FBIG)
        call.make(directory, name, settings, permissions_of(settings, 0o644), 1, File(bytes(size)))
        return handle(call.ordinal) + call.attributes(call.ordinal)

    return carry_out


def remove(reader):
    """RFC 1094 section 2.2.11."""
    given, name = reader.fixed(32), reader.opaque(MOST_NAME)

    def carry_out(call):
        _, directory, fileid, inode = call.child(given, name)
        refuse_if(inode.kind == DIRECTORY, ISDIR)
        del directory.body.entries[name]
        directory.touch(call.time)
        call.lose_link(fileid)
        return b""

    return carry_out


def rename(reader):
    """RFC 1094 section 2.2.12."""
    given_from, name, given_to, new_name = reader.fixed(32), reader.opaque(MOST_NAME), reader.fixed(32), reader.opaque(MOST_NAME)

    def carry_out(call):
        inodes = call.files.inodes
        old_id, old = call.directory(given_from)
        new_id, new = call.directory(given_to)
        call.may_change(old)
        call.may_change(new)
        refuse_if(is_bad(name) or is_bad(new_name), PERM)
        refuse_if(name not in old.body.entries, NOENT)
        moved_id = old.body.entries[name][1]
        moved = inodes[moved_id]
        replaced_id = new.body.entries.get(new_name, (None, None))[1]
        if replaced_id == moved_id:
            return b""
        is_directory = moved.kind == DIRECTORY
        goes_elsewhere = old_id != new_id
        refuse_if(is_directory and goes_elsewhere and call.is_below(new_id, moved_id), PERM)
        if replaced_id is not None:
            replaced = inodes[replaced_id]
            refuse_if(replaced.kind == DIRECTORY and not is_directory, ISDIR)
            refuse_if(replaced.kind != DIRECTORY and is_directory, NOTDIR)
            refuse_if(replaced.kind == DIRECTORY and replaced.body.entries, NOTEMPTY)
        refuse_if(call.ordinal == SPENT, NOSPC)
        if replaced_id is None and goes_elsewhere:
            call.room(new)
            refuse_if(is_directory and new.links >= MOST_LINKS, NOSPC)
        del old.body.entries[name]
        if replaced_id is not None:
            del new.body.entries[new_name]
            if is_directory:
                del inodes[replaced_id]
                new.links -= 1
            else:
                call.lose_link(replaced_id)
        if is_directory and goes_elsewhere:
            moved.body.parent = new_id
            old.links -= 1
            new.links += 1
        moved.ctime = call.time
        old.touch(call.time)
        call.enter(new, new_name, moved_id)
        return b""

    return carry_out


def link(reader):
    """RFC 1094 section 2.2.13."""
    given, given_directory, name = reader.fixed(32), reader.fixed(32), reader.opaque(MOST_NAME)

    def carry_out(call):
        fileid, inode = call.inode(given)
        refuse_if(inode.kind == DIRECTORY, ISDIR)
        _, directory = call.directory(given_directory)
        call.new_name(directory, name)
        refuse_if(inode.links >= MOST_LINKS, NOSPC)
        inode.links += 1
        inode.ctime = call.time
        call.enter(directory, name, fileid)
        return b""

    return carry_out


def symlink(reader):
    """RFC 1094 section 2.2.14."""
    given, name, path, settings = reader.fixed(32), reader.opaque(MOST_NAME), reader.opaque(MOST_PATH), Settings.read(reader)

    def carry_out(call):
        _, directory = call.directory(given)
        call.new_name(directory, name, settings)
        call.make(directory, name, settings, 0o777, 1, SymbolicLink(path))
        return b""

    return carry_out


def mkdir(reader):
    """RFC 1094 section 2.2.15."""
    given, name, settings = reader.fixed(32), reader.opaque(MOST_NAME), Settings.read(reader)

    def carry_out(call):
        where, directory = call.directory(given)
        call.new_name(directory, name, settings)
        refuse_if(directory.links >= MOST_LINKS, NOSPC)
        call.make(directory, name, settings, permissions_of(settings, 0o755), 2, Directory(where))
        directory.links += 1
        return handle(call.ordinal) + call.attributes(call.ordinal)

    return carry_out


def rmdir(reader):
    """RFC 1094 section 2.2.16."""
    given, name = reader.fixed(32), reader.opaque(MOST_NAME)

    def carry_out(call):
        _, directory, fileid, inode = call.child(given, name)
        refuse_if(inode.kind != DIRECTORY, NOTDIR)
        refuse_if(inode.body.entries, NOTEMPTY)
        del directory.body.entries[name]
        del call.files.inodes[fileid]
        directory.links -= 1
        directory.touch(call.time)
        return b""

    return carry_out


def readdir(reader):
    """RFC 1094 section 2.2.17: what fits into the count, with the end of the list and the word that tells whether it is the last page."""
    given, cookie, count = reader.fixed(32), reader.word(), reader.word()

    def carry_out(call):
        where, directory = call.directory(given)
        refuse_if(not call.caller.may(directory, READ), ACCES)
        listed = [(1, b".", where), (2, b"..", directory.body.parent)]
        listed += [(each, name, fileid) for name, (each, fileid) in directory.body.entries.items()]
        left = [words(1, fileid) + opaque(name) + words(each) for each, name, fileid in listed if each > cookie]
        room = min(count, MOST_DATA) - 12
        page = b""
        while left and len(page) + len(left[0]) <= room:
            page += left.pop(0)
        return page + words(0, not left)

    return carry_out


def statfs(reader):
    """RFC 1094 section 2.2.18."""
    given = reader.fixed(32)

    def carry_out(call):
        call.inode(given)
        used = sum(inode.blocks for inode in call.files.inodes.values())
        free = max(0, TOTAL_BLOCKS - used)
        return words(MOST_DATA, BLOCK, TOTAL_BLOCKS, free, free)

    return carry_out


def nothing(reader):
    """NULL, ROOT and WRITECACHE (RFC 1094 sections 2.2.1, 2.2.4 and 2.2.8): no arguments, and no results."""
    return None


PROCEDURES = (
    nothing, getattr_, setattr_, nothing, lookup, readlink, read, nothing, write,
    create, remove, rename, link, symlink, mkdir, rmdir, readdir, statfs,
)  # fmt: skip


def results(procedure, arguments, call):
    """What follows the header of the reply, or a `Fault` where bytes are no arguments of the procedure."""
    carry_out = PROCEDURES[procedure](arguments)
    arguments.end()
    if carry_out is None:
        return b""
    try:
        return words(OK) + carry_out(call)
    except Refused as refused:
        return words(refused.status)
