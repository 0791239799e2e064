/* session PORT NAME [ROUNDS]: a client of libnfs mounts the server at that port of this machine by TCP (MOUNT version 1, RFC 1094 appendix A),
 * makes a directory of that name, calls each procedure of NFS version 2 (section 2.2) there, and checks what it is told. Nothing is left of it.
 * It prints a line for what is not as it must be, one for each round, and last `steps=N wrong=M`. */
#include "heard.h"

static sattr2 unset(void) {
    sattr2 settings;
    memset(&settings, 0xff, sizeof settings);
    return settings;
}

static sattr2 with_mode(unsigned mode) {
    sattr2 settings = unset();
    settings.mode = mode;
    return settings;
}

static diropargs2 in(const char *directory, const char *name) {
    diropargs2 place = { .name = (char *)name };
    memcpy(place.dir, directory, HANDLE);
    return place;
}

static void write_at(const char *file, unsigned offset, const char *bytes, unsigned length) {
    WRITE2args arguments = { .offset = offset, .totalcount = length, .data = { length, (char *)bytes } };
    memcpy(arguments.file, file, HANDLE);
    NFS(write, "WRITE", OK, &arguments, take_attributes);
    check(heard.attributes.size == offset + length, "WRITE", "it is as long as what was written");
}

static void read_at(const char *file, unsigned offset, const char *bytes, unsigned length) {
    READ2args arguments = { .offset = offset, .count = BLOCK };
    memcpy(arguments.file, file, HANDLE);
    NFS(read, "READ", OK, &arguments, take_contents);
    check(heard.length == length && !memcmp(heard.data, bytes, length), "READ", "it has the bytes that were written");
}

static void set(const char *file, sattr2 settings) {
    SETATTR2args arguments = { .attributes = settings };
    memcpy(arguments.fhandle, file, HANDLE);
    NFS(setattr, "SETATTR", OK, &arguments, take_attributes);
}

static void call_void(const char *what, int procedure) {
    struct rpc_pdu *call = rpc_allocate_pdu(rpc, NFS_PROGRAM, NFS_V2, procedure, hear_plain, 0, (zdrproc_t)zdr_void, 0);
    CALL(what, OK, !call || rpc_queue_pdu(rpc, call));
}

static void connect_to(int port, int program, int version) {
    rpc = rpc_init_context();
    rpc_set_auth(rpc, libnfs_authunix_create("session", 0, 0, 0, 0));
    CALL("connect, NULL", OK, rpc_connect_port_async(rpc, "127.0.0.1", port, program, version, hear_plain, 0));
}

static void mount(int port, char *root) {
    connect_to(port, MOUNT_PROGRAM, MOUNT_V1);
    CALL("MOUNT's NULL", OK, rpc_mount1_null_async(rpc, hear_plain, 0));
    CALL("MNT of what isn't exported", NO_ENTRY, rpc_mount1_mnt_async(rpc, hear, "/nowhere", take_root));
    CALL("EXPORT", OK, rpc_mount1_export_async(rpc, hear_plain, take_exports));
    check(heard.is_end && heard.length == 1 && heard.data[0] == '/', "EXPORT", "it says / alone");
    CALL("DUMP", OK, rpc_mount1_dump_async(rpc, hear_plain, take_mounts));
    check(heard.is_end, "DUMP", "it says none");
    CALL("MNT", OK, rpc_mount1_mnt_async(rpc, hear, "/", take_root));
    memcpy(root, heard.handle, HANDLE);
    CALL("UMNT", OK, rpc_mount1_umnt_async(rpc, hear_plain, "/", 0));
    CALL("UMNTALL", OK, rpc_mount1_umntall_async(rpc, hear_plain, 0));
    rpc_destroy_context(rpc);
}

static void use_file(const char *file) {
    char bytes[5 + BLOCK] = "hello";
    for (unsigned at = 5; at < sizeof bytes; at++) {
        bytes[at] = 'a' + at % 26;
    }
    write_at(file, 0, bytes, 5);
    write_at(file, 5, bytes + 5, BLOCK);
    read_at(file, 3, bytes + 3, BLOCK);
    read_at(file, BLOCK - 2, bytes + BLOCK - 2, 7);
    read_at(file, 9000, bytes, 0);
    sattr2 settings = unset();
    settings.size = 4;
    settings.mtime = (nfstime3){ 1000, 7 }; /* libnfs sends them as microseconds */
    set(file, settings);
    check(heard.attributes.size == 4 && heard.attributes.mtime.seconds == 1000 && heard.attributes.mtime.nseconds == 7, "SETATTR", "size and time are set");
    settings = with_mode(0600);
    settings.uid = 12;
    set(file, settings);
    check(heard.attributes.mode == 0100600 && heard.attributes.uid == 12 && heard.attributes.size == 4, "SETATTR", "mode and owner are set");
}

/* Makes so many files more, lists them by pages of a few names each, and removes them. */
static void use_directory(const char *directory) {
    READDIR2args page = { .count = 64 };
    char names[BLOCK] = "", name[8];
    for (int each = 10; each < 30; each++) {
        snprintf(name, sizeof name, "n%d", each);
        NFS(create, "CREATE of one of 20", OK, (&(CREATE2args){ in(directory, name), with_mode(0644) }), take_entry);
    }
    memcpy(page.dir, directory, HANDLE);
    for (int pages = 0; pages < 100 && !heard.is_end; pages++) {
        NFS(readdir, "READDIR", OK, &page, take_names);
        memcpy(page.cookie, heard.handle, sizeof page.cookie);
        strncat(names, heard.data, BLOCK - strlen(names) - 1);
    }
    check(heard.is_end && strstr(names, "file/") && strstr(names, "below/") && strstr(names, "link/"), "READDIR", "it has the names");
    for (int each = 10; each < 30; each++) {
        snprintf(name, sizeof name, "n%d", each);
        check(strstr(names, name) != 0, "READDIR", name);
        NFS(remove, "REMOVE of one of 20", OK, (&(REMOVE2args){ in(directory, name) }), 0);
    }
}

static void use_names(const char *top) {
    char file[HANDLE], below[HANDLE], symbolic[HANDLE];
    NFS(create, "CREATE", OK, (&(CREATE2args){ in(top, "file"), with_mode(0644) }), take_entry);
    check(heard.attributes.type == NF2REG && heard.attributes.mode == 0100644 && heard.attributes.nlink == 1, "CREATE", "it is a file");
    memcpy(file, heard.handle, HANDLE);
    NFS(lookup, "LOOKUP", OK, (&(LOOKUP2args){ in(top, "file") }), take_entry);
    check(!memcmp(file, heard.handle, HANDLE), "LOOKUP", "it is the file");
    NFS(lookup, "LOOKUP of a missing name", NO_ENTRY, (&(LOOKUP2args){ in(top, "nowhere") }), 0);
    use_file(file);
    NFS(mkdir, "MKDIR", OK, (&(MKDIR2args){ in(top, "below"), with_mode(0755) }), take_entry);
    check(heard.attributes.type == NF2DIR && heard.attributes.mode == 0040755, "MKDIR", "it is a directory");
    memcpy(below, heard.handle, HANDLE);
    NFS(mkdir, "MKDIR of a name that is there", EXISTS, (&(MKDIR2args){ in(top, "below"), with_mode(0755) }), 0);
    LINK2args link = { .to = in(below, "other") };
    memcpy(link.from, file, HANDLE);
    NFS(link, "LINK", OK, &link, 0);
    NFS(getattr, "GETATTR", OK, file, take_attributes);
    check(heard.attributes.nlink == 2, "GETATTR", "there are two links");
    NFS(symlink, "SYMLINK", OK, (&(SYMLINK2args){ in(top, "link"), "below/other", unset() }), 0);
    NFS(lookup, "LOOKUP of a link", OK, (&(LOOKUP2args){ in(top, "link") }), take_entry);
    check(heard.attributes.type == NF2LNK, "LOOKUP", "it is a symbolic link");
    memcpy(symbolic, heard.handle, HANDLE);
    NFS(readlink, "READLINK", OK, symbolic, take_path);
    check(heard.length == 11 && !memcmp(heard.data, "below/other", 11), "READLINK", "it is the path");
    use_directory(top);
    NFS(rmdir, "RMDIR of one that isn't empty", NOT_EMPTY, (&(RMDIR2args){ in(top, "below") }), 0);
    NFS(rmdir, "RMDIR of a file", NOT_DIRECTORY, (&(RMDIR2args){ in(top, "file") }), 0);
    NFS(rename, "RENAME", OK, (&(RENAME2args){ in(below, "other"), in(top, "moved") }), 0);
    NFS(rmdir, "RMDIR", OK, (&(RMDIR2args){ in(top, "below") }), 0);
    NFS(getattr, "GETATTR of what was removed", STALE, below, 0);
    NFS(remove, "REMOVE", OK, (&(REMOVE2args){ in(top, "file") }), 0);
    NFS(lookup, "LOOKUP of what was moved", OK, (&(LOOKUP2args){ in(top, "moved") }), take_entry);
    check(heard.attributes.nlink == 1 && !memcmp(file, heard.handle, HANDLE), "LOOKUP", "it is the file, with one link");
    NFS(remove, "REMOVE of the last link", OK, (&(REMOVE2args){ in(top, "moved") }), 0);
    NFS(getattr, "GETATTR of a file without links", STALE, file, 0);
    NFS(remove, "REMOVE of a symbolic link", OK, (&(REMOVE2args){ in(top, "link") }), 0);
    NFS(remove, "REMOVE of a missing name", NO_ENTRY, (&(REMOVE2args){ in(top, "link") }), 0);
}

/* One round in a directory of that name. */
static void use_all(const char *root, const char *name) {
    char top[HANDLE];
    CALL("NULL", OK, rpc_nfs2_null_async(rpc, hear_plain, 0));
    call_void("ROOT", ROOT);
    call_void("WRITECACHE", WRITECACHE);
    NFS(getattr, "GETATTR of the root", OK, root, take_attributes);
    check(heard.attributes.type == NF2DIR && (heard.attributes.mode & 0170000) == 0040000, "GETATTR", "the root is a directory");
    NFS(statfs, "STATFS", OK, root, take_blocks);
    check(heard.blocks.bsize > 0 && heard.blocks.blocks >= heard.blocks.bfree, "STATFS", "there are blocks");
    NFS(mkdir, "MKDIR in the root", OK, (&(MKDIR2args){ in(root, name), with_mode(0755) }), take_entry);
    memcpy(top, heard.handle, HANDLE);
    use_names(top);
    NFS(rmdir, "RMDIR in the root", OK, (&(RMDIR2args){ in(root, name) }), 0);
}

int main(int count, char **words) {
    char root[HANDLE];
    if (count < 3) {
        fail("usage", "session PORT NAME [ROUNDS]");
    }
    setvbuf(stdout, 0, _IOLBF, 0);
    mount(atoi(words[1]), root);
    connect_to(atoi(words[1]), NFS_PROGRAM, NFS_V2);
    for (int round = 1; round <= (count > 3 ? atoi(words[3]) : 1); round++) {
        use_all(root, words[2]);
        printf("round %d\n", round);
    }
    printf("steps=%d wrong=%d\n", steps, wrong);
    return wrong != 0;
}
