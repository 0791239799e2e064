/* Calls by libnfs, one after another, and what was heard of the reply to the last one. */
#include <arpa/inet.h>
#include <poll.h>
#include <stdint.h>
#include <stdio.h>
#include <stdlib.h>
#include <string.h>
#include <time.h>
#include <nfsc/libnfs-zdr.h>
#include <nfsc/libnfs.h>
#include <nfsc/libnfs-raw.h>
#include <nfsc/libnfs-raw-mount.h>
#include <nfsc/libnfs-raw-nfs.h>

/* libnfs has these too, but no header of it says so, and it has no calls of ROOT and WRITECACHE */
struct rpc_pdu;
struct rpc_pdu *rpc_allocate_pdu(struct rpc_context *, int, int, int, rpc_cb, void *, zdrproc_t, int);
int rpc_queue_pdu(struct rpc_context *, struct rpc_pdu *);

enum { HANDLE = 32, BLOCK = 8192, PATIENCE = 60 /* seconds that a reply may take */ };
enum { ROOT = 3, WRITECACHE = 7 };
enum { OK = 0, NO_ENTRY = 2, EXISTS = 17, NOT_DIRECTORY = 20, NOT_EMPTY = 66, STALE = 70 };

/* what the reply to the last call said */
static struct {
    int is_done, is_good;
    unsigned status;
    char handle[HANDLE];
    fattr2 attributes;
    char data[BLOCK];
    unsigned length;
    int is_end;
    STATFS2resok blocks;
} heard;

static struct rpc_context *rpc;
static int steps, wrong;

static void fail(const char *what, const char *why) {
    printf("%s: %s\n", what, why);
    exit(2);
}

/* Takes what follows the status 0. */
typedef void taker(void *results);

static void take_attributes(void *results) {
    heard.attributes = ((GETATTR2res *)results)->GETATTR2res_u.resok.attributes;
}

static void take_entry(void *results) {
    LOOKUP2resok *found = &((LOOKUP2res *)results)->LOOKUP2res_u.resok;
    memcpy(heard.handle, found->file, HANDLE);
    heard.attributes = found->attributes;
}

static void take_bytes(const char *bytes, unsigned length) {
    heard.length = length;
    memcpy(heard.data, bytes, length < BLOCK ? length : BLOCK);
}

static void take_path(void *results) {
    char *path = ((READLINK2res *)results)->READLINK2res_u.resok.data;
    take_bytes(path, strlen(path));
}

static void take_contents(void *results) {
    READ2resok *read = &((READ2res *)results)->READ2res_u.resok;
    heard.attributes = read->attributes;
    take_bytes(read->data.nfsdata2_val, read->data.nfsdata2_len);
}

/* the names, each with a slash behind it; it goes on behind those that were heard before */
static void take_names(void *results) {
    READDIR2resok *page = &((READDIR2res *)results)->READDIR2res_u.resok;
    heard.is_end = page->eof;
    for (entry2 *entry = page->entries; entry; entry = entry->nextentry) {
        int more = snprintf(heard.data + heard.length, BLOCK - heard.length, "%s/", entry->name);
        heard.length += more < (int)(BLOCK - heard.length) ? more : 0;
        memcpy(heard.handle, entry->cookie, sizeof entry->cookie); /* where the next page begins */
    }
}

static void take_blocks(void *results) {
    heard.blocks = ((STATFS2res *)results)->STATFS2res_u.resok;
}

static void take_root(void *results) {
    memcpy(heard.handle, ((mountres1 *)results)->mountres1_u.mountinfo.fhandle, HANDLE);
}

static void take_exports(void *results) {
    exports first = *(exports *)results;
    heard.is_end = first && !first->ex_next;
    take_bytes(first ? first->ex_dir : "", first ? strlen(first->ex_dir) : 0);
}

static void take_mounts(void *results) {
    heard.is_end = !*(mountlist *)results;
}

static void hear_reply(int status) {
    heard.is_done = 1;
    heard.is_good = status == RPC_STATUS_SUCCESS;
}

/* a reply without results, or without a status */
static void hear_plain(struct rpc_context *context, int status, void *results, void *take) {
    (void)context;
    hear_reply(status);
    if (heard.is_good && take) {
        ((taker *)take)(results);
    }
}

static void hear(struct rpc_context *context, int status, void *results, void *take) {
    (void)context;
    hear_reply(status);
    if (heard.is_good) {
        heard.status = *(uint32_t *)results;
        if (heard.status == OK && take) {
            ((taker *)take)(results);
        }
    }
}

static void await(const char *what) {
    time_t end = time(0) + PATIENCE;
    while (!heard.is_done) {
        struct pollfd waits = { .fd = rpc_get_fd(rpc), .events = rpc_which_events(rpc) };
        if (poll(&waits, 1, 100) < 0 || rpc_service(rpc, waits.revents) < 0) {
            fail(what, rpc_get_error(rpc));
        }
        if (time(0) > end) {
            fail(what, "no reply");
        }
    }
}

/* A call whose status is to be the wanted one. */
#define CALL(what, wanted, sends) (memset(&heard, 0, sizeof heard), step(what, wanted, sends))

static void check(int holds, const char *what, const char *text) {
    if (!holds) {
        wrong++;
        printf("%s: not so: %s\n", what, text);
    }
}

static void step(const char *what, unsigned wanted, int failed) {
    steps++;
    if (failed) {
        fail(what, rpc_get_error(rpc));
    }
    await(what);
    if (!heard.is_good || heard.status != wanted) {
        wrong++;
        printf("%s: %s, status %u for %u\n", what, heard.is_good ? "a reply" : "refused", heard.status, wanted);
    }
}

/* one of NFS, with the address of its arguments, and who takes what follows the status 0 */
#define NFS(procedure, what, wanted, arguments, take) CALL(what, wanted, rpc_nfs2_##procedure##_async(rpc, hear, (void *)(arguments), take))
