/* Stands before the C library (LD_PRELOAD): the Nth call that changes files, as the environment's REFUSE=N says, fails with EREMOTEIO, which nothing else gives.
 * Of a write half is done before. */
#define _GNU_SOURCE
#include <dlfcn.h>
#include <errno.h>
#include <fcntl.h>
#include <stdarg.h>
#include <stdlib.h>
#include <sys/types.h>

#define NEXT(name) ((__typeof__(&name))dlsym(RTLD_NEXT, #name))
#define STANDARD 2 /* the highest descriptor of a standard stream */

int fsync(int), fdatasync(int), rename(const char *, const char *), unlink(const char *), mkdir(const char *, mode_t);
ssize_t write(int, const void *, size_t);

static long met;

static int refused(void) {
    const char *text = getenv("REFUSE");
    if (!text || ++met != strtol(text, 0, 10)) {
        return 0;
    }
    errno = EREMOTEIO;
    return 1;
}

ssize_t write(int file, const void *bytes, size_t count) {
    if (file <= STANDARD || !refused()) {
        return NEXT(write)(file, bytes, count);
    }
    NEXT(write)(file, bytes, count / 2);
    errno = EREMOTEIO;
    return -1;
}

int open(const char *path, int how, ...) {
    va_list rest;
    va_start(rest, how);
    mode_t mode = va_arg(rest, mode_t);
    va_end(rest);
    return how & O_CREAT && refused() ? -1 : NEXT(open)(path, how, mode);
}

int fsync(int file) {
    return refused() ? -1 : NEXT(fsync)(file);
}

int fdatasync(int file) {
    return refused() ? -1 : NEXT(fdatasync)(file);
}

int rename(const char *old, const char *new) {
    return refused() ? -1 : NEXT(rename)(old, new);
}

int unlink(const char *path) {
    return refused() ? -1 : NEXT(unlink)(path);
}

int mkdir(const char *path, mode_t mode) {
    return refused() ? -1 : NEXT(mkdir)(path, mode);
}
