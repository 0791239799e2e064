/* Stands before the C library (LD_PRELOAD), counts how often a program asks for memory and for a thread, and refuses what the environment
 * says: REFUSE_GROWTH=N the Nth growth of memory, REFUSE_START=N the Nth start of a thread, REFUSE_STARTS=1 all starts of threads. When
 * the program ends, the two counts are written into the file COUNTS. It needs no header, so that any C compiler will do. */
typedef unsigned long size_t;
void *__libc_malloc(size_t);
void *__libc_calloc(size_t, size_t);
void *__libc_realloc(void *, size_t);
void *dlsym(void *, const char *);
char *getenv(const char *);
long strtol(const char *, char **, int);
int snprintf(char *, size_t, const char *, ...);
int *__errno_location(void);
int creat(const char *, unsigned);
long write(int, const void *, size_t);

#define REFUSED_GROWTH 12 /* ENOMEM */
#define REFUSED_START 11 /* EAGAIN */
#define NEXT ((void *)-1) /* RTLD_NEXT */

static long growths, starts;
static long refused_growth, refused_start, all_starts;
static int (*create)(void *, const void *, void *(*)(void *), void *);
static void (*leave)(int);

static long number(const char *name) {
    const char *text = getenv(name);
    return text ? strtol(text, 0, 10) : 0;
}

__attribute__((constructor)) static void begin(void) {
    create = (int (*)(void *, const void *, void *(*)(void *), void *))dlsym(NEXT, "pthread_create");
    leave = (void (*)(int))dlsym(NEXT, "_exit");
    refused_growth = number("REFUSE_GROWTH");
    refused_start = number("REFUSE_START");
    all_starts = number("REFUSE_STARTS");
    growths = starts = 0;
}

__attribute__((destructor)) static void tell(void) {
    char text[64];
    const char *name = getenv("COUNTS");
    int file = name ? creat(name, 0600) : -1;
    if (file >= 0) {
        int length = snprintf(text, sizeof text, "%ld %ld\n", growths, starts);
        (void)!write(file, text, length);
    }
}

static int grows(void) {
    if (__sync_add_and_fetch(&growths, 1) != refused_growth) {
        return 1;
    }
    *__errno_location() = REFUSED_GROWTH;
    return 0;
}

void *malloc(size_t size) {
    return grows() ? __libc_malloc(size) : 0;
}

void *calloc(size_t count, size_t size) {
    return grows() ? __libc_calloc(count, size) : 0;
}

void *realloc(void *block, size_t size) {
    return grows() ? __libc_realloc(block, size) : 0;
}

int pthread_create(void *thread, const void *attributes, void *(*begin)(void *), void *argument) {
    if (__sync_add_and_fetch(&starts, 1) == refused_start || all_starts) {
        return REFUSED_START;
    }
    return create(thread, attributes, begin, argument);
}

void _exit(int status) {
    tell();
    leave(status);
    for (;;) {
    }
}
