// Refuses a program what it asks the C library for: loaded beside it by LD_PRELOAD, as tools/refuse-each does.
//
// REFUSE says what is refused: `allocation`, `thread`, `read` (of standard input), `write` (to standard output), `take`
// (a write to standard output that takes no byte) or `message` (a write to standard error). REFUSE_FROM is the number of
// the first such call that is refused, counted from 1, and REFUSE_TO that of the last; without it all that follow are.
// With REFUSE_SHORT each read and each write moves one byte at most.
// REFUSE_COUNTS names a file of 64 bytes. There stand, as numbers of eight bytes, the calls so far in the order of `enum
// kind`, and last how many were refused: also after an end by a signal.
#define _GNU_SOURCE
#include <dlfcn.h>
#include <errno.h>
#include <fcntl.h>
#include <pthread.h>
#include <stdatomic.h>
#include <stddef.h>
#include <stdlib.h>
#include <string.h>
#include <sys/mman.h>
#include <sys/syscall.h>
#include <unistd.h>

enum kind { ALLOCATION, THREAD, READ, WRITE, TAKE, MESSAGE, KINDS };
static const char *const names[KINDS] = {"allocation", "thread", "read", "write", "take", "message"};

typedef int starter(pthread_t *, const pthread_attr_t *, void *(*)(void *), void *);

static _Atomic unsigned long own_counts[KINDS + 1], *counts = own_counts;
static enum kind refused = KINDS;
static unsigned long from, to;
static int is_short, is_ready;
static starter *start;

void *__libc_malloc(size_t);
void *__libc_calloc(size_t, size_t);
void *__libc_realloc(void *, size_t);
void *__libc_memalign(size_t, size_t);

static unsigned long number(const char *name, unsigned long otherwise) {
    const char *word = getenv(name);
    return word ? strtoul(word, NULL, 10) : otherwise;
}

__attribute__((constructor)) static void begin(void) {
    const char *word = getenv("REFUSE"), *file = getenv("REFUSE_COUNTS");
    for (int kind = 0; word && kind < KINDS; kind++) {
        if (!strcmp(word, names[kind])) refused = kind;
    }
    from = number("REFUSE_FROM", 1);
    to = number("REFUSE_TO", -1ul);
    is_short = getenv("REFUSE_SHORT") != NULL;
    start = (starter *)dlsym(RTLD_NEXT, "pthread_create");
    if (file) {
        int opened = open(file, O_RDWR | O_CLOEXEC);
        void *shared = mmap(NULL, sizeof own_counts, PROT_READ | PROT_WRITE, MAP_SHARED, opened, 0);
        if (opened < 0 || shared == MAP_FAILED) _exit(125);
        counts = shared;
        close(opened);
    }
    is_ready = 1;
}

// Counts a call, and says whether it is refused.
static int is_refused(enum kind kind) {
    if (!is_ready) return 0;
    unsigned long at = ++counts[kind];
    if (kind != refused || at < from || at > to) return 0;
    counts[KINDS]++;
    return 1;
}

static int has_no_memory(void) {
    if (!is_refused(ALLOCATION)) return 0;
    errno = ENOMEM;
    return 1;
}

void *malloc(size_t size) { return has_no_memory() ? NULL : __libc_malloc(size); }

void *calloc(size_t count, size_t size) { return has_no_memory() ? NULL : __libc_calloc(count, size); }

void *realloc(void *block, size_t size) { return has_no_memory() ? NULL : __libc_realloc(block, size); }

void *aligned_alloc(size_t align, size_t size) { return has_no_memory() ? NULL : __libc_memalign(align, size); }

int posix_memalign(void **block, size_t align, size_t size) {
    if (has_no_memory()) return ENOMEM;
    *block = __libc_memalign(align, size);
    return *block ? 0 : ENOMEM;
}

int pthread_create(pthread_t *thread, const pthread_attr_t *how, void *(*run)(void *), void *with) {
    return is_refused(THREAD) ? EAGAIN : start(thread, how, run, with);
}

ssize_t read(int file, void *into, size_t size) {
    if (file == 0 && is_refused(READ)) {
        errno = EIO;
        return -1;
    }
    return syscall(SYS_read, file, into, is_short && size > 1 ? 1 : size);
}

ssize_t write(int file, const void *from_here, size_t size) {
    if (file == 1 && is_refused(TAKE)) return 0;
    if ((file == 1 && is_refused(WRITE)) || (file == 2 && is_refused(MESSAGE))) {
        errno = EIO;
        return -1;
    }
    return syscall(SYS_write, file, from_here, is_short && size > 1 ? 1 : size);
}
