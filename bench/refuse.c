/* Loaded in front of the C library (LD_PRELOAD), it refuses calls of a program, as bench/faults.sh asks for:

   REFUSE=alloc, open, read or write; AT=N: the Nth such call fails (no memory, no such file, a fault of the device);
   HOW=once (if it is left out), on (each later one fails, too) or short (a read or a write moves one byte alone);
   COUNTS=FILE: a file of 32 bytes, which gets the four counts of calls. */
#define _GNU_SOURCE
#include <dlfcn.h>
#include <errno.h>
#include <fcntl.h>
#include <stdarg.h>
#include <stdint.h>
#include <stdlib.h>
#include <string.h>
#include <sys/mman.h>
#include <sys/types.h>
#include <unistd.h>

enum kind { ALLOC, OPEN, READ, WRITE, KINDS };
enum how { ONCE, ON, SHORT };

static const char *const names[KINDS] = {"alloc", "open", "read", "write"};
static uint64_t own[KINDS];
static uint64_t *counts = own;
static enum kind refused = KINDS;
static uint64_t at;
static enum how how;
static int begun;

extern void *__libc_malloc(size_t);
extern void *__libc_calloc(size_t, size_t);
extern void *__libc_realloc(void *, size_t);
extern void *__libc_memalign(size_t, size_t);

__attribute__((constructor)) static void begin(void) {
    const char *kind = getenv("REFUSE"), *number = getenv("AT"), *manner = getenv("HOW"), *file = getenv("COUNTS");
    for (int it = 0; kind && it < KINDS; it++)
        if (strcmp(kind, names[it]) == 0) refused = it;
    at = number ? strtoull(number, NULL, 10) : 0;
    how = manner && strcmp(manner, "on") == 0 ? ON : manner && strcmp(manner, "short") == 0 ? SHORT : ONCE;
    if (file) {
        int shared = open(file, O_RDWR);
        void *place = mmap(NULL, sizeof own, PROT_READ | PROT_WRITE, MAP_SHARED, shared, 0);
        if (place != MAP_FAILED) counts = place;
        close(shared);
    }
    begun = 1;
}

/* Counts a call, and says whether it is the one. */
static int meets(enum kind kind) {
    if (!begun) return 0;
    uint64_t call = ++counts[kind];
    return kind == refused && (call == at || (how == ON && call > at && at > 0));
}

static void *none(void) {
    errno = ENOMEM;
    return NULL;
}

void *malloc(size_t size) { return meets(ALLOC) ? none() : __libc_malloc(size); }
void *calloc(size_t count, size_t size) { return meets(ALLOC) ? none() : __libc_calloc(count, size); }
void *realloc(void *old, size_t size) { return meets(ALLOC) ? none() : __libc_realloc(old, size); }
void *memalign(size_t align, size_t size) { return meets(ALLOC) ? none() : __libc_memalign(align, size); }
void *aligned_alloc(size_t align, size_t size) { return meets(ALLOC) ? none() : __libc_memalign(align, size); }
int posix_memalign(void **to, size_t align, size_t size) {
    void *made = meets(ALLOC) ? NULL : __libc_memalign(align, size);
    if (!made) return ENOMEM;
    *to = made;
    return 0;
}

typedef ssize_t mover(int, void *, size_t);

static ssize_t moved(enum kind kind, const char *name, int file, void *bytes, size_t size) {
    static mover *next[KINDS];
    if (!next[kind]) next[kind] = (mover *)dlsym(RTLD_NEXT, name);
    if (!meets(kind)) return next[kind](file, bytes, size);
    if (how == SHORT) return next[kind](file, bytes, size > 1 ? 1 : size);
    errno = EIO;
    return -1;
}

ssize_t read(int file, void *bytes, size_t size) { return moved(READ, "read", file, bytes, size); }
ssize_t __read(int file, void *bytes, size_t size) { return moved(READ, "read", file, bytes, size); }
ssize_t write(int file, const void *bytes, size_t size) { return moved(WRITE, "write", file, (void *)bytes, size); }
ssize_t __write(int file, const void *bytes, size_t size) { return moved(WRITE, "write", file, (void *)bytes, size); }

typedef int opener(int, const char *, int, ...);

static int opened(int folder, const char *path, int flags, mode_t mode) {
    static opener *next;
    if (!next) next = (opener *)dlsym(RTLD_NEXT, "openat");
    if (!meets(OPEN)) return next(folder, path, flags, mode);
    errno = EIO;
    return -1;
}

static mode_t mode_of(int flags, va_list rest) { return flags & (O_CREAT | O_TMPFILE) ? va_arg(rest, mode_t) : 0; }

int open(const char *path, int flags, ...) {
    va_list rest;
    va_start(rest, flags);
    mode_t mode = mode_of(flags, rest);
    va_end(rest);
    return opened(AT_FDCWD, path, flags, mode);
}

int openat(int folder, const char *path, int flags, ...) {
    va_list rest;
    va_start(rest, flags);
    mode_t mode = mode_of(flags, rest);
    va_end(rest);
    return opened(folder, path, flags, mode);
}
