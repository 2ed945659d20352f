/* Makes calls of the C library fail in a process that this is loaded into before it:
 *
 *     FAULT_CALL   malloc (with realloc and the like), open, read, or write
 *     FAULT_AT     which of these calls, counted from 1; 0 is none
 *     FAULT_HOW    once, or on: that call, or each from it on
 *     FAULT_ERRNO  the number of the error; or short: the call takes one byte; or none: it takes no byte
 *
 * At the first call that it changes it writes one byte to the descriptor FAULT_TOLD. */
#define _GNU_SOURCE
#include <errno.h>
#include <fcntl.h>
#include <stdarg.h>
#include <stdlib.h>
#include <string.h>
#include <sys/syscall.h>
#include <unistd.h>

#include "faults.h"

enum kind { ALLOCATES, OPENS, READS, WRITES, NOTHING };

static enum kind called = NOTHING;
static long at, seen;
static int on, error, changes_size, told;

__attribute__((constructor)) static void begin(void) {
    const char *name = getenv("FAULT_CALL"), *how = getenv("FAULT_HOW"), *number = getenv("FAULT_ERRNO");
    if (name == NULL || how == NULL || number == NULL) return;
    if (getenv("FAULT_AT") == NULL || getenv("FAULT_TOLD") == NULL) return;
    at = atol(getenv("FAULT_AT"));
    told = atoi(getenv("FAULT_TOLD"));
    on = strcmp(how, "on") == 0;
    changes_size = strcmp(number, "short") == 0 ? 1 : strcmp(number, "none") == 0 ? 2 : 0;
    error = atoi(number);
    seen = 0;
    called = strcmp(name, "malloc") == 0 ? ALLOCATES
             : strcmp(name, "open") == 0 ? OPENS
             : strcmp(name, "read") == 0 ? READS
                                         : WRITES;
}

void fault_begin(long begin_at, int each, int number) {
    at = begin_at;
    on = each;
    error = number;
    seen = 0;
    told = -1;
    called = ALLOCATES;
}

int fault_end(void) {
    called = NOTHING;
    return seen >= at;
}

/* Whether this call is one to change. */
static int is_due(enum kind kind) {
    if (kind != called || at == 0) return 0;
    seen++;
    if (seen != at && !(on && seen > at)) return 0;
    if (seen == at) syscall(SYS_write, told, "x", 1);
    if (!changes_size) errno = error;
    return 1;
}

void *__libc_malloc(size_t size);
void *__libc_calloc(size_t count, size_t size);
void *__libc_realloc(void *old, size_t size);
void *__libc_memalign(size_t align, size_t size);

void *malloc(size_t size) {
    return is_due(ALLOCATES) ? NULL : __libc_malloc(size);
}

void *calloc(size_t count, size_t size) {
    return is_due(ALLOCATES) ? NULL : __libc_calloc(count, size);
}

void *realloc(void *old, size_t size) {
    return is_due(ALLOCATES) ? NULL : __libc_realloc(old, size);
}

void *aligned_alloc(size_t align, size_t size) {
    return is_due(ALLOCATES) ? NULL : __libc_memalign(align, size);
}

int posix_memalign(void **to, size_t align, size_t size) {
    if (is_due(ALLOCATES)) return ENOMEM;
    *to = __libc_memalign(align, size);
    return *to == NULL ? ENOMEM : 0;
}

static int open_at(const char *path, int flags, int mode) {
    return is_due(OPENS) ? -1 : (int)syscall(SYS_openat, AT_FDCWD, path, flags, mode);
}

int open(const char *path, int flags, ...) {
    va_list rest;
    int mode;
    va_start(rest, flags);
    mode = va_arg(rest, int);
    va_end(rest);
    return open_at(path, flags, mode);
}

int open64(const char *path, int flags, ...) {
    va_list rest;
    int mode;
    va_start(rest, flags);
    mode = va_arg(rest, int);
    va_end(rest);
    return open_at(path, flags, mode);
}

/* How many bytes a call of this kind takes that asks for so many; -1 where it fails. */
static ssize_t most(enum kind kind, size_t count) {
    if (!is_due(kind)) return count;
    if (changes_size == 0) return -1;
    return changes_size == 1 && count > 1 ? 1 : changes_size == 1 ? (ssize_t)count : 0;
}

ssize_t read(int descriptor, void *to, size_t count) {
    ssize_t size = most(READS, count);
    return size < 0 ? -1 : syscall(SYS_read, descriptor, to, size);
}

ssize_t write(int descriptor, const void *from, size_t count) {
    ssize_t size = most(WRITES, count);
    if (size < 0) return -1;
    return size == 0 && count > 0 ? 0 : syscall(SYS_write, descriptor, from, size);
}
