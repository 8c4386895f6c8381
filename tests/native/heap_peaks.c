/* SPDX-License-Identifier: MIT OR Apache-2.0 */
// Stands between a program that is run with LD_PRELOAD and the C library, and measures the live heap.
//
// For each file that is opened it writes a number on standard error: the greatest size of the live heap from that opening to
// the next one, or to the end, less its size at that opening. A block counts as long as the C library made it, which is at
// least 24 bytes; one that grows counts once.
#include <fcntl.h>
#include <malloc.h>
#include <stdarg.h>
#include <stdio.h>
#include <sys/syscall.h>
#include <unistd.h>

extern void *__libc_malloc(size_t);
extern void *__libc_realloc(void *, size_t);
extern void __libc_free(void *);

static long live, peak, begun;
static int has_opened;

static void grow(long more) {
    live += more;
    if (live > peak)
        peak = live;
}

static long size_of(void *block) {
    return block ? (long)malloc_usable_size(block) : 0;
}

// Writes by a call of the system, since the library's own output may take memory.
__attribute__((destructor)) static void tell(void) {
    char text[32];
    if (has_opened)
        syscall(SYS_write, 2, text, snprintf(text, sizeof text, "%ld\n", peak - begun));
}

void *malloc(size_t size) {
    void *block = __libc_malloc(size);
    grow(size_of(block));
    return block;
}

void *realloc(void *kept, size_t size) {
    long old = size_of(kept);
    void *block = __libc_realloc(kept, size);
    if (block)
        grow(size_of(block) - old);
    return block;
}

void free(void *block) {
    grow(-size_of(block));
    __libc_free(block);
}

int open(const char *name, int flags, ...) {
    int mode = 0;
    if (flags & O_CREAT) {
        va_list more;
        va_start(more, flags);
        mode = va_arg(more, int);
        va_end(more);
    }
    tell();
    has_opened = 1;
    begun = peak = live;
    return syscall(SYS_openat, AT_FDCWD, name, flags, mode);
}
