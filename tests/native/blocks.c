/* SPDX-License-Identifier: MIT OR Apache-2.0 */
// Stands between a program that is run with LD_PRELOAD and the C library, and counts the blocks of memory that were taken
// and not given back, and their bytes.
//
// It hands the program one line of standard input at a read, and writes both numbers on standard error before each. What is
// given back is overwritten first, so that the program crashes where it is used or given back again.
#include <malloc.h>
#include <stdio.h>
#include <string.h>
#include <sys/syscall.h>
#include <unistd.h>

extern void *__libc_malloc(size_t);
extern void *__libc_realloc(void *, size_t);
extern void __libc_free(void *);

static long blocks, bytes;

void *malloc(size_t size) {
    void *block = __libc_malloc(size);
    blocks += block != NULL;
    bytes += malloc_usable_size(block);
    return block;
}

// A block that grows stays one.
void *realloc(void *kept, size_t size) {
    long before = malloc_usable_size(kept);
    void *block = __libc_realloc(kept, size);
    blocks += !kept && block;
    if (block)
        bytes += (long)malloc_usable_size(block) - before;
    return block;
}

void free(void *block) {
    if (block) {
        blocks -= 1;
        bytes -= malloc_usable_size(block);
        memset(block, 0xdd, malloc_usable_size(block));
    }
    __libc_free(block);
}

ssize_t read(int file, void *buffer, size_t size) {
    char *line = buffer, text[64];
    if (file != 0)
        return syscall(SYS_read, file, buffer, size);
    // By a call of the system, since the library's own output may take memory.
    syscall(SYS_write, 2, text, snprintf(text, sizeof text, "%ld %ld\n", blocks, bytes));
    size_t came = 0;
    while (came < size && syscall(SYS_read, 0, line + came, 1) == 1)
        if (line[came++] == '\n')
            break;
    return came;
}
