/* SPDX-License-Identifier: MIT OR Apache-2.0 */
// Stands between a program that is run with LD_PRELOAD and the C library.
//
// It refuses the growth of memory (`malloc` or `realloc`) whose number, from one, is in REFUSED_GROWTH, and writes on
// standard error how many growths were asked for, how many bytes they asked for together, and how many writes there
// were. Where READ_STEP is set, no read gives more bytes than that, and no counts are written. The read of a file whose number,
// from one, is in FAULTY_READ fails with the error READ_ERROR; those of the standard streams are not counted. A file that takes
// another's place by `rename` without an `fsync` behind its last write is told of on standard error.
#include <errno.h>
#include <malloc.h>
#include <stdio.h>
#include <stdlib.h>
#include <sys/stat.h>
#include <sys/syscall.h>
#include <unistd.h>

extern void *__libc_malloc(size_t);
extern void *__libc_realloc(void *, size_t);

static unsigned long growths, bytes, writes, refused, step, reads, faulty_read, read_error;

static unsigned long number_in(const char *name) {
    const char *number = getenv(name);
    return number ? strtoul(number, NULL, 10) : 0;
}

__attribute__((constructor)) static void begin(void) {
    refused = number_in("REFUSED_GROWTH");
    step = number_in("READ_STEP");
    faulty_read = number_in("FAULTY_READ");
    read_error = number_in("READ_ERROR");
    growths = bytes = writes = 0;
}

__attribute__((destructor)) static void end(void) {
    if (!step)
        dprintf(2, "growths: %lu\nbytes: %lu\nwrites: %lu\n", growths, bytes, writes);
}

static int is_refused(size_t size) {
    bytes += size;
    return ++growths == refused;
}

void *malloc(size_t size) {
    return is_refused(size) ? NULL : __libc_malloc(size);
}

// What a block has room for is no growth, as where the rest of it is given back: a refusal would be told of by nothing.
void *realloc(void *kept, size_t size) {
    return size > malloc_usable_size(kept) && is_refused(size) ? NULL : __libc_realloc(kept, size);
}

ssize_t read(int file, void *buffer, size_t size) {
    if (file > STDERR_FILENO && ++reads == faulty_read) {
        errno = (int)read_error;
        return -1;
    }
    return syscall(SYS_read, file, buffer, step && step < size ? step : size);
}

// The file that was synced last, where it was not written since.
static struct stat synced;
static int has_synced;

static int is_synced(const struct stat *file) {
    return has_synced && file->st_dev == synced.st_dev && file->st_ino == synced.st_ino;
}

ssize_t write(int file, const void *buffer, size_t size) {
    struct stat written;
    ++writes;
    if (has_synced && fstat(file, &written) == 0 && is_synced(&written))
        has_synced = 0;
    return syscall(SYS_write, file, buffer, size);
}

int fsync(int file) {
    int result = syscall(SYS_fsync, file);
    has_synced = result == 0 && fstat(file, &synced) == 0;
    return result;
}

int rename(const char *from, const char *to) {
    struct stat moved;
    if (stat(from, &moved) == 0 && !is_synced(&moved))
        dprintf(2, "%s: it takes the place of another file, and is not synced\n", from);
    return syscall(SYS_rename, from, to);
}
