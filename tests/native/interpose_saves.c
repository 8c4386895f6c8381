/* SPDX-License-Identifier: MIT OR Apache-2.0 */
// Stands between a program that is run with LD_PRELOAD and the C library, and stops its saves.
//
// It counts the calls on files of the folder `maps/` and on the folder itself, from one, and the writes on standard output.
// The call whose number is in STOP_AT ends the process by SIGKILL before it is made, where STOP_BY is `kill`; a write, when
// half of its bytes are written, where it is `half`. Else STOP_BY is the number of an error, which the call gives, and is not
// made; with STOP_ALL set all later ones on files give it too. Where STOP_NAME is set, it is this name's first call that is
// stopped. It writes the names of the calls on standard error when the program ends. `statx_new`, `open_new` and `unlink` are
// of files whose names begin with a dot.
//
// With DELAY set, it waits up to so many microseconds before each call. With TELL set, it writes the length and the FNV-1a
// hash of each file that is renamed on standard error.
#define _GNU_SOURCE
#include <errno.h>
#include <fcntl.h>
#include <signal.h>
#include <stdarg.h>
#include <stdio.h>
#include <stdlib.h>
#include <string.h>
#include <sys/file.h>
#include <sys/stat.h>
#include <sys/syscall.h>
#include <unistd.h>

#define FOLDER "maps/"
#define FOLDER_ITSELF "maps"
#define OPEN_FILES 64
#define NAMES_LENGTH 65536

enum { OTHER, OUR_FILE, OUR_FOLDER };

static long calls, stop_at, error, delay;
static int stops_half, stops_all, tells;
static const char *stop_name;
static char kinds[OPEN_FILES], names[NAMES_LENGTH] = "calls:";

static long number_in(const char *name) {
    const char *number = getenv(name);
    return number ? atol(number) : 0;
}

__attribute__((constructor)) static void begin(void) {
    const char *by = getenv("STOP_BY");
    stop_at = number_in("STOP_AT");
    stop_name = getenv("STOP_NAME");
    stops_half = by && strcmp(by, "half") == 0;
    error = number_in("STOP_BY");
    stops_all = getenv("STOP_ALL") != NULL;
    delay = number_in("DELAY");
    tells = getenv("TELL") != NULL;
    srandom(getpid());
}

__attribute__((destructor)) static void end(void) {
    strcat(names, "\n");
    syscall(SYS_write, 2, names, strlen(names));
}

static int is_in_folder(const char *path) {
    return strncmp(path, FOLDER, strlen(FOLDER)) == 0 && path[strlen(FOLDER)] != 0;
}

static int is_new(const char *path) {
    return path[strlen(FOLDER)] == '.';
}

static int kind_of(int file) {
    return file >= 0 && file < OPEN_FILES ? kinds[file] : OTHER;
}

static void set_kind(int file, int kind) {
    if (file >= 0 && file < OPEN_FILES)
        kinds[file] = kind;
}

static int is_open(int file) {
    return kind_of(file) == OUR_FILE;
}

static int is_next(void) {
    return calls + 1 == stop_at;
}

// Counts a call. Whether it is to fail; where it is to end the process, it does.
static int fails(const char *name) {
    ++calls;
    if (delay)
        usleep(random() % delay);
    if (strlen(names) + strlen(name) + 3 < NAMES_LENGTH)
        strcat(strcat(names, " "), name);
    if (stop_name && stop_at == 0 && strcmp(stop_name, name) == 0)
        stop_at = calls;
    if (stop_at == 0 || calls < stop_at || (calls > stop_at && !stops_all))
        return 0;
    if (error == 0)
        kill(getpid(), SIGKILL);
    errno = error;
    return 1;
}

int open(const char *path, int flags, ...) {
    va_list rest;
    va_start(rest, flags);
    int mode = flags & O_CREAT ? va_arg(rest, int) : 0;
    va_end(rest);
    int kind = is_in_folder(path) ? OUR_FILE : strcmp(path, FOLDER_ITSELF) == 0 ? OUR_FOLDER : OTHER;
    if (kind && fails(kind == OUR_FOLDER ? "open_folder" : is_new(path) ? "open_new" : "open"))
        return -1;
    int file = syscall(SYS_openat, AT_FDCWD, path, flags, mode);
    set_kind(file, kind);
    return file;
}

// The folder is opened so where its names are read.
int openat(int folder, const char *path, int flags, ...) {
    va_list rest;
    va_start(rest, flags);
    int mode = flags & O_CREAT ? va_arg(rest, int) : 0;
    va_end(rest);
    if (strcmp(path, FOLDER) == 0 && fails("list"))
        return -1;
    int file = syscall(SYS_openat, folder, path, flags, mode);
    set_kind(file, OTHER);
    return file;
}

int flock(int file, int how) {
    if (is_open(file) && fails("flock"))
        return -1;
    return syscall(SYS_flock, file, how);
}

ssize_t read(int file, void *buffer, size_t size) {
    if (is_open(file) && fails("read"))
        return -1;
    return syscall(SYS_read, file, buffer, size);
}

int statx(int folder, const char *path, int flags, unsigned wanted, struct statx *found) {
    if (is_in_folder(path) && fails(is_new(path) ? "statx_new" : "statx"))
        return -1;
    if (*path == 0 && is_open(folder) && fails("fstat"))
        return -1;
    return syscall(SYS_statx, folder, path, flags, wanted, found);
}

int fchmod(int file, mode_t mode) {
    if (is_open(file) && fails("fchmod"))
        return -1;
    return syscall(SYS_fchmod, file, mode);
}

ssize_t write(int file, const void *buffer, size_t size) {
    if (is_open(file) && stops_half && is_next())
        syscall(SYS_write, file, buffer, size / 2);
    if (is_open(file) && fails("write"))
        return -1;
    if (file == STDOUT_FILENO && error == 0)
        fails("reply");
    return syscall(SYS_write, file, buffer, size);
}

int fsync(int file) {
    int kind = kind_of(file);
    if (kind && fails(kind == OUR_FOLDER ? "fsync_folder" : "fsync"))
        return -1;
    return syscall(SYS_fsync, file);
}

// Tells of a file that is renamed.
static void tell(const char *path) {
    unsigned long hash = 14695981039346656037ul;
    unsigned char bytes[4096];
    long length = 0, count;
    int file = syscall(SYS_openat, AT_FDCWD, path, O_RDONLY, 0);
    while ((count = syscall(SYS_read, file, bytes, sizeof bytes)) > 0) {
        for (long at = 0; at < count; ++at)
            hash = (hash ^ bytes[at]) * 1099511628211ul;
        length += count;
    }
    syscall(SYS_close, file);
    char line[64];
    syscall(SYS_write, 2, line, snprintf(line, sizeof line, "renamed %ld %lu\n", length, hash));
}

int rename(const char *from, const char *to) {
    if (is_in_folder(to) && fails("rename"))
        return -1;
    if (is_in_folder(to) && tells)
        tell(from);
    return syscall(SYS_rename, from, to);
}

int unlink(const char *path) {
    if (is_in_folder(path) && fails("unlink"))
        return -1;
    return syscall(SYS_unlink, path);
}

// A file that can't be closed well is closed.
int close(int file) {
    int kind = kind_of(file);
    set_kind(file, OTHER);
    int result = syscall(SYS_close, file);
    return kind && fails(kind == OUR_FOLDER ? "close_folder" : "close") ? -1 : result;
}
