/* SPDX-License-Identifier: MIT OR Apache-2.0 */
/* Measures the library in a session, which finds the files that are named.
 *
 *     library_session time TURNS SESSION      prints the nanoseconds of each turn, each with a new editor
 *     library_session peak SESSION [NAME FILE]..      prints the most bytes of the heap that were taken at a time
 *
 * It is linked with --wrap for malloc, realloc and free, which are counted here. */
#include <malloc.h>
#include <stdio.h>
#include <stdlib.h>
#include <string.h>
#include <time.h>

#include "roskevad.h"

#define ROOM 65536

typedef struct text {
    char *bytes;
    size_t size;
} text;

static text read_file(const char *path)
{
    text found;
    FILE *file = fopen(path, "rb");
    if (!file || fseek(file, 0, SEEK_END) != 0)
        exit(2);
    found.size = (size_t)ftell(file);
    rewind(file);
    found.bytes = malloc(found.size + 1);
    if (!found.bytes || fread(found.bytes, 1, found.size, file) != found.size)
        exit(2);
    fclose(file);
    return found;
}

static void open_editor(roskevad_editor *editor)
{
    if (roskevad_editor_open(editor, 0) != ROSKEVAD_DONE)
        exit(3);
}

/* Gets the last reply once more, to a buffer of its size. */
static void get_long_reply(roskevad_editor *editor, size_t size)
{
    char *reply = malloc(size);
    if (!reply || roskevad_editor_reply(editor, reply, size) != size)
        exit(3);
    free(reply);
}

static void do_lines(roskevad_editor *editor, text session)
{
    static char reply[ROOM];
    const char *line = session.bytes, *end = session.bytes + session.size;
    while (line < end) {
        const char *newline = memchr(line, '\n', (size_t)(end - line));
        if (!newline)
            newline = end;
        size_t answer = roskevad_editor_step(editor, line, (size_t)(newline - line), reply, ROOM);
        if (answer == ROSKEVAD_IS_CLOSED)
            exit(3);
        if (answer > ROOM && answer != ROSKEVAD_NONE)
            get_long_reply(editor, answer);
        line = newline + 1;
    }
}

static double now(void)
{
    struct timespec time;
    clock_gettime(CLOCK_MONOTONIC, &time);
    return 1e9 * (double)time.tv_sec + (double)time.tv_nsec;
}

static void tell_times(int turns, text session)
{
    for (int turn = 0; turn < turns; turn++) {
        roskevad_editor editor = ROSKEVAD_CLOSED;
        open_editor(&editor);
        double begin = now();
        do_lines(&editor, session);
        printf("%.0f\n", now() - begin);
        roskevad_editor_close(&editor);
    }
}

void *__real_malloc(size_t size);
void *__real_realloc(void *block, size_t size);
void __real_free(void *block);

static long live, peak;

/* Counts a block with its head. */
static void count(void *block, long sign)
{
    if (block)
        live += sign * (long)(malloc_usable_size(block) + sizeof(size_t));
    if (live > peak)
        peak = live;
}

void *__wrap_malloc(size_t size)
{
    void *block = __real_malloc(size);
    count(block, 1);
    return block;
}

/* A block that grows counts once, also where it is moved. */
void *__wrap_realloc(void *block, size_t size)
{
    count(block, -1);
    void *found = __real_realloc(block, size);
    count(found ? found : block, 1);
    return found;
}

void __wrap_free(void *block)
{
    count(block, -1);
    __real_free(block);
}

static void tell_peak(text session, int files_count, char **files)
{
    roskevad_editor editor = ROSKEVAD_CLOSED;
    long before = live;
    open_editor(&editor);
    for (int at = 0; at + 1 < files_count; at += 2) {
        text file = read_file(files[at + 1]);
        if (roskevad_editor_put_file(&editor, files[at], strlen(files[at]), file.bytes, file.size) != ROSKEVAD_DONE)
            exit(3);
        free(file.bytes);
    }
    peak = live;
    do_lines(&editor, session);
    printf("%ld\n", peak - before);
    roskevad_editor_close(&editor);
}

int main(int words_count, char **words)
{
    if (words_count == 4 && strcmp(words[1], "time") == 0)
        tell_times(atoi(words[2]), read_file(words[3]));
    else if (words_count >= 3 && strcmp(words[1], "peak") == 0)
        tell_peak(read_file(words[2]), words_count - 3, words + 3);
    else
        return 2;
    return 0;
}
