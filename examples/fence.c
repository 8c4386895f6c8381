/* SPDX-License-Identifier: MIT OR Apache-2.0 */
/* Opens a map, draws a fence, takes it back, draws it again and saves the map. From the top of a clone:
 *
 *   cp -r examples/maps /tmp
 *   cc -O2 -Iinclude examples/fence.c lib/libroskevad.a -o /tmp/maps/fence
 *   /tmp/maps/fence /tmp/maps/layers.tmj /tmp/maps/fenced.tmj
 */
#include <stdio.h>
#include <stdlib.h>
#include <string.h>

#include "roskevad.h"

/* Says what is wrong, and ends. */
static void stop(const char *what)
{
    fprintf(stderr, "fence: %s\n", what);
    exit(1);
}

/* Room for so many bytes, which the caller frees. */
static char *take(size_t size)
{
    char *room = malloc(size + 1);
    if (!room)
        stop("no memory");
    return room;
}

/* The bytes of a file, which the caller frees. */
static char *read_file(const char *path, size_t *size)
{
    FILE *file = fopen(path, "rb");
    if (!file || fseek(file, 0, SEEK_END) != 0)
        stop("the map cannot be read");
    long end = ftell(file);
    if (end < 0)
        stop("the map cannot be read");
    char *bytes = take((size_t)end);
    rewind(file);
    *size = fread(bytes, 1, (size_t)end, file);
    fclose(file);
    return bytes;
}

static void write_file(const char *path, const char *bytes, size_t size)
{
    FILE *file = fopen(path, "wb");
    if (!file || fwrite(bytes, 1, size, file) != size || fclose(file) != 0)
        stop("the map cannot be written");
}

/* Ends where an answer is a fault. */
static void check(size_t answer)
{
    if (ROSKEVAD_IS_FAULT(answer))
        stop(roskevad_words_of(answer));
}

/* Steps a line, shows its reply, and ends where it is refused. */
static void step(roskevad_editor *editor, const char *line)
{
    char reply[256];
    size_t size = roskevad_editor_step(editor, line, strlen(line), reply, sizeof reply);
    check(size);
    if (size > sizeof reply)
        stop("a reply of another form");
    printf("%s => %.*s\n", line, (int)size, reply);
    if (size >= 3 && memcmp(reply, "no ", 3) == 0)
        stop("a line was refused");
}

/* Writes a file of the session into a file of the folder, laid out as the map was. */
static void save(roskevad_editor *editor, const char *name, const char *path, const char *source, size_t source_size)
{
    size_t size = roskevad_editor_file(editor, name, strlen(name), NULL, 0);
    if (size == ROSKEVAD_NONE)
        stop("nothing was saved");
    char *saved = take(size);
    roskevad_editor_file(editor, name, strlen(name), saved, size);
    size_t laid_out = roskevad_editor_put_back_like(saved, size, source, source_size, NULL, 0);
    check(laid_out);
    char *bytes = take(laid_out);
    check(roskevad_editor_put_back_like(saved, size, source, source_size, bytes, laid_out));
    write_file(path, bytes, laid_out);
    free(bytes);
    free(saved);
}

int main(int count, char **words)
{
    if (count != 3)
        stop("fence MAP FENCED_MAP");
    roskevad_editor editor = ROSKEVAD_CLOSED;
    check(roskevad_editor_open(&editor, 0));
    size_t size;
    char *bytes = read_file(words[1], &size);
    check(roskevad_editor_put_file(&editor, "map.tmj", 7, bytes, size));
    step(&editor, "open map map.tmj");
    step(&editor, "begin Fence");
    step(&editor, "stamp 1 0 0 4 7,7,7,7");
    step(&editor, "stamp 1 0 2 4 7,7,7,7");
    step(&editor, "end");
    step(&editor, "undo");
    step(&editor, "redo");
    step(&editor, "save map.tmj");
    save(&editor, "map.tmj", words[2], bytes, size);
    roskevad_editor_close(&editor);
    free(bytes);
    return 0;
}
