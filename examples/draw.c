/* SPDX-License-Identifier: MIT OR Apache-2.0 */
/* Opens a map and draws its cells as text, a sign for each cell, with a stamp. Then it undoes the stamp, and draws the cells alone that
 * the undo has changed. It asks for sizes, layers and cells, and for what a line did, and reads no JSON. From the top of a clone:
 *
 *   cp -r examples/maps /tmp
 *   cc -O2 -Iinclude examples/draw.c lib/libroskevad.a -o /tmp/maps/draw
 *   /tmp/maps/draw /tmp/maps/layers.tmj
 */
#include <stdio.h>
#include <stdlib.h>
#include <string.h>

#include "roskevad.h"

/* The bits of a cell that are its tile, without those that flip or turn it. */
#define TILE 0x0fffffffu

/* Says what is wrong, and ends. */
static void stop(const char *what)
{
    fprintf(stderr, "draw: %s\n", what);
    exit(1);
}

/* Room for so many things of a size, which the caller frees. */
static void *take(size_t count, size_t size)
{
    void *room = calloc(count + 1, size);
    if (!room)
        stop("no memory");
    return room;
}

/* The bytes of a file, which the caller frees. */
static char *read_file(const char *path, size_t *size)
{
    FILE *file = fopen(path, "rb");
    if (!file || fseek(file, 0, SEEK_END) != 0)
        stop("the map cannot be read");
    long end = ftell(file);
    if (end < 0)
        stop("the map cannot be read");
    char *bytes = take((size_t)end, 1);
    rewind(file);
    *size = fread(bytes, 1, (size_t)end, file);
    fclose(file);
    return bytes;
}

/* Steps a line, and ends where it is refused. */
static void step(roskevad_editor *editor, const char *line)
{
    char reply[256];
    size_t size = roskevad_editor_step(editor, line, strlen(line), reply, sizeof reply);
    if (size > sizeof reply || memcmp(reply, "ok", 2) != 0)
        stop(line);
}

static void open_map(roskevad_editor *editor, const char *path)
{
    size_t size;
    char *bytes = read_file(path, &size);
    if (roskevad_editor_open(editor, 0) != ROSKEVAD_DONE || roskevad_editor_put_file(editor, "map.tmj", 7, bytes, size) != ROSKEVAD_DONE)
        stop("no memory");
    free(bytes);
    step(editor, "open map map.tmj");
}

/* The rows of all layers, which the caller frees. A layer in a group that is hidden counts as hidden. */
static roskevad_layer_row *layers_of(roskevad_editor *editor, size_t count)
{
    roskevad_layer_row *rows = take(count, sizeof *rows);
    if (roskevad_editor_layers(editor, rows, count) != count)
        stop("no memory");
    /* A group stands before those that stand in it. */
    for (size_t at = 0; at < count; at++)
        for (size_t group = 0; group < at; group++)
            if (rows[group].id == rows[at].parent && !rows[group].is_visible)
                rows[at].is_visible = 0;
    return rows;
}

/* The sign of a tile. */
static char sign_of(uint32_t cell)
{
    static const char SIGNS[] = "0123456789abcdefghijklmnopqrstuvwxyzABCDEFGHIJKLMNOPQRSTUVWXYZ";
    return SIGNS[(cell & TILE) % (sizeof SIGNS - 1)];
}

/* Cells of a rectangle: its first column and row, and how many it has. */
typedef struct rectangle {
    size_t x, y, width, height;
} rectangle;

/* The whole map. */
static rectangle all_of(roskevad_editor *editor)
{
    roskevad_sizes sizes;
    if (roskevad_editor_sizes_of_map(editor, &sizes) != ROSKEVAD_DONE)
        stop("no map is open");
    rectangle all = {0, 0, sizes.width, sizes.height};
    return all;
}

/* What the last line has changed. */
static rectangle changed_by_last_line(roskevad_editor *editor)
{
    roskevad_told told;
    if (roskevad_editor_tell(editor, &told) != ROSKEVAD_DONE)
        stop("no editor is open");
    if (told.differs != ROSKEVAD_DIFFERS_CELLS)
        return all_of(editor);
    rectangle changed = {(size_t)told.x, (size_t)told.y, told.width, told.height};
    return changed;
}

/* Draws each layer over those before it. */
static void draw(roskevad_editor *editor, const char *what, rectangle part)
{
    roskevad_sizes sizes;
    roskevad_editor_sizes_of_map(editor, &sizes);
    size_t count = part.width * part.height;
    roskevad_layer_row *rows = layers_of(editor, sizes.layers);
    uint32_t *cells = take(count, sizeof *cells);
    char *signs = take(count, 1);
    memset(signs, '.', count);
    for (size_t at = 0; at < sizes.layers; at++) {
        if (rows[at].kind != ROSKEVAD_TILES || !rows[at].is_visible)
            continue;
        if (roskevad_editor_cells(editor, rows[at].id, part.x, part.y, part.width, part.height, cells, count) != count)
            stop("a layer without cells");
        for (size_t cell = 0; cell < count; cell++)
            if (cells[cell] != 0)
                signs[cell] = sign_of(cells[cell]);
    }
    printf("%s\n", what);
    for (size_t row = 0; row < part.height; row++)
        printf("%.*s\n", (int)part.width, signs + row * part.width);
    free(signs);
    free(cells);
    free(rows);
}

int main(int count, char **words)
{
    if (count != 2)
        stop("draw MAP");
    roskevad_editor editor = ROSKEVAD_CLOSED;
    open_map(&editor, words[1]);
    step(&editor, "stamp 1 0 0 4 7,7,7,7");
    draw(&editor, "with a stamp:", all_of(&editor));
    step(&editor, "undo");
    draw(&editor, "what the undo has changed:", changed_by_last_line(&editor));
    roskevad_editor_close(&editor);
    return 0;
}
