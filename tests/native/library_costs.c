/* SPDX-License-Identifier: MIT OR Apache-2.0 */
/* Asks for one thing of a map after another, in functions of their own: what counts the instructions of each function tells what a
 * question takes.
 *
 *     library_costs TURNS MAP LAYER GREATEST      asks each TURNS times; the objects of the LAYER have the ids from 1 to GREATEST
 */
#include <stdio.h>
#include <stdlib.h>
#include <string.h>

#include "roskevad.h"

#define ROOM 65536

static roskevad_editor editor = ROSKEVAD_CLOSED;
static char room[ROOM];

/* Ends the program where an answer is none that was expected. */
static void see(size_t answer, size_t most)
{
    if (answer > most) {
        fprintf(stderr, "library_costs: a call answered %zu\n", answer);
        exit(1);
    }
}

static void open_map(const char *path)
{
    FILE *file = fopen(path, "rb");
    if (!file || fseek(file, 0, SEEK_END) != 0)
        exit(2);
    size_t size = (size_t)ftell(file);
    char *bytes = malloc(size);
    rewind(file);
    if (!bytes || fread(bytes, 1, size, file) != size)
        exit(2);
    fclose(file);
    see(roskevad_editor_open(&editor, 0), ROSKEVAD_DONE);
    see(roskevad_editor_put_file(&editor, "m.tmj", 5, bytes, size), ROSKEVAD_DONE);
    free(bytes);
    see(roskevad_editor_step(&editor, "open m m.tmj", 12, room, ROOM), ROOM);
    if (memcmp(room, "ok", 2) != 0)
        exit(2);
}

static uint32_t layer;

static size_t ask_object(uint32_t id)
{
    return roskevad_editor_object(&editor, id, room, ROOM);
}

static size_t ask_object_layer(uint32_t id)
{
    return roskevad_editor_object_layer(&editor, id);
}

static size_t ask_properties(uint32_t id)
{
    return roskevad_editor_properties(&editor, ROSKEVAD_OBJECT, id, room, ROOM);
}

static size_t ask_property(uint32_t id)
{
    return roskevad_editor_property(&editor, ROSKEVAD_OBJECT, id, "kind", 4, room, ROOM);
}

static size_t ask_layer(uint32_t id)
{
    (void)id;
    return roskevad_editor_layer(&editor, layer, room, ROOM);
}

static size_t ask_layer_property(uint32_t id)
{
    (void)id;
    return roskevad_editor_property(&editor, ROSKEVAD_LAYER, layer, "kind", 4, room, ROOM);
}

static size_t ask_map_head(uint32_t id)
{
    (void)id;
    return roskevad_editor_map_head(&editor, room, ROOM);
}

static size_t ask_tileset(uint32_t id)
{
    (void)id;
    return roskevad_editor_tileset(&editor, 1, room, ROOM);
}

static size_t ask_tilesets(uint32_t id)
{
    static uint32_t ids[16];
    (void)id;
    return roskevad_editor_tilesets(&editor, ids, 16);
}

static size_t ask_sizes_of_map(uint32_t id)
{
    roskevad_sizes sizes;
    (void)id;
    return roskevad_editor_sizes_of_map(&editor, &sizes);
}

static size_t ask_layers(uint32_t id)
{
    static roskevad_layer_row rows[16];
    (void)id;
    return roskevad_editor_layers(&editor, rows, 16);
}

static size_t ask_status_of(uint32_t id)
{
    roskevad_status status;
    (void)id;
    return roskevad_editor_status_of(&editor, 0, &status);
}

static size_t ask_document_name(uint32_t id)
{
    (void)id;
    return roskevad_editor_document_name(&editor, 0, room, ROOM);
}

static size_t ask_active(uint32_t id)
{
    (void)id;
    return roskevad_editor_active(&editor) + roskevad_editor_document_count(&editor);
}

/* These go through all objects. */
static size_t ask_object_ids(uint32_t id)
{
    (void)id;
    return roskevad_editor_object_ids(&editor, 0, ROSKEVAD_NULL, 0);
}

static size_t ask_find(uint32_t id)
{
    (void)id;
    return roskevad_editor_find(&editor, ROSKEVAD_OBJECT, "none", 4) == ROSKEVAD_NONE ? 0 : SIZE_MAX;
}

static size_t (*const CALLS[])(uint32_t) = {
    ask_object, ask_object_layer, ask_properties, ask_property, ask_layer, ask_layer_property, ask_map_head, ask_tileset, ask_tilesets,
    ask_sizes_of_map, ask_layers, ask_status_of, ask_document_name, ask_active, ask_object_ids, ask_find,
};

int main(int count, char **words)
{
    if (count != 5)
        return 2;
    open_map(words[2]);
    layer = (uint32_t)strtoul(words[3], NULL, 10);
    uint32_t turns = (uint32_t)strtoul(words[1], NULL, 10), greatest = (uint32_t)strtoul(words[4], NULL, 10);
    /* The ids come far from one another: 1237 is prime, and no divisor of how many there are. */
    for (size_t at = 0; at < sizeof CALLS / sizeof *CALLS; at++)
        for (uint32_t turn = 0; turn < turns; turn++)
            see(CALLS[at](turn * 1237 % greatest + 1), ROOM);
    roskevad_editor_close(&editor);
    return 0;
}
