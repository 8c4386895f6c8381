/* SPDX-License-Identifier: MIT OR Apache-2.0 */
/* Tries the module's heap by random calls, on memory of this process in the place of the engine's.
 *
 *     heap_calls SEED CALLS PAGES
 *
 * Each block is filled with a byte of its own, and looked at before it is changed or freed. No more than PAGES are given. In
 * the end all is freed: the whole memory must be one free block. What is wrong is said on standard error. */
#include <stdio.h>
#include <stdlib.h>
#include <string.h>
#include <sys/mman.h>

#define BLOCKS 4000
/* Where the memory stands, as `--defsym=__heap_base` says: below 4 GiB, as the module's, and past the first GiB, in which the
 * system places the heap of this process. */
#define MEMORY 0x60000000ul
#define WANT(what) ((what) ? (void)0 : (fprintf(stderr, "heap_calls: call %ld, line %d: %s\n", call, __LINE__, #what), exit(1)))

static unsigned long pages, most_pages, growths;

static unsigned long memory_size(void)
{
    return MEMORY / 65536 + pages;
}

static unsigned long memory_grow(unsigned long more)
{
    unsigned long had = memory_size();
    if (pages + more > most_pages)
        return -1ul;
    pages += more;
    growths++;
    return had;
}

#define __builtin_wasm_memory_size(memory) memory_size()
#define __builtin_wasm_memory_grow(memory, more) memory_grow(more)
#include "../../crates/roskevad_c/module_heap/heap.c"

typedef struct held {
    u8 *at;
    u64 size;
    u8 mark;
} held;

static held blocks[BLOCKS];
static long call;

static u64 random_size(void)
{
    int kind = rand() % 1000;
    if (kind < 900)
        return rand() % 300;
    return kind < 998 ? rand() % 70000 : rand() % 4000000;
}

static void fill(held *it, u8 *at, u64 size)
{
    *it = (held){at, size, (u8)rand()};
    if (at)
        memset(at, it->mark, size);
}

static void look(const held *it, u64 size)
{
    for (u64 i = 0; i < size; i++)
        WANT(it->at[i] == it->mark);
}

static void take(held *it)
{
    u64 size = random_size();
    answer told = rattle_alloc(size, 16);
    WANT(told.at && told.at % 16 == 0);
    fill(it, told.is_there ? (u8 *)told.at : NULL, size);
}

static void change(held *it)
{
    u64 size = random_size(), kept = size < it->size ? size : it->size;
    answer told = rattle_realloc(it->at, kept, size, 16);
    if (!told.is_there)
        return look(it, it->size);
    WANT(told.at % 16 == 0);
    it->at = (u8 *)told.at;
    look(it, kept);
    fill(it, it->at, size);
}

static void give_back(held *it)
{
    look(it, it->size);
    rattle_dealloc(it->at);
    it->at = NULL;
}

/* The free block that the whole memory is, once all is freed. */
static void check_end(void)
{
    block *b = free_before(end);
    WANT(b && b->before == 0 && find(size_of(b)) == b);
    WANT(place_of(end) + HEAD == (u32)(memory_size() * PAGE));
    WANT(get((u64)size_of(b) - HEAD) == bytes_of(b) && get(1ul << 40) == NULL);
}

int main(int count, char **words)
{
    if (count != 4)
        return 2;
    srand(atoi(words[1]));
    most_pages = strtoul(words[3], NULL, 10);
    pages = 1;
    void *memory = mmap((void *)MEMORY, most_pages * 65536, PROT_READ | PROT_WRITE,
                        MAP_PRIVATE | MAP_ANONYMOUS | MAP_NORESERVE | MAP_FIXED_NOREPLACE, -1, 0);
    WANT(memory == (void *)MEMORY);
    for (call = 0; call < atol(words[2]); call++) {
        held *it = &blocks[rand() % BLOCKS];
        if (!it->at)
            take(it);
        else if (rand() % 2)
            change(it);
        else
            give_back(it);
    }
    for (int i = 0; i < BLOCKS; i++)
        if (blocks[i].at)
            give_back(&blocks[i]);
    check_end();
    printf("%lu pages, grown %lu times\n", pages, growths);
    return 0;
}
