/* The heap of the WebAssembly module: memory for what the kit compiled, and for its host.
 *
 * SPDX-License-Identifier: MIT OR Apache-2.0
 * Copyright (c) 2026 the Roskevad authors
 *
 * It stands where the library has the kit's heap over malloc. No proof covers it, as none covers
 * malloc; tests/test_module_heap.py tries it by random calls.
 *
 * The memory behind the module's constants is a row of blocks, and at its end a head without bytes.
 * A block is a head of 8 bytes and then its own bytes, which are aligned to 16. Free blocks stand in
 * lists by their sizes; no two of them lie side by side. Memory only grows, and only here.
 *
 * Sizes and places are numbers of 32 bits, since the memory never has more than MOST_PAGES. */
typedef unsigned char u8;
typedef unsigned int u32;
typedef unsigned long long u64;

#define PAGE 65536u
#define MOST_PAGES 49152u /* 3 GiB; tools/wasm/lower.py makes it the maximum of the module's memory */
#define HEAD 8u
#define UNIT 16u /* each size is a multiple of it */
#define FREE 1u
/* Each size below 512 has a list of its own, and above it 16 lists share each power of two. */
#define LISTS 400u
#define WORDS ((LISTS + 63) / 64)
/* How many blocks of a list, where not each may be large enough, are looked at. */
#define MOST_LOOKS 16

typedef struct block {
    u32 size;   /* of the whole block; its lowest bit is set where it is free */
    u32 before; /* the size of the block before it, or 0 */
    u32 next;   /* where it is free: the places of its neighbours in its list, or 0 */
    u32 last;
} block;

/* What rattle_alloc and rattle_realloc answer: whether there is memory, and where. */
typedef struct answer {
    u64 is_there;
    u64 at;
} answer;

extern u8 __heap_base;

static u32 lists[LISTS];
static u64 used[WORDS]; /* a bit for each list that has a block */
static block *end;      /* the head without bytes, or null before the first call */
static u8 nothing;      /* what an answer without memory points to: never null */

/* ---- blocks */
static block *block_at(u32 place)
{
    return (block *)(u64)place;
}

static u32 place_of(const block *b)
{
    return (u32)(u64)b;
}

static u8 *bytes_of(block *b)
{
    return (u8 *)b + HEAD;
}

static block *block_of(u8 *bytes)
{
    return (block *)(bytes - HEAD);
}

static u32 size_of(const block *b)
{
    return b->size & ~FREE;
}

static int is_free(const block *b)
{
    return b->size & FREE;
}

static block *behind(block *b)
{
    return block_at(place_of(b) + size_of(b));
}

/* The block before it where that is free, or null. */
static block *free_before(block *b)
{
    block *found = block_at(place_of(b) - b->before);
    return b->before && is_free(found) ? found : 0;
}

/* Gives a block that is not free a size, and tells it to the one behind. */
static void set_size(block *b, u32 size)
{
    b->size = size;
    behind(b)->before = size;
}

/* The size of a block for so many bytes, at most MOST_PAGES of them. */
static u32 size_for(u64 bytes)
{
    u64 size = (bytes + HEAD + UNIT - 1) & ~(u64)(UNIT - 1);
    return (u32)size;
}

static int is_too_great(u64 bytes)
{
    return bytes > (u64)(MOST_PAGES - 1) * PAGE;
}

/* ---- lists of free blocks */
static u32 list_of(u32 size)
{
    if (size < 512)
        return size / UNIT;
    u32 power = 31 - __builtin_clz(size);
    return (power - 8) * 16 + (size >> (power - 4));
}

static void put_in(block *b)
{
    u32 list = list_of(size_of(b));
    b->size |= FREE;
    b->last = 0;
    b->next = lists[list];
    if (b->next)
        block_at(b->next)->last = place_of(b);
    lists[list] = place_of(b);
    used[list / 64] |= (u64)1 << (list % 64);
}

static void take_out(block *b)
{
    u32 list = list_of(size_of(b));
    b->size &= ~FREE;
    if (b->last)
        block_at(b->last)->next = b->next;
    else
        lists[list] = b->next;
    if (b->next)
        block_at(b->next)->last = b->last;
    if (!lists[list])
        used[list / 64] &= ~((u64)1 << (list % 64));
}

/* The first list from this one on that has a block, or LISTS. */
static u32 next_used(u32 list)
{
    if (list >= LISTS)
        return LISTS;
    u64 bits = used[list / 64] & (~(u64)0 << (list % 64));
    for (u32 word = list / 64;; bits = used[word]) {
        if (bits)
            return word * 64 + (u32)__builtin_ctzll(bits);
        if (++word == WORDS)
            return LISTS;
    }
}

/* A free block of at least this size, or null. */
static block *find(u32 size)
{
    u32 list = list_of(size);
    u32 place = lists[list];
    for (int looks = 0; place && looks < MOST_LOOKS; looks++) {
        block *b = block_at(place);
        if (size_of(b) >= size)
            return b;
        place = b->next;
    }
    list = next_used(list + 1);
    return list < LISTS ? block_at(lists[list]) : 0;
}

/* Frees a block, and joins it with its free neighbours. */
static void release(block *b)
{
    u32 size = size_of(b);
    block *other = behind(b);
    if (is_free(other)) {
        take_out(other);
        size += size_of(other);
    }
    other = free_before(b);
    if (other) {
        take_out(other);
        size += size_of(other);
        b = other;
    }
    set_size(b, size);
    put_in(b);
}

/* Leaves a block that is not free this size, and frees the rest of it. A rest of less than a 256th
 * stays with it, so that the place of a file has room for a text that is a little longer. */
static void cut(block *b, u32 size)
{
    u32 rest = size_of(b) - size;
    if (rest > size / 256) {
        set_size(b, size);
        behind(b)->size = rest;
        release(behind(b));
    }
}

/* ---- memory of the engine */
/* Makes the pages behind the last block a part of it, or a new one. */
static void take_pages(void)
{
    block *b = end;
    end = block_at((u32)(__builtin_wasm_memory_size(0) * PAGE) - HEAD);
    end->size = 0;
    b->size = place_of(end) - place_of(b);
    if (b->size)
        release(b);
}

/* Puts the head without bytes behind the module's constants, and takes the pages that are there. */
static int start(void)
{
    u64 place = (((u64)&__heap_base + UNIT - 1) & ~(u64)(UNIT - 1)) + HEAD;
    u64 pages = __builtin_wasm_memory_size(0);
    if (place + HEAD > pages * PAGE && __builtin_wasm_memory_grow(0, 1) != pages)
        return 0;
    end = block_at((u32)place);
    end->before = 0;
    take_pages();
    return 1;
}

/* Asks the engine for a 32nd of the memory that is there, and for no less than is missing. So the
 * memory is seldom moved, where an engine moves it. */
static int grow(u32 missing)
{
    u64 had = __builtin_wasm_memory_size(0);
    u64 least = ((u64)missing + PAGE - 1) / PAGE;
    u64 pages = had / 32 > least ? had / 32 : least;
    if (had + least > MOST_PAGES)
        return 0;
    if (had + pages > MOST_PAGES)
        pages = MOST_PAGES - had;
    if (__builtin_wasm_memory_grow(0, pages) != had
        && __builtin_wasm_memory_grow(0, least) != had)
        return 0;
    take_pages();
    return 1;
}

/* ---- what is called */
static u8 *get(u64 bytes)
{
    if (is_too_great(bytes) || (!end && !start()))
        return 0;
    u32 size = size_for(bytes);
    block *b = find(size);
    if (!b) {
        block *last = free_before(end);
        u32 had = last ? size_of(last) : 0;
        if (had < size && !grow(size - had))
            return 0;
        b = free_before(end);
    }
    take_out(b);
    cut(b, size);
    return bytes_of(b);
}

/* Makes a block reach over the free one behind it, which may be the last of the memory and grow. */
static int reach(block *b, u32 size)
{
    block *other = behind(b);
    u32 more = is_free(other) ? size_of(other) : 0;
    u32 had = size_of(b) + more;
    if (had < size) {
        int is_last = place_of(other) + more == place_of(end);
        if (!is_last || !grow(size - had))
            return 0;
    }
    other = behind(b);
    take_out(other);
    set_size(b, size_of(b) + size_of(other));
    return 1;
}

static answer told(u8 *bytes)
{
    return (answer){bytes != 0, (u64)(bytes ? bytes : &nothing)};
}

/* Alignments are at most 16. */
answer rattle_alloc(u64 bytes, u64 alignment)
{
    (void)alignment;
    return told(get(bytes));
}

/* The first `kept` bytes stay as they were; where there is no memory, the block does. */
answer rattle_realloc(u8 *at, u64 kept, u64 bytes, u64 alignment)
{
    (void)alignment;
    if (is_too_great(bytes))
        return told(0);
    block *b = block_of(at);
    u32 size = size_for(bytes);
    if (size_of(b) >= size || reach(b, size)) {
        cut(b, size);
        return told(at);
    }
    u8 *to = get(bytes);
    if (to) {
        __builtin_memcpy(to, at, kept);
        release(b);
    }
    return told(to);
}

void rattle_dealloc(u8 *at)
{
    release(block_of(at));
}

/* For the host: so many bytes, or null; and what it got, given back. */
__attribute__((export_name("alloc"))) u8 *host_alloc(u64 bytes)
{
    return get(bytes);
}

__attribute__((export_name("free"))) void host_free(u8 *at)
{
    release(block_of(at));
}
