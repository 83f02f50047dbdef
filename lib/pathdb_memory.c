/* The part of libpathdb that is C: the memory that a bake takes, and the number of the version. It is not proved.
 *
 * The proved calls ask for memory by the three functions `rattle_..`, which get no argument that says whose memory it
 * is. So a call with a memory of its own names it in a variable of the thread for as long as it runs. release/lib makes
 * the three local to the library: no program sees their names. */
#include "pathdb.h"

void *malloc(size_t bytes);
void *realloc(void *block, size_t bytes);
void free(void *block);
void *memcpy(void *to, const void *from, size_t bytes);

typedef struct rattle_block {
    bool ok;
    void *at; /* never NULL */
} rattle_block;

rattle_block rattle_alloc(size_t bytes, size_t align);
rattle_block rattle_realloc(void *block, size_t kept, size_t bytes, size_t align);
void rattle_dealloc(void *block);

/* the memory of the call that this thread is in; NULL is malloc's */
static _Thread_local const pathdb_memory *memory_here;

/* where a pointer leads that stands for no block */
static _Alignas(16) unsigned char nothing[16];

static rattle_block block_of(void *at)
{
    rattle_block block = {at != NULL, at != NULL ? at : nothing};
    return block;
}

/* A block is aligned to 16, the most that is asked for, and has a byte at least. */
rattle_block rattle_alloc(size_t bytes, size_t align)
{
    const size_t size = bytes > 0 ? bytes : align;
    return block_of(memory_here != NULL ? memory_here->alloc(memory_here->user, size) : malloc(size));
}

rattle_block rattle_realloc(void *block, size_t kept, size_t bytes, size_t align)
{
    rattle_block grown;
    if (memory_here == NULL) return block_of(realloc(block, bytes > 0 ? bytes : align));
    grown = rattle_alloc(bytes, align);
    if (grown.ok) {
        memcpy(grown.at, block, kept < bytes ? kept : bytes);
        memory_here->free(memory_here->user, block);
    }
    return grown;
}

void rattle_dealloc(void *block)
{
    if (memory_here != NULL)
        memory_here->free(memory_here->user, block);
    else
        free(block);
}

/* Makes it the memory of this thread's calls, and answers whose it was. */
static const pathdb_memory *enter(const pathdb_memory *memory)
{
    const pathdb_memory *before = memory_here;
    memory_here = memory;
    return before;
}

pathdb_status pathdb_bake_text_with(const pathdb_memory *memory, const uint8_t *text, size_t length, uint32_t order,
                                    uint32_t *words, size_t room, pathdb_baked *baked)
{
    const pathdb_memory *before = enter(memory);
    const pathdb_status ended = pathdb_bake_text(text, length, order, words, room, baked);
    memory_here = before;
    return ended;
}

pathdb_status pathdb_bake_cells_with(const pathdb_memory *memory, uint32_t width, uint32_t height, const uint8_t *cells,
                                     size_t length, uint32_t order, uint32_t *words, size_t room, pathdb_baked *baked)
{
    const pathdb_memory *before = enter(memory);
    const pathdb_status ended = pathdb_bake_cells(width, height, cells, length, order, words, room, baked);
    memory_here = before;
    return ended;
}

pathdb_status pathdb_components_with(const pathdb_memory *memory, uint32_t width, uint32_t height,
                                     const uint8_t *cells, size_t length, uint32_t order, uint32_t *sizes, size_t room,
                                     pathdb_baked *baked)
{
    const pathdb_memory *before = enter(memory);
    const pathdb_status ended = pathdb_components(width, height, cells, length, order, sizes, room, baked);
    memory_here = before;
    return ended;
}

pathdb_status pathdb_part_with(const pathdb_memory *memory, uint32_t width, uint32_t height, const uint8_t *cells,
                               size_t length, uint32_t order, pathdb_sources sources, uint32_t *words, size_t room,
                               pathdb_baked *baked)
{
    const pathdb_memory *before = enter(memory);
    const pathdb_status ended = pathdb_part(width, height, cells, length, order, sources, words, room, baked);
    memory_here = before;
    return ended;
}

pathdb_status pathdb_join_with(const pathdb_memory *memory, uint32_t width, uint32_t height, const uint8_t *cells,
                               size_t length, uint32_t order, const uint32_t *parts, size_t count, uint32_t *words,
                               size_t room, pathdb_baked *baked)
{
    const pathdb_memory *before = enter(memory);
    const pathdb_status ended = pathdb_join(width, height, cells, length, order, parts, count, words, room, baked);
    memory_here = before;
    return ended;
}

uint32_t pathdb_version(void)
{
    return PATHDB_VERSION_NUMBER;
}
