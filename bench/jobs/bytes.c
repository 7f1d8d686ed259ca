/* Bytes that grow, and pools of sessions. */
#include "jobs.h"

#include <stdio.h>
#include <stdlib.h>
#include <string.h>

void fail(const char *why)
{
    fprintf(stderr, "jobs: %s\n", why);
    exit(2);
}

struct part part_of(const struct bytes *bytes)
{
    return (struct part){bytes->at, bytes->size};
}

/* Adds bytes that the caller sets, and returns where they are. */
unsigned char *more(struct bytes *into, size_t size)
{
    if (into->at == NULL || into->room - into->size < size) {
        into->room = 2 * (into->size + size) + 64;
        into->at = realloc(into->at, into->room);
        if (into->at == NULL)
            fail("no memory");
    }
    into->size += size;
    return into->at + into->size - size;
}

void put(struct bytes *into, struct part part)
{
    memcpy(more(into, part.size), part.at, part.size);
}

void put_byte(struct bytes *into, unsigned byte)
{
    *more(into, 1) = (unsigned char)byte;
}

void put_text(struct bytes *into, const char *text)
{
    put(into, (struct part){(const unsigned char *)text, strlen(text)});
}

void put_number(struct bytes *into, size_t number)
{
    unsigned char digits[32], *first = digits + sizeof digits;
    do
        *--first = (unsigned char)('0' + number % 10);
    while ((number /= 10) > 0);
    put(into, (struct part){first, (size_t)(digits + sizeof digits - first)});
}

/* Adds a number in so many bytes, the lowest first. */
void put_little_endian(struct bytes *into, uint64_t number, unsigned count)
{
    for (; count > 0; count--, number >>= 8)
        put_byte(into, number & 0xff);
}

/* A pool of at most so many blocks. */
struct pool new_pool(size_t most)
{
    struct pool pool = {{NULL, 0, 0}, calloc(most, sizeof(size_t)), 0, most, {0}, 0, 0};
    if (pool.starts == NULL)
        fail("no memory");
    return pool;
}

/* Ends a block; what is added to the bytes from then on is the next one. */
void begin_block(struct pool *pool)
{
    if (pool->blocks == pool->most)
        fail("a pool has too many blocks");
    pool->starts[pool->blocks++] = pool->bytes.size;
}

/* The offset of a block, or of the end if there is no such block. */
static size_t start_of(const struct pool *pool, size_t block)
{
    return block < pool->blocks ? pool->starts[block] : pool->bytes.size;
}

/* Puts back what the end of the last recording covers. */
static void uncover(struct pool *pool)
{
    memcpy(pool->bytes.at + pool->covered_at, pool->covered, pool->covered_size);
}

/*
 * Makes a recording: the bytes of `count` blocks from this one on, or of as many as there are, and then those of the end,
 * which cover the next block's until the next recording.
 */
struct part recording(struct pool *pool, size_t first, size_t count, struct part end)
{
    size_t start = start_of(pool, first), stop = start_of(pool, first + count);
    if (end.size > sizeof pool->covered)
        fail("an end is too long");
    /* room behind the last block */
    more(&pool->bytes, end.size);
    pool->bytes.size -= end.size;
    uncover(pool);
    memcpy(pool->covered, pool->bytes.at + stop, end.size);
    memcpy(pool->bytes.at + stop, end.at, end.size);
    pool->covered_at = stop;
    pool->covered_size = end.size;
    return (struct part){pool->bytes.at + start, stop - start + end.size};
}

void free_pool(struct pool *pool)
{
    free(pool->bytes.at);
    free(pool->starts);
}
