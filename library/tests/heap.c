/* Tries the heap of the module where it is easy to look at: heap SEED STEPS. The memory is a range of addresses of this process, of which
 * as many pages can be reached as were grown, by this host or by the heap. Blocks of all sizes are taken, made larger and smaller and
 * given back in any order, the host grows memory of its own in between, and sometimes no memory is left. Each byte of a block says whose
 * it is, so that a block which overlaps another one, or moves without its bytes, is found. */
#define _GNU_SOURCE
#include <stdint.h>
#include <stdio.h>
#include <stdlib.h>
#include <string.h>
#include <sys/mman.h>

#define MOST_PAGES 2048ULL /* 128 MiB */

static uint64_t base, pages, most_pages = MOST_PAGES;

static uint64_t grow(uint64_t more)
{
    uint64_t before = pages;
    if (more > most_pages - pages)
        return (uint64_t)-1;
    if (mprotect((void *)(base + pages * 65536), more * 65536, PROT_READ | PROT_WRITE) != 0)
        abort();
    pages += more;
    return before;
}

#define __builtin_wasm_memory_size(memory) (base / 65536 + pages)
#define __builtin_wasm_memory_grow(memory, more) ((void)grow(more))
#include "../heap.c"

#define BLOCKS_OF_A_DECODER 7

static const uint64_t of_a_decoder[BLOCKS_OF_A_DECODER] = {20160, 8272, 165312, 165312, 165312, 165312, 55000};

typedef struct {
    uint64_t at, length;
    uint8_t mark;
} Block;

#define BLOCKS 256

static Block blocks[BLOCKS];
static uint64_t in_use[LISTS], most_in_use[LISTS]; /* how many blocks of each list */
static uint64_t seed;

static uint64_t drawn(uint64_t below)
{
    seed = seed * 6364136223846793005ULL + 1442695040888963407ULL;
    return (seed >> 33) % below;
}

static void fail(const char *what, uint64_t number)
{
    printf("heap: %s (%llu)\n", what, (unsigned long long)number);
    exit(1);
}

static void holds(uint64_t at, uint64_t length, uint8_t mark, const char *what)
{
    for (uint64_t k = 0; k < length; k++)
        if (((uint8_t *)at)[k] != mark)
            fail(what, k);
}

static void count(uint64_t n, int more)
{
    uint64_t list = (uint64_t)(list_of(n != 0 ? n : 1) - waiting);
    in_use[list] += (uint64_t)more;
    if (in_use[list] > most_in_use[list])
        most_in_use[list] = in_use[list];
}

/* The sizes of a decoder's blocks, small ones, and others up to 2^18. */
static uint64_t some_length(void)
{
    switch (drawn(4)) {
    case 0:
        return of_a_decoder[drawn(BLOCKS_OF_A_DECODER)];
    case 1:
        return drawn(300);
    default:
        return drawn(1ULL << drawn(19));
    }
}

static void fill(Block *block, uint64_t at, uint64_t length)
{
    if (at % 16 != 0)
        fail("a block doesn't stand at a multiple of 16", at);
    *block = (Block){at, length, (uint8_t)drawn(256)};
    memset((void *)at, block->mark, length);
}

static void step(Block *block)
{
    if (block->at == 0) {
        uint64_t length = some_length();
        Tried tried = rattle_alloc(length, 8);
        if (tried.ok) {
            fill(block, tried.at, length);
            count(length, 1);
        }
        return;
    }
    holds(block->at, block->length, block->mark, "a block was written to");
    if (drawn(3) != 0) {
        count(head_of(block->at)->size, -1);
        rattle_dealloc(block->at);
        block->at = 0;
        return;
    }
    uint64_t length = some_length(), kept = length < block->length ? length : block->length, had = head_of(block->at)->size;
    Tried tried = rattle_realloc(block->at, kept, length, 8);
    if (!tried.ok) {
        holds(block->at, block->length, block->mark, "a block that couldn't grow was written to");
        return;
    }
    holds(tried.at, kept, block->mark, "a block lost its bytes");
    count(had, -1);
    count(head_of(tried.at)->size, 1);
    fill(block, tried.at, length);
}

/* What the heap may have taken at most: of each size as many blocks as were in use at once, and less than a page at each end. */
static uint64_t most_taken(uint64_t ends)
{
    uint64_t sum = ends * 65536;
    for (uint64_t n = 1; n <= 1 << 20; n = size_of(n) + 1)
        sum += most_in_use[list_of(n) - waiting] * (size_of(n) + sizeof(Head));
    return sum;
}

/* Random blocks; the host grows now and then, and what it wrote stays. */
static void random_blocks(uint64_t steps)
{
    uint64_t of_host[64], hosts = 0, refused = 0;
    for (uint64_t k = 0; k < steps; k++) {
        step(&blocks[drawn(BLOCKS)]);
        if (drawn(steps / 60 + 1) == 0 && hosts < 64) {
            uint64_t at = base + pages * 65536;
            if (grow(1) != (uint64_t)-1) {
                memset((void *)at, 0xA5, 65536);
                of_host[hosts++] = at;
            }
        }
    }
    for (uint64_t k = 0; k < hosts; k++)
        holds(of_host[k], 65536, 0xA5, "the host's memory was written to");
    if (pages > 16 + hosts + most_taken(hosts + 1) / 65536 + 1)
        fail("more memory was taken than the blocks in use ask for", pages);
    /* No memory is left: larger blocks are refused, and those that are there stay. */
    most_pages = pages;
    for (uint64_t k = 0; k < 1000; k++)
        refused += !rattle_alloc(1ULL << 30, 8).ok + !rattle_alloc((1ULL << 32) + 1, 8).ok;
    if (refused != 2000)
        fail("a block was given for which there is no memory", refused);
    for (uint64_t k = 0; k < steps / 4; k++)
        step(&blocks[drawn(BLOCKS)]);
    for (unsigned k = 0; k < BLOCKS; k++)
        if (blocks[k].at != 0) {
            holds(blocks[k].at, blocks[k].length, blocks[k].mark, "a block was written to");
            rattle_dealloc(blocks[k].at);
            blocks[k].at = 0;
        }
    most_pages = MOST_PAGES;
}

/* Decoders that are opened and closed in any order, with blocks of any length in between: after the first round no memory is taken. */
static void decoders(void)
{
    static uint64_t at[8 * BLOCKS_OF_A_DECODER];
    uint64_t taken = 0;
    for (unsigned round = 0; round < 1000; round++) {
        for (unsigned k = 0; k < 8 * BLOCKS_OF_A_DECODER; k++) {
            Tried tried = rattle_alloc(of_a_decoder[k % BLOCKS_OF_A_DECODER], 8);
            if (!tried.ok)
                fail("a decoder isn't opened", round);
            at[k] = tried.at;
        }
        for (unsigned left = 8 * BLOCKS_OF_A_DECODER; left > 0; left--) {
            uint64_t number = drawn(left);
            rattle_dealloc(at[number]);
            at[number] = at[left - 1];
        }
        if (round == 0)
            taken = pages;
        else if (pages != taken)
            fail("opening and closing takes more and more memory", pages - taken);
    }
}

/* The last block grows where it is, and what it gave back is taken again. Behind a page of the host's both begin at the start of a page,
 * and so their last bytes show whether enough pages were taken. */
static void last_block(void)
{
    grow(1);
    Tried first = rattle_alloc(1 << 21, 8);
    memset((void *)first.at, 1, 1 << 21);
    Tried other = rattle_alloc(1 << 22, 8);
    uint64_t taken = pages;
    if (!other.ok || other.at != first.at + (1 << 21) + sizeof(Head))
        fail("two blocks don't stand one behind the other", other.at);
    Tried grown = rattle_realloc(other.at, 1 << 22, 1 << 23, 8);
    if (grown.at != other.at)
        fail("the last block moved", grown.at);
    memset((void *)grown.at, 2, 1 << 23);
    rattle_dealloc(grown.at);
    rattle_dealloc(first.at);
    first = rattle_alloc(1 << 22, 8);
    if (pages > taken + 64)
        fail("what the last block gave back isn't taken again", pages - taken);
    rattle_dealloc(first.at);
}

/* The last block grows again and again before another one is taken behind it, and goes first: no more blocks wait than were in use. No
 * block that was given back before is taken here. */
static void grown_blocks(void)
{
    uint64_t taken = 0;
    memset(waiting, 0, sizeof waiting);
    for (unsigned round = 0; round < 100; round++) {
        Tried first = rattle_alloc(4096, 8);
        first = rattle_realloc(first.at, 4096, 1 << 20, 8);
        Tried other = rattle_alloc(4096, 8);
        if (!first.ok || !other.ok)
            fail("a block isn't given", round);
        rattle_dealloc(first.at);
        rattle_dealloc(other.at);
        if (round == 1)
            taken = pages;
        else if (round > 1 && pages != taken)
            fail("growing takes more and more memory", pages - taken);
    }
}

int main(int words, char **word)
{
    if (words != 3)
        return 2;
    seed = strtoull(word[1], NULL, 10);
    char *range = mmap(NULL, (MOST_PAGES + 1) * 65536, PROT_NONE, MAP_PRIVATE | MAP_ANONYMOUS | MAP_NORESERVE, -1, 0);
    if (range == MAP_FAILED)
        return 2;
    base = ((uint64_t)range + 65535) / 65536 * 65536;
    grow(16); /* the module's own memory, and what the host wrote before the first call */
    memset((void *)base, 0x5A, 16 * 65536);
    random_blocks(strtoull(word[2], NULL, 10));
    decoders();
    last_block();
    grown_blocks();
    holds(base, 16 * 65536, 0x5A, "the module's memory was written to");
    return 0;
}
