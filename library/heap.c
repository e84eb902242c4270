/* The heap of the module for the web, in the place of malloc. Eight sizes of blocks lie between a power of two and the next one, and a
 * block that is given back waits in the list of its size until the next of that size is asked for. So of each size there are never more
 * blocks than were in use at once, in whatever order they come and go. The block that lies last grows where it is, unless one of the size
 * that it needs waits, and is given back where it is.
 * The heap has no memory but what it grew itself: what the host grew, before the first block or later, is the host's. What the three
 * functions must do is the contract of the kit's heap (rattle/libc/src/heap.rt). It exports nothing: an export would make a table of
 * functions. */
typedef unsigned long long u64;

/* Whether there is a block, in the first eight bytes, and where. */
typedef struct {
    u64 ok, at;
} Tried;

/* What stands before a block: its size, and while it waits the next block of its list, or 0. */
typedef struct {
    u64 size, next;
} Head;

#define PAGE 65536ULL
#define LEAST_BITS 4                           /* 16 bytes: every block stands at a multiple of that */
#define MOST_BITS 32                           /* no block is larger than 2^32 bytes */
#define LISTS (8 * (MOST_BITS - LEAST_BITS - 2))

static u64 waiting[LISTS]; /* of each size the first block that waits, or 0 */
static u64 end, limit;     /* where the next block goes, and where the heap's memory ends; both 0 before the first */
static u64 nothing;        /* where the pointer of a failed call points to */

static u64 memory_size(void)
{
    return __builtin_wasm_memory_size(0) * PAGE;
}

static Head *head_of(u64 at)
{
    return (Head *)(at - sizeof(Head));
}

/* How many of the last bits of a size don't tell sizes of blocks apart. */
static unsigned bits_of(u64 n)
{
    return 60 - (unsigned)__builtin_clzll((n - 1) | 128);
}

/* The size of the block for n bytes, 1 to 2^32. */
static u64 size_of(u64 n)
{
    return (((n - 1) >> bits_of(n)) + 1) << bits_of(n);
}

/* The list of that size. */
static u64 *list_of(u64 n)
{
    return &waiting[((n - 1) >> bits_of(n)) + 8 * (bits_of(n) - LEAST_BITS)];
}

/* Whether the heap's memory goes as far as this, grown if need be. The size is asked again after growing: lowered to 32 bits, growing
 * answers no -1. */
static int reaches(u64 top)
{
    if (top <= limit)
        return 1;
    if (limit != memory_size())
        return 0;
    __builtin_wasm_memory_grow(0, (top - limit + PAGE - 1) / PAGE);
    limit = memory_size();
    return top <= limit;
}

/* Whether there is room for a block of this size behind all others. Where the host has grown the memory the heap goes on behind that. */
static int has_room(u64 size)
{
    if (reaches(end + sizeof(Head) + size))
        return 1;
    if (limit == memory_size())
        return 0;
    end = limit = memory_size();
    return reaches(end + sizeof(Head) + size);
}

Tried rattle_alloc(u64 n, u64 align)
{
    (void)align; /* it divides 16 */
    n += n == 0;
    if (n > 1ULL << MOST_BITS)
        return (Tried){0, (u64)&nothing};
    u64 size = size_of(n), *list = list_of(n), at = *list;
    if (at != 0) {
        *list = head_of(at)->next;
        return (Tried){1, at};
    }
    if (!has_room(size))
        return (Tried){0, (u64)&nothing};
    at = end + sizeof(Head);
    end = at + size;
    head_of(at)->size = size;
    return (Tried){1, at};
}

void rattle_dealloc(u64 at)
{
    Head *head = head_of(at);
    if (at + head->size == end) {
        end = (u64)head;
        return;
    }
    head->next = *list_of(head->size);
    *list_of(head->size) = at;
}

Tried rattle_realloc(u64 at, u64 kept, u64 n, u64 align)
{
    Head *head = head_of(at);
    if (n <= head->size)
        return (Tried){1, at};
    if (at + head->size == end && n <= 1ULL << MOST_BITS && *list_of(size_of(n)) == 0 && reaches(at + size_of(n))) {
        head->size = size_of(n);
        end = at + head->size;
        return (Tried){1, at};
    }
    Tried fresh = rattle_alloc(n, align);
    if (fresh.ok) {
        __builtin_memcpy((void *)fresh.at, (void *)at, kept);
        rattle_dealloc(at);
    }
    return fresh;
}
