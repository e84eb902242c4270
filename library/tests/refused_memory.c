/* Opens decoders and brings them back while each allocation in turn is refused: refused_memory. It is linked with --wrap for malloc, realloc and free. */
#include <stdio.h>
#include <string.h>

#include "../tamligub.h"

void *__real_malloc(size_t size);
void *__real_realloc(void *former, size_t size);
void __real_free(void *block);
void *__wrap_malloc(size_t size);
void *__wrap_realloc(void *former, size_t size);
void __wrap_free(void *block);

static long until_refused = -1, blocks;
static unsigned long asked;

static int is_refused(void)
{
    return until_refused >= 0 && until_refused-- == 0;
}

void *__wrap_malloc(size_t size)
{
    asked++;
    void *block = is_refused() ? NULL : __real_malloc(size);
    blocks += block != NULL;
    return block;
}

void *__wrap_realloc(void *former, size_t size)
{
    asked++;
    void *block = is_refused() ? NULL : __real_realloc(former, size);
    blocks += block != NULL && former == NULL;
    return block;
}

void __wrap_free(void *block)
{
    blocks -= block != NULL;
    __real_free(block);
}

static int fail(const char *what, unsigned long number)
{
    printf("refused_memory: %s (%lu)\n", what, number);
    return 1;
}

static tamligub_notice list[TAMLIGUB_ROOM_FOR_A_BYTE];

/* Whether a decoder that isn't open does nothing. */
static int does_nothing(tamligub_decoder *decoder)
{
    uint64_t notices = 9;
    tamligub_notice notice;
    return !decoder->is_open && tamligub_feed(decoder, (const uint8_t *)"A", 1, list, TAMLIGUB_ROOM_FOR_A_BYTE, &notices) == 0
           && notices == 0 && tamligub_finish(decoder, list, TAMLIGUB_ROOM_FOR_A_BYTE, &notices) == 1
           && tamligub_look(decoder, 1, 1, &notice) == 1;
}

/* Whether each refusal of memory is answered by 6 where a snapshot is taken, which leaves the decoder as it is, and where it is brought
 * back, after which none is open; and no block is lost. */
static int snapshots_do_without(tamligub_decoder *decoder)
{
    static uint8_t first[65536], out[65536];
    uint64_t length, put;
    long held = blocks;
    unsigned long needed;
    asked = 0;
    if (tamligub_snapshot(decoder, first, sizeof first, &length) != 0 || blocks != held || asked == 0)
        return fail("there is no snapshot", asked);
    needed = asked;
    for (unsigned long number = 0; number < needed; number++) {
        until_refused = (long)number;
        if (tamligub_snapshot(decoder, out, sizeof out, &put) != 6 || put != 0 || blocks != held)
            return fail("a snapshot without memory isn't answered by 6", number);
        until_refused = -1;
    }
    asked = 0;
    if (tamligub_restore(decoder, first, (size_t)length) != 0 || blocks != held)
        return fail("it isn't brought back", asked);
    needed = asked;
    for (unsigned long number = 0; number < needed; number++) {
        until_refused = (long)number;
        if (tamligub_restore(decoder, first, (size_t)length) != 6 || blocks != 0 || !does_nothing(decoder))
            return fail("what is brought back without memory isn't answered by 6", number);
        until_refused = -1;
    }
    if (tamligub_restore(decoder, first, (size_t)length) != 0 || blocks != held
        || tamligub_snapshot(decoder, out, sizeof out, &put) != 0 || put != length || memcmp(first, out, (size_t)length) != 0)
        return fail("another state is brought back", 0);
    return 0;
}

int main(void)
{
    unsigned long needed;
    long held;
    tamligub_decoder decoder;
    memset(&decoder, 0, sizeof decoder);
    if (!does_nothing(&decoder) || tamligub_open(&decoder) != 0 || !decoder.is_open)
        return fail("it isn't opened", 0);
    needed = asked;
    held = blocks;
    if (needed == 0)
        return fail("opening asks for no memory", 0);
    for (unsigned again = 0; again < 2; again++)
        for (unsigned long number = 0; number < needed; number++) {
            /* First over an open decoder, which is closed before memory is asked for; then where none is open. */
            until_refused = (long)number;
            if (tamligub_open(&decoder) != 6 || decoder.is_open)
                return fail("an open without memory isn't answered by 6", number);
            until_refused = -1;
            if (blocks != 0)
                return fail("a block is lost", number);
            if (!does_nothing(&decoder))
                return fail("a decoder that couldn't be opened does something", number);
            tamligub_close(&decoder);
            tamligub_close(&decoder);
            if (again == 0 && (tamligub_open(&decoder) != 0 || !decoder.is_open || blocks != held))
                return fail("it isn't opened again", number);
        }
    asked = 0;
    if (tamligub_open(&decoder) != 0 || asked != needed)
        return fail("it asks for another number of blocks", asked);
    for (unsigned k = 0; k < 100; k++) {
        uint64_t notices, taken = tamligub_feed(&decoder, (const uint8_t *)"A\x1F\x41\x41", 4, list, TAMLIGUB_ROOM_FOR_A_BYTE, &notices);
        (void)taken;
    }
    uint64_t notices;
    if (asked != needed)
        return fail("memory is taken to feed bytes", asked);
    if (snapshots_do_without(&decoder) != 0)
        return 1;
    asked = needed;
    if (tamligub_finish(&decoder, list, TAMLIGUB_ROOM_FOR_A_BYTE, &notices) != 0 || asked != needed)
        return fail("memory is taken after it was opened", asked);
    tamligub_close(&decoder);
    tamligub_close(&decoder);
    if (blocks != 0)
        return fail("a block is lost at the end", (unsigned long)blocks);
    return 0;
}
