/* Hands the library memory that was never written: unwritten FILE. Under valgrind no answer may depend on what it holds. */
#include <stdio.h>
#include <stdlib.h>
#include <string.h>

#include "tamligub.h"

enum { ROOM = 1 << 22 };

/* Memory as malloc gives it, which is never given back, so that each is another one. */
static void *fresh(size_t size)
{
    void *memory = malloc(size);
    if (memory == NULL)
        exit(EXIT_FAILURE);
    return memory;
}

static tamligub_notice *fresh_list(void)
{
    return fresh(TAMLIGUB_ROOM_FOR_A_BYTE * sizeof(tamligub_notice));
}

/* Prints bytes, so that one that depends on unwritten memory is seen. */
static void put(const void *bytes, size_t length)
{
    fwrite(bytes, 1, length, stdout);
}

static void run(const char *word, uint32_t given, const uint8_t *page, size_t length, const char *script)
{
    uint64_t *count = fresh(sizeof *count);
    uint8_t *out = fresh(ROOM);
    uint32_t status = tamligub_run((const uint8_t *)word, strlen(word), given, 6, page, length, (const uint8_t *)script, strlen(script),
                                   out, ROOM, count);
    printf("%s: %u, %llu bytes\n", word, (unsigned)status, (unsigned long long)*count);
    put(out, (size_t)*count);
}

static void put_notices(const tamligub_notice *list, uint64_t count)
{
    for (uint64_t k = 0; k < count; k++)
        printf("%llu %u %u %u %u\n", (unsigned long long)list[k].at, list[k].kind, list[k].row, list[k].column, list[k].pattern.w);
}

static void decode(const uint8_t *page, size_t length)
{
    tamligub_decoder decoder = {0};
    uint64_t *count = fresh(sizeof *count);
    uint32_t *reason = fresh(sizeof *reason);
    uint8_t *out = fresh(ROOM);
    tamligub_decoder_state *state = fresh(sizeof *state);
    tamligub_colour_entries *colours = fresh(sizeof *colours);
    tamligub_notice *list = fresh_list();
    tamligub_open(&decoder);
    for (uint64_t fed = 0; fed < length; list = fresh_list(), count = fresh(sizeof *count)) {
        fed += tamligub_feed(&decoder, page + fed, length - fed, list, TAMLIGUB_ROOM_FOR_A_BYTE, count);
        put_notices(list, *count);
    }
    tamligub_state(&decoder, state);
    tamligub_colours(&decoder, colours);
    printf("%u %u %u\n", state->row, state->pen.invert, colours->dclut[3]);
    tamligub_snapshot(&decoder, out, ROOM, count);
    put(out, (size_t)*count);
    list = fresh_list(), count = fresh(sizeof *count);
    tamligub_flash_start(&decoder, list, TAMLIGUB_ROOM_FOR_A_PHASE, count);
    put_notices(list, *count);
    list = fresh_list(), count = fresh(sizeof *count);
    tamligub_flash_turn(&decoder, list, TAMLIGUB_ROOM_FOR_A_PHASE, count);
    put_notices(list, *count);
    list = fresh_list(), count = fresh(sizeof *count);
    tamligub_finish(&decoder, list, TAMLIGUB_ROOM_FOR_A_BYTE, count);
    put_notices(list, *count);
    list = fresh_list(), count = fresh(sizeof *count);
    printf("%u ", (unsigned)tamligub_line(&decoder, (const uint8_t *)"text A", 6, list, TAMLIGUB_ROOM_FOR_A_LINE, count, reason));
    put_notices(list, *count + *reason);
    list = fresh_list(), count = fresh(sizeof *count), out = fresh(ROOM);
    tamligub_look(&decoder, 24, 40, list);
    put_notices(list, 1);
    tamligub_write(&decoder, out, ROOM, count);
    put(out, (size_t)*count);
    tamligub_close(&decoder);
}

int main(int count, char **words)
{
    static const char *const of_a_page[] = {"changes", "check", "list", "show", "cells", "write", "seven", "eight"};
    static uint8_t page[1 << 16];
    FILE *file = count > 1 ? fopen(words[1], "rb") : NULL;
    if (file == NULL)
        return EXIT_FAILURE;
    size_t length = fread(page, 1, sizeof page, file);
    fclose(file);
    for (size_t k = 0; k < sizeof of_a_page / sizeof of_a_page[0]; k++)
        run(of_a_page[k], TAMLIGUB_PAGE, page, length, "");
    run("trace", TAMLIGUB_PAGE_AND_SCRIPT, page, length, "at 1 2\ntext XY\nundo\n");
    run("edit", TAMLIGUB_PAGE_AND_SCRIPT, page, length, "at 1 2\ntext XY\nundo\n");
    run("plot", TAMLIGUB_PAGE_AND_SCRIPT, page, length, "line 0 71 79 0\n");
    run("flash", TAMLIGUB_PAGE_AND_NUMBER, page, length, "");
    run("load", TAMLIGUB_NUMBER, page, 0, "");
    decode(page, length);
    return EXIT_SUCCESS;
}
