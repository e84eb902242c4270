/* What decoders say, as the texts of cept_tool(1). */
#ifndef DECODER_H
#define DECODER_H

#include <stdbool.h>
#include <stddef.h>
#include <stdint.h>
#include <stdio.h>
#include <stdlib.h>
#include <string.h>

#include "../tamligub.h"

typedef struct {
    char *bytes;
    size_t length, room;
} Text;

static void *claim(void *former, size_t size)
{
    void *block = realloc(former, size != 0 ? size : 1);
    if (block == NULL) {
        fputs("no memory\n", stderr);
        exit(99);
    }
    return block;
}

static void put_bytes(Text *text, const void *bytes, size_t length)
{
    if (length == 0)
        return;
    if (text->room - text->length < length) {
        text->room = 2 * (text->room + length);
        text->bytes = claim(text->bytes, text->room);
    }
    memcpy(text->bytes + text->length, bytes, length);
    text->length += length;
}

static void put_number(Text *text, const char *form, unsigned long long number)
{
    char made[32];
    put_bytes(text, made, (size_t)snprintf(made, sizeof made, form, number));
}

static void put_words(Text *text, const char *words)
{
    put_bytes(text, words, strlen(words));
}

static void put_colour(Text *text, tamligub_colour colour)
{
    if (colour.behind)
        put_words(text, "---");
    else
        put_number(text, "%03llX", colour.red * 256ULL + colour.green * 16ULL + colour.blue);
}

static void put_pattern(Text *text, const tamligub_pattern *pattern)
{
    put_number(text, "%%%llux", pattern->w);
    put_number(text, "%llux", pattern->h);
    put_number(text, "%llu/", pattern->planes);
    for (unsigned word = 0; word < (pattern->w * pattern->h * pattern->planes + 63U) / 64; word++)
        put_number(text, "%016llX", pattern->bits[word]);
    if (pattern->inks > 0)
        put_words(text, "/");
    for (unsigned ink = 0; ink < pattern->inks; ink++)
        put_colour(text, pattern->colours[ink]);
}

static void put_shape(Text *text, const tamligub_notice *notice)
{
    if (notice->sign.kind == 0) {
        put_words(text, "-");
    } else if (notice->sign.kind == 2) {
        put_pattern(text, &notice->pattern);
    } else {
        put_bytes(text, &"PSMND"[notice->sign.set], 1);
        put_number(text, "%02llX", notice->sign.code);
        if (notice->sign.accent != 0)
            put_number(text, "+%02llX", notice->sign.accent);
    }
}

static void put_look(Text *text, const tamligub_notice *notice)
{
    put_shape(text, notice);
    put_number(text, " %llu", notice->h);
    put_number(text, "%llu", notice->w);
    put_number(text, ".%llu", notice->dy);
    put_number(text, "%llu ", notice->dx);
    put_colour(text, notice->fore);
    put_words(text, " ");
    put_colour(text, notice->back);
    put_words(text, " ");
    put_bytes(text, &"SFIR123"[notice->flash], 1);
    put_words(text, notice->conceal ? "c" : "-");
    put_words(text, notice->lined ? "l" : "-");
    put_words(text, notice->boxed ? "b\n" : "-\n");
}

/* The line of a notice as `changes` has it; with another number in the place of its own where one is given. */
static void put_line(Text *text, const tamligub_notice *notice, const unsigned long long *number)
{
    static const char *const names[] = {"UnassignedControl", "UnknownEscape", "UnknownCsi", "UnknownUnit", "BadParameter", "Interrupted",
                                        "Truncated"};
    if (notice->kind == 2) {
        put_number(text, "! %llu", notice->at);
        put_number(text, " %llu", notice->length);
        put_number(text, " %llu ", notice->reason);
        put_words(text, names[notice->reason - 1]);
        put_words(text, "\n");
        return;
    }
    put_number(text, "%llu ", number != NULL ? *number : notice->at);
    put_number(text, "%llu ", notice->row);
    put_number(text, "%llu ", notice->column);
    put_look(text, notice);
}

static void put_lines(Text *text, const tamligub_notice *list, uint64_t notices, const unsigned long long *number)
{
    for (uint64_t k = 0; k < notices; k++)
        put_line(text, &list[k], number);
}

/* Numbers that are drawn from a seed. */
static inline uint64_t drawn(uint64_t *seed, uint64_t below)
{
    *seed = *seed * 6364136223846793005ULL + 1442695040888963407ULL;
    return (*seed >> 33) % below;
}

#endif
