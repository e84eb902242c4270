/* Puts what a stored page shows: example PAGE. */
#include <stdint.h>
#include <stdio.h>
#include <stdlib.h>

#include "tamligub.h"

/* A byte more than a page may have, so that a longer one is told. */
static uint8_t page[(1 << 24) + 1], text[1 << 16];

int main(int count, char **words)
{
    if (count != 2) {
        fputs("usage: example PAGE\n", stderr);
        return EXIT_FAILURE;
    }
    FILE *file = fopen(words[1], "rb");
    if (file == NULL) {
        perror(words[1]);
        return EXIT_FAILURE;
    }
    size_t length = fread(page, 1, sizeof page, file);
    if (ferror(file)) {
        perror(words[1]);
        return EXIT_FAILURE;
    }
    fclose(file);

    uint64_t put = 0;
    uint32_t status = tamligub_run((const uint8_t *)"show", 4, TAMLIGUB_PAGE, 0, page, length, page, 0, text, sizeof text, &put);
    if (status == TAMLIGUB_TOO_LONG) {
        fprintf(stderr, "%s has more than 2^24 bytes\n", words[1]);
        return EXIT_FAILURE;
    }
    if (status != TAMLIGUB_DONE && status != TAMLIGUB_REFUSALS) {
        fprintf(stderr, "example: status %u\n", (unsigned)status);
        return EXIT_FAILURE;
    }
    if (fwrite(text, 1, (size_t)put, stdout) < put || fflush(stdout) != 0) {
        perror("example");
        return EXIT_FAILURE;
    }
    return EXIT_SUCCESS;
}
