/* Says which places look otherwise as the bytes of a page come: example_feed < PAGE. */
#include <stdint.h>
#include <stdio.h>
#include <stdlib.h>
#include <unistd.h>

#include "tamligub.h"

static tamligub_notice list[TAMLIGUB_ROOM_FOR_A_BYTE];
static uint8_t bytes[256];

static void say(uint64_t notices)
{
    for (uint64_t k = 0; k < notices; k++)
        if (list[k].kind == 1)
            printf("row %u, column %u: sign %02X of set %u\n", list[k].row, list[k].column, list[k].sign.code, list[k].sign.set);
        else
            printf("%u bytes are refused\n", list[k].length);
}

int main(void)
{
    tamligub_decoder decoder = {0};
    uint64_t notices = 0, taken = 1;
    ssize_t come = 0;
    if (tamligub_open(&decoder) != 0)
        return EXIT_FAILURE;
    while (taken > 0 && (come = read(STDIN_FILENO, bytes, sizeof bytes)) > 0)
        for (uint64_t fed = 0; taken > 0 && fed < (uint64_t)come; fed += taken) {
            taken = tamligub_feed(&decoder, bytes + fed, (uint64_t)come - fed, list, TAMLIGUB_ROOM_FOR_A_BYTE, &notices);
            say(notices);
        }
    if (come < 0 || taken == 0) {
        fputs("the page can't be read, or has more than 2^32 bytes\n", stderr);
        return EXIT_FAILURE;
    }
    tamligub_finish(&decoder, list, TAMLIGUB_ROOM_FOR_A_BYTE, &notices);
    say(notices);
    tamligub_close(&decoder);
    if (fflush(stdout) != 0 || ferror(stdout)) {
        perror("example_feed");
        return EXIT_FAILURE;
    }
    return EXIT_SUCCESS;
}
