/* A picture of the screen in dots, 480 by 240, kept in memory as the bytes of a page come, and written as a PPM: example_dots < PAGE.
 * A sign that flashes is painted as it is seen. */
#include <stdio.h>
#include <stdlib.h>
#include <unistd.h>

#include "tamligub.h"
#include "tamligub_signs.h"

enum { ACROSS = 12, DOWN = 10, WIDTH = 40 * ACROSS, HEIGHT = 24 * DOWN, MOSAICS = 2, DOWNLOADED = 4 };
typedef struct {
    uint8_t red, green, blue;
} dot;

static tamligub_notice list[TAMLIGUB_ROOM_FOR_A_BYTE];
static dot dots[HEIGHT][WIDTH];
static uint8_t bytes[256];

/* A line of twelve dots of a sign. Mosaics have shapes of their own where they are lined; other signs get a line at their foot. */
static unsigned line_of(const tamligub_notice *it, int row)
{
    const tamligub_sign sign = it->sign;
    bool has_own = sign.set >= MOSAICS && sign.set < DOWNLOADED;
    if (sign.kind == 1 && it->lined && has_own)
        return tamligub_lined[sign.set - MOSAICS][sign.code - 0x20][row];
    if (it->lined && row == DOWN - 1)
        return 0xFFF;
    if (sign.kind == 0)
        return 0;
    if (sign.accent != 0 && sign.set == 0)
        return tamligub_accented[sign.accent & 15][sign.code - 0x20][row];
    return tamligub_signs[sign.set][sign.code - 0x20][row];
}

/* Which of the pixels of a pattern a dot shows: that in which its middle is, between two the one that is nearer to an end. */
static int nearest(int at, int count, int pixels)
{
    int middle = (2 * at + 1) * pixels, pixel = middle / (2 * count);
    return middle % (2 * count) == 0 && 2 * pixel <= pixels ? pixel - 1 : pixel;
}

static tamligub_colour colour_of_pixel(const tamligub_notice *it, int x, int y)
{
    const tamligub_pattern *pattern = &it->pattern;
    int column = nearest(x, it->w * ACROSS, pattern->w), row = nearest(y, it->h * DOWN, pattern->h);
    unsigned value = 0;
    for (unsigned plane = 0; plane < pattern->planes; plane++) {
        unsigned at = (plane * pattern->h + (unsigned)row) * pattern->w + (unsigned)column;
        value |= (unsigned)(pattern->bits[at / 64] >> at % 64 & 1) << plane;
    }
    return pattern->inks != 0 ? pattern->colours[value] : value != 0 ? it->fore : it->back;
}

/* The colour of a dot of a place. */
static tamligub_colour colour_of(const tamligub_notice *it, int x, int y)
{
    int in_sign_x = it->dx * ACROSS + x, in_sign_y = it->dy * DOWN + y, column = in_sign_x / it->w, row = in_sign_y / it->h;
    bool is_edge = column == 0 || column == ACROSS - 1 || row == 0 || row == DOWN - 1;
    if (it->boxed && is_edge && (column + row) % 2 == 0)
        return it->fore;
    if (it->conceal)
        return it->back;
    if (it->sign.kind == 2)
        return it->lined && row == DOWN - 1 ? it->fore : colour_of_pixel(it, in_sign_x, in_sign_y);
    return line_of(it, row) >> (ACROSS - 1 - column) & 1 ? it->fore : it->back;
}

static void paint(const tamligub_notice *it)
{
    for (int y = 0; y < DOWN; y++)
        for (int x = 0; x < ACROSS; x++) {
            tamligub_colour colour = colour_of(it, x, y);
            const uint8_t *behind = tamligub_behind[(x < ACROSS / 2) != (y < DOWN / 2)];
            dot painted = {(uint8_t)(17 * colour.red), (uint8_t)(17 * colour.green), (uint8_t)(17 * colour.blue)};
            if (colour.behind)
                painted = (dot){behind[0], behind[1], behind[2]};
            dots[(it->row - 1) * DOWN + y][(it->column - 1) * ACROSS + x] = painted;
        }
}

static void paint_all(uint64_t notices)
{
    for (uint64_t k = 0; k < notices; k++)
        if (list[k].kind == 1)
            paint(&list[k]);
}

int main(void)
{
    tamligub_decoder decoder = {0};
    uint64_t notices = 0, taken = 1;
    ssize_t come = 0;
    if (tamligub_open(&decoder) != 0)
        return EXIT_FAILURE;
    while (taken > 0 && (come = read(STDIN_FILENO, bytes, sizeof bytes)) > 0)
        for (uint64_t fed = 0; taken > 0 && fed < (uint64_t)come; fed += taken) {
            taken = tamligub_feed(&decoder, bytes + fed, (uint64_t)come - fed, list, TAMLIGUB_ROOM_FOR_A_BYTE, &notices);
            paint_all(notices);
        }
    if (come < 0 || taken == 0) {
        fputs("the page can't be read, or has more than 2^32 bytes\n", stderr);
        return EXIT_FAILURE;
    }
    tamligub_finish(&decoder, list, TAMLIGUB_ROOM_FOR_A_BYTE, &notices);
    paint_all(notices);
    tamligub_close(&decoder);

    printf("P6\n%d %d\n255\n", WIDTH, HEIGHT);
    if (fwrite(dots, sizeof dots[0], HEIGHT, stdout) < HEIGHT || fflush(stdout) != 0) {
        perror("example_dots");
        return EXIT_FAILURE;
    }
    return EXIT_SUCCESS;
}
