/* A terminal: example_live < PAGE shows what comes over a pipe, and example_live PORT what comes from that port of this machine, to which
 * it sends what is typed, each key by itself. It paints with the colours of the terminal, 24 bits each, and puts the terminal back at the
 * end, be it the line's or by Ctrl C. */
#define _POSIX_C_SOURCE 200809L
#include <arpa/inet.h>
#include <errno.h>
#include <poll.h>
#include <signal.h>
#include <stdio.h>
#include <stdlib.h>
#include <sys/socket.h>
#include <termios.h>
#include <unistd.h>

#include "tamligub.h"

enum { ROWS = 24, COLUMNS = 40, INPUT = 0 };
static tamligub_notice list[TAMLIGUB_ROOM_FOR_A_BYTE];
static uint8_t page[TAMLIGUB_ROOM_FOR_A_PAGE], text[1 << 12], bytes[256];
static const uint8_t *signs[ROWS][COLUMNS + 1]; /* where each sign of the screen begins in its text, and the last one of a row ends */

/* Reads the signs off the text of the screen, which is UTF-8: a sign goes on with bytes 80 to BF, and with accents, which begin CC or CD. */
static void read_signs(tamligub_decoder *decoder)
{
    uint64_t length = 0, put = 0;
    if (tamligub_write(decoder, page, sizeof page, &length) == 0)
        tamligub_run((const uint8_t *)"show", 4, TAMLIGUB_PAGE, 0, page, length, page, 0, text, sizeof text - 1, &put);
    const uint8_t *at = text;
    text[put] = 0;
    for (int row = 0; row < ROWS; row++, at += *at == '\n')
        for (int column = 0; column <= COLUMNS; column++) {
            signs[row][column] = at;
            if (column < COLUMNS && *at != 0)
                while ((*++at & 0xC0) == 0x80 || *at == 0xCC || *at == 0xCD) {}
        }
}

static void put_colour(int layer, tamligub_colour colour)
{
    if (colour.behind)
        printf(";%d", layer + 1);
    else
        printf(";%d;2;%d;%d;%d", layer, 17 * colour.red, 17 * colour.green, 17 * colour.blue);
}

/* Six blocks, two across and three down, as Unicode has them. */
static void put_blocks(unsigned code)
{
    unsigned blocks = (code & 31) | (code & 64) >> 1;
    if (blocks % 21 == 0)
        fputs((const char *const[]){" ", "\u258C", "\u2590", "\u2588"}[blocks / 21], stdout);
    else
        printf("\360\237\254%c", 0x7F + blocks - (blocks > 21) - (blocks > 42));
}

/* The sign of a place: of a large letter its first place has it, of a large mosaic each. */
static void put_sign(const tamligub_notice *it)
{
    const uint8_t *const *at = &signs[it->row - 1][it->column - 1];
    bool is_sign = it->sign.kind == 1, is_letter = is_sign && it->sign.set < 2;
    if (it->sign.kind == 0 || it->conceal || (is_letter && (it->dy || it->dx)) || at[0] == at[1])
        putchar(' ');
    else if (is_sign && it->sign.set == 2 && (it->sign.code & 0x60) != 0x40)
        put_blocks(it->sign.code);
    else
        fwrite(at[0], 1, (size_t)(at[1] - at[0]), stdout);
}

static void say(tamligub_decoder *decoder, uint64_t notices)
{
    read_signs(decoder);
    for (const tamligub_notice *it = list; it < list + notices; it++)
        if (it->kind == 1) {
            printf("\033[%d;%dH\033[0%s%s", it->row, it->column, it->lined ? ";4" : "", it->flash ? ";5" : "");
            put_colour(38, it->fore);
            put_colour(48, it->back);
            putchar('m');
            put_sign(it);
        }
    fflush(stdout);
}

static int line_to(const char *port)
{
    char *rest;
    long number = strtol(port, &rest, 10);
    bool is_port = *rest == 0 && 1 <= number && number <= UINT16_MAX;
    struct sockaddr_in at = {.sin_family = AF_INET, .sin_port = htons((uint16_t)number), .sin_addr.s_addr = htonl(INADDR_LOOPBACK)};
    int line = is_port ? socket(AF_INET, SOCK_STREAM, 0) : -1;
    if (line < 0 || connect(line, (struct sockaddr *)&at, sizeof at) != 0)
        exit((fprintf(stderr, "%s is no port of this machine where a host listens; bin/btx host pages --port 2000 is one, for example_live 2000;"
                              " a page is shown by example_live < PAGE\n", port), EXIT_FAILURE));
    return line;
}

/* A signal that ends the run puts a byte here, which is seen where bytes are waited for: so no sign is painted by half. */
static int told[2];

static void leave(int number)
{
    int kept = errno;
    (void)number;
    if (write(told[1], "", 1) < 0) {}
    errno = kept;
}

static void watch_signals(void)
{
    struct sigaction action = {.sa_handler = leave, .sa_flags = SA_RESTART};
    if (pipe(told) != 0)
        exit((perror("example_live"), EXIT_FAILURE));
    for (const int *number = (const int[]){SIGINT, SIGTERM, SIGHUP, SIGQUIT, SIGPIPE, 0}; *number != 0; number++)
        sigaction(*number, &action, NULL);
}

/* Has keys come one by one and unseen, where they are read from a terminal: return as 0D, and but for Ctrl C all with Ctrl too, of which
 * Ctrl S and Ctrl \ are the 13 and 1C that begin and end a request; `kept` is how the terminal was. */
static bool takes_keys(struct termios *kept)
{
    if (tcgetattr(INPUT, kept) != 0)
        return false;
    struct termios keys = *kept;
    keys.c_lflag &= ~(tcflag_t)(ICANON | ECHO | IEXTEN);
    keys.c_iflag &= ~(tcflag_t)(ICRNL | IXON);
    keys.c_cc[VQUIT] = keys.c_cc[VSUSP] = _POSIX_VDISABLE;
    return tcsetattr(INPUT, TCSANOW, &keys) == 0;
}

/* Answers how many bytes have come, 0 at the end, less where the line is broken; what is typed until then goes over the line. */
static ssize_t take(int line)
{
    struct pollfd watched[] = {{told[0], POLLIN, 0}, {line, POLLIN, 0}, {line == INPUT ? -1 : INPUT, POLLIN, 0}};
    for (;;) {
        int ready = poll(watched, 3, -1);
        if (ready < 0 && errno != EINTR)
            return -1;
        if (ready > 0 && watched[0].revents != 0)
            return 0;
        if (ready > 0 && watched[1].revents != 0)
            return read(line, bytes, sizeof bytes);
        if (ready > 0) {
            ssize_t typed = read(INPUT, bytes, sizeof bytes);
            if (typed <= 0 || send(line, bytes, (size_t)typed, MSG_NOSIGNAL) < typed)
                watched[2].fd = -1;
        }
    }
}

int main(int count, char **words)
{
    int line = count > 1 ? line_to(words[1]) : INPUT;
    uint64_t notices = 0, taken = 1;
    ssize_t come = 0;
    struct termios kept;
    tamligub_decoder decoder = {0};
    if (tamligub_open(&decoder) != 0)
        return EXIT_FAILURE;
    watch_signals();
    bool has_keys = line != INPUT && takes_keys(&kept);
    printf("\033[?25l\033[2J\033[0;38;2;255;255;255;48;2;0;0;0m");
    for (int row = 1; row <= ROWS; row++)
        printf("\033[%d;1H%*s", row, COLUMNS, "");
    while (taken > 0 && !ferror(stdout) && (come = take(line)) > 0)
        for (uint64_t fed = 0; taken > 0 && fed < (uint64_t)come; fed += taken) {
            taken = tamligub_feed(&decoder, bytes + fed, (uint64_t)come - fed, list, TAMLIGUB_ROOM_FOR_A_BYTE, &notices);
            say(&decoder, notices);
        }
    tamligub_finish(&decoder, list, TAMLIGUB_ROOM_FOR_A_BYTE, &notices);
    say(&decoder, notices);
    tamligub_close(&decoder);
    printf("\033[0m\033[%d;1H\033[?25h\n", ROWS);
    bool is_shown = fflush(stdout) == 0 && !ferror(stdout);
    if (!is_shown)
        perror("example_live");
    if (has_keys)
        tcsetattr(INPUT, TCSANOW, &kept);
    if (!is_shown)
        return EXIT_FAILURE;
    if (come >= 0 && taken > 0)
        return EXIT_SUCCESS;
    fputs("example_live: the line is broken, or more than 2^32 bytes came\n", stderr);
    return EXIT_FAILURE;
}
