/* Makes the lines of scripts on decoders whose pages have ended, and puts what these say. library/test_lines runs it.
 *
 *   lines PAGE SCRIPT..   of each page and its script, each text with its name and length in a line before it: what each line changes, as
 *                         `trace` has it, but each place once a line; the page as bytes; and how many edits can be undone and redone
 */
#include "decoder.h"

#define ROOM (16 * TAMLIGUB_ROOM_FOR_A_BYTE)

static const char *const reasons[] = {"UnknownWord", "WrongCount", "BadNumber", "BadText", "BadHex", "BadBytes"};

static void expect(bool good, const char *what)
{
    if (!good) {
        printf("lines: %s\n", what);
        exit(1);
    }
}

static Text read_file(const char *path)
{
    Text all = {0};
    uint8_t piece[4096];
    FILE *file = fopen(path, "rb");
    expect(file != NULL, path);
    for (size_t count; (count = fread(piece, 1, sizeof piece, file)) > 0;)
        put_bytes(&all, piece, count);
    fclose(file);
    return all;
}

static void say(const char *name, Text *text)
{
    printf("%s %zu\n", name, text->length);
    if (text->length > 0)
        fwrite(text->bytes, 1, text->length, stdout);
    free(text->bytes);
}

/* Feeds a whole page. Before its end, and without room, no line is made. */
static void read_page(tamligub_decoder *decoder, const Text *page, tamligub_notice *list)
{
    static const uint8_t line[] = "text A";
    uint64_t notices = 99;
    uint32_t reason = 99;
    expect(tamligub_line(decoder, line, 6, list, TAMLIGUB_ROOM_FOR_A_LINE, &notices, &reason) == 1, "a line is made where none is open");
    expect(tamligub_kept(decoder) == 0 && tamligub_undone(decoder) == 0, "something is kept where none is open");
    expect(tamligub_open(decoder) == 0, "it isn't opened");
    for (size_t from = 0; from < page->length;)
        from += tamligub_feed(decoder, (const uint8_t *)page->bytes + from, page->length - from, list, ROOM, &notices);
    expect(tamligub_line(decoder, line, 6, list, TAMLIGUB_ROOM_FOR_A_LINE, &notices, &reason) == 1 && notices == 0, "a line is made before the end");
    expect(tamligub_finish(decoder, list, ROOM, &notices) == 0, "the page doesn't end");
    expect(tamligub_line(decoder, line, 6, list, TAMLIGUB_ROOM_FOR_A_LINE - 1, &notices, &reason) == 1 && notices == 0, "a line is made without room");
    expect(tamligub_kept(decoder) == 0 && tamligub_undone(decoder) == 0, "something is kept before the first line");
}

/* Makes a line; answers whether the next may follow. The list fits it exactly, so that a sanitizer sees what is put behind. */
static bool make_line(tamligub_decoder *decoder, const char *line, size_t length, unsigned long long number, Text *text)
{
    tamligub_notice *list = claim(NULL, TAMLIGUB_ROOM_FOR_A_LINE * sizeof *list);
    uint8_t *own = claim(NULL, length);
    uint64_t notices = 99;
    uint32_t reason = 99, status;
    unsigned last = 0;
    memset(list, 0xA5, TAMLIGUB_ROOM_FOR_A_LINE * sizeof *list);
    memcpy(own, line, length);
    status = tamligub_line(decoder, own, length, list, TAMLIGUB_ROOM_FOR_A_LINE, &notices, &reason);
    expect(status == 0 || status == 2 || status == 3, "a line ends otherwise");
    expect(notices <= (status == 0 ? TAMLIGUB_ROOM_FOR_A_LINE : 0), "too much is said of a line");
    expect(status == 3 ? reason >= 1 && reason <= 6 : reason == 0, "the reason is another");
    for (uint64_t k = 0; k < notices; k++) {
        unsigned place = 40U * list[k].row + list[k].column;
        expect(list[k].kind == 1 && place > last, "places aren't told once each, in reading order");
        last = place;
    }
    put_lines(text, list, notices, &number);
    if (status == 2 && length > 0 && own[0] != '#')
        put_number(text, "%llu nothing\n", number);
    if (status == 3) {
        put_number(text, "script line %llu: ", number);
        put_number(text, "%llu ", reason);
        put_words(text, reasons[reason - 1]);
        put_words(text, "\n");
    }
    free(own);
    free(list);
    return status != 3;
}

static void make_all(const char *page_path, const char *script_path)
{
    static uint8_t out[1 << 20];
    tamligub_notice *list = claim(NULL, ROOM * sizeof *list);
    tamligub_decoder decoder = {0};
    Text page = read_file(page_path), script = read_file(script_path), text = {0}, counts = {0}, bytes = {0};
    uint64_t put = 0;
    memset(list, 0, ROOM * sizeof *list);
    read_page(&decoder, &page, list);
    for (size_t from = 0, number = 1; from < script.length; number++) {
        const char *end = memchr(script.bytes + from, '\n', script.length - from);
        size_t length = end != NULL ? (size_t)(end - script.bytes) - from : script.length - from;
        if (!make_line(&decoder, script.bytes + from, length, number, &text))
            break;
        from += length + 1;
    }
    say("lines", &text);
    expect(tamligub_write(&decoder, out, sizeof out, &put) == 0, "the page isn't written");
    put_bytes(&bytes, out, (size_t)put);
    say("write", &bytes);
    put_number(&counts, "%llu", tamligub_kept(&decoder));
    put_number(&counts, " %llu", tamligub_undone(&decoder));
    say("counts", &counts);
    tamligub_close(&decoder);
    free(list);
    free(page.bytes);
    free(script.bytes);
}

int main(int count, char **words)
{
    for (int k = 1; k + 1 < count; k += 2)
        make_all(words[k], words[k + 1]);
    return count % 2 == 1 ? 0 : 2;
}
