/* A decoder and page editor for Bildschirmtext (videotex, CEPT profile 1): the whole program as one function, and a decoder that is fed
 * bytes as they come and then edited line by line. Link libtamligub.a, or libtamligub.so.1 as a shared library, and nothing but a C library.
 * Both are for Linux on x86-64, for processors from x86-64-v2 on; for any other machine there is the module for the web.
 *
 * A page is a stored page as bytes, as it came over the line. A script is a text of lines, each an edit of the page, such as
 * "at 1 2" or "text XY", or "undo" or "redo". A drawing is a text of lines, each a figure, such as "line 0 0 79 71"; it is handed in as
 * a script. cept_tool(1) has the words, the texts that they write, the scripts and the drawings.
 *
 * What stays the same: a program that was built with this header runs with every later version whose shared library is libtamligub.so.1,
 * without being built again. These versions keep each function, with what it takes and answers; each record, with its size and the places
 * of its fields; each number, with its meaning; each word, with the form of its text; and the rooms that suffice. They may add functions,
 * words, statuses and reasons, so that a host takes a number that it doesn't know for a fault that it doesn't know. What a page shows may
 * differ only where an earlier version was wrong about the profile. A version that keeps less is libtamligub.so.2. The functions here have
 * the symbol version TAMLIGUB_1, and the shared library exports nothing else. A snapshot may be refused by another version: then
 * tamligub_restore answers 1. */
#ifndef TAMLIGUB_H
#define TAMLIGUB_H

#include <stdbool.h>
#include <stddef.h>
#include <stdint.h>

#define TAMLIGUB_VERSION "0.1"

#ifdef __cplusplus
extern "C" {
#endif

/* ---- The program as a function ---- */

/* What is given after the word. Any other number means TAMLIGUB_NOTHING. */
enum {
    TAMLIGUB_NOTHING = 0,
    TAMLIGUB_PAGE = 1,            /* changes, check, list, show, cells, write, seven, eight */
    TAMLIGUB_PAGE_AND_SCRIPT = 2, /* trace, edit; plot, whose script is a drawing */
    TAMLIGUB_NUMBER = 3,          /* gen, load */
    TAMLIGUB_PAGE_AND_NUMBER = 4  /* flash, whose number is 0 to 600 */
};

/* How a call ends. */
enum {
    TAMLIGUB_DONE = 0,       /* the page was read to its end, and nothing in it is refused; of `seven` and `eight` whatever is */
    TAMLIGUB_REFUSALS = 1,   /* the page was read to its end, and something in it is refused; the text is whole */
    TAMLIGUB_USAGE = 2,      /* no such word, or it takes something else than is given (but for 4), or no such number; no text */
    TAMLIGUB_BAD_SCRIPT = 3, /* a line of the script can't be read; the text says which */
    TAMLIGUB_UNREAD = 4,     /* NUMBER is given for a word that takes a page alone, or PAGE_AND_NUMBER for trace, edit or plot; no text */
    TAMLIGUB_NO_ROOM = 5,    /* the text is longer than `room`, also where 3, 7 or 8 would come behind it: its front was written */
    TAMLIGUB_NO_MEMORY = 6,  /* there is no memory for a screen or a script; never of `check`, `list`, `gen`, `seven`, `eight`; no text */
    TAMLIGUB_TOO_LONG = 7,   /* the page has more than 2^24 bytes, or the script more than 2^20; the text is that of what came before */
    TAMLIGUB_NOT_SEVEN = 8   /* `eight`: the page isn't in seven bits; the text is that of what came before */
};

/* Runs the program on a word and what is given after it, and answers the status.
 *
 *   word    its bytes, without a zero at the end, such as "show", 4
 *   given   one of the numbers above
 *   number  0 to 4294967295; looked at only where a number is given
 *   page    0 to 2^24 bytes; looked at only where a page is given, as is the script, which has 0 to 2^20
 *   out     the text is written at its front, which has room for `room` bytes; what stands after the text stays
 *   put     how many bytes of text were written, at most `room`
 *
 * How much room is enough: 2904 bytes for `show`, which has 24 lines of 40 signs of three bytes at most; TAMLIGUB_ROOM_FOR_A_PAGE for
 * `write`, `edit` and `plot`; three times the page for `seven`, the page for `eight`; 140003 bytes for `gen`. Of the other words no bound
 * is told: `changes` writes 14 to 122 bytes for each byte of the pages of this project, and one byte of a page may change 960 places.
 * Where the answer is TAMLIGUB_NO_ROOM call again with twice as much room, and before that see to it that neither page nor script is too
 * long, since the text up to that may take much room.
 *
 * No pointer may be null, not even where the length is 0. `out` and `put` may overlap neither each other nor anything else that is
 * handed in; word, page and script may. What is handed in is read during the call alone, and nothing is kept between calls. Several
 * threads may call at once. `check`, `list`, `gen`, `seven` and `eight` take no memory. The other words take it by malloc, and give all of
 * it back; none is taken for the page or the text. A call needs up to 650 KB of the stack of its thread. Where the address space is
 * limited (ulimit -v) the stack must be that large already: one that can't grow ends the program by SIGSEGV. What `out` and `put` hold
 * before a call doesn't matter: memory as malloc gives it will do. */
uint32_t tamligub_run(const uint8_t *word, size_t word_length, uint32_t given, uint32_t number,
                      const uint8_t *page, size_t page_length, const uint8_t *script, size_t script_length,
                      uint8_t *out, size_t room, uint64_t *put);

/* ---- A decoder that is fed bytes as they come ----
 *
 * Whatever pieces the bytes come in, it says the same as the word `changes` does of the whole page: for each item in turn the places that
 * it changes, with their new looks, or its refusal. Each call may be made at any time and in any order, also on a decoder that isn't open,
 * whose page has ended, or that was closed before. What the host must see to:
 *
 * - A decoder begins with all of it zero, and from then on these functions alone write into it. It isn't copied while it is open. No two
 *   calls have the same one at a time, and it stays on the thread that opened it; different ones may be used by different threads.
 * - No pointer is null, not even where the length is 0, and none leads into what another one leads to.
 * - What lists, records, texts and numbers hold before a call writes to them doesn't matter: memory as malloc gives it will do, and no
 *   answer depends on it. What stands behind the notices or bytes that are written stays as it is.
 * - The room for notices is that for a byte, for a phase of flashing or for a line, or more. Where it is less nothing is done.
 * - Each call needs up to 280 KB of the stack of its thread, under a limit of the address space as of tamligub_run.
 *
 * A decoder takes all its memory by malloc when it is opened, 247 KB; after that only tamligub_write and tamligub_snapshot take some,
 * and give it back, and the first edit takes about 2.3 MB, which are given back when the decoder is closed.
 * Where a call answers 1 no more was done than that `notices`, `put` and `reason` are 0, of those that it takes; but tamligub_restore has
 * closed the decoder that was open.
 *
 * At the start the display is blank: each of the 24 rows of 40 places has no sign (kind 0), white (15, 15, 15) on black (0, 0, 0), steady.
 * Neither tamligub_open nor the first bytes tell this: a place is told once an item changes it, so clear the display to it before.
 *
 * Whether the cursor is on is for the host to keep, as no notice and no state tells it: each byte 0x11 that is fed puts it on and each byte
 * 0x14 off, wherever they stand. It is at the active position. Neither a snapshot nor a written page has it: keep it beside them. */

/* A decoder, where one is open: begin with = {0}. */
typedef struct {
    void *at;
    bool is_open;
} tamligub_decoder;

/* For how many notices there must be room: one byte, or the end of the page, ends two items at most, each of which changes 960 places at
 * most; a phase of flashing changes 960 at most, and so does a line of a script. */
enum { TAMLIGUB_ROOM_FOR_A_BYTE = 1920, TAMLIGUB_ROOM_FOR_A_PHASE = 960, TAMLIGUB_ROOM_FOR_A_LINE = 960 };

/* By how many bytes a snapshot is longer than the page as bytes, at most. */
enum { TAMLIGUB_BESIDE_A_PAGE = 1141 };

/* So many bytes are room enough for any page as bytes, and for any snapshot. It is counted over the parts of a written page, not proved:
 * they have at most 36 bytes for each of 960 places, 110 for each of 94 patterns, 41 for each row, and 266 besides, 46150 in all. */
enum { TAMLIGUB_ROOM_FOR_A_PAGE = 65536 };

/* A colour: red, green and blue, 0 to 15 each; behind is 1 where what lies behind the screen is shown. */
typedef struct {
    uint8_t red, green, blue, behind;
} tamligub_colour;

/* What is drawn at a place: kind 0 nothing, 1 a sign, 2 a downloaded pattern. A sign has its set (0 primary, 1 supplementary, 2 and 3
 * mosaics, 4 downloaded), its code, 0x20 to 0x7F, and the code of its accent, or 0. */
typedef struct {
    uint8_t kind, set, code, accent;
} tamligub_sign;

/* A downloaded pattern of w by h pixels in 1, 2 or 4 planes; all 0 where there is none. The pixel of plane p, line y and column x is bit n
 * of `bits`, counted from the lowest bit of the first word on, where n is (p * h + y) * w + x. With 2 or 4 planes there are 4 or 16 inks,
 * the colours of the values of a pixel, of which plane 0 is the lowest bit. With one plane there are none: a pixel is the foreground. */
typedef struct {
    uint64_t bits[9];
    uint8_t w, h, planes, inks;
    tamligub_colour colours[16];
} tamligub_pattern;

/* What an item or a line says. Kind 1: a place looks otherwise now. Kind 2: bytes are refused. What is said of the other kind alone is 0.
 *
 * What flashes goes through six phases, on a terminal of the service six a second: tamligub_flash_turn says what each changes. Of a
 * concealed sign, which is told as any other, the background alone is shown until it is revealed, which is for the host to do. A lined sign
 * has a line at its foot, or, where it is a block mosaic, gaps between its blocks; a boxed one has a dotted frame, also where it is
 * concealed. tamligub_signs.h has the dots of each sign, and docs/PROFILE.md its character, under "Signs in Unicode". There all mosaics are
 * U+2592: which blocks one of set 2 has is said under "Drawings", and example_live.c makes of them the characters from U+1FB00 on. */
typedef struct {
    uint64_t at;                   /* how many bytes stand before the item; of a line all bytes of the page, of a phase those fed */
    uint8_t kind;
    uint8_t length, reason;        /* 2: how many bytes, and why: 1 to 7, as in cept_tool(1) */
    uint8_t row, column;           /* 1: 1 to 24 from the top, 1 to 40 from the left */
    tamligub_sign sign;            /* 1, and so all that follows */
    uint8_t dy, dx, w, h;          /* how far down and right the place is in its sign, of w by h places, 1 or 2 each */
    tamligub_colour fore, back;
    uint8_t flash;                 /* 0 steady, 1 plain, 2 inverted, 3 reduced, 4 to 6 the fast ones */
    uint8_t conceal, lined, boxed; /* 0 or 1 */
    tamligub_pattern pattern;
} tamligub_notice;

/* Attributes that the codes of the parallel C1 set have set for the next signs; 255 stands for one that isn't set. */
typedef struct {
    uint8_t fore, back;            /* entries of the colour table, 0 to 31 */
    uint8_t flash;                 /* as in a notice */
    uint8_t conceal, lined, boxed; /* 0 or 1 */
    uint8_t size;                  /* 0 normal, 1 twice as high, 2 twice as wide, 3 both */
    uint8_t invert;                /* 0 or 1 */
} tamligub_pen;

/* Where a decoder stands. */
typedef struct {
    uint64_t fed;                  /* how many bytes were taken */
    uint8_t pending, ended;        /* how many of the last ones are no item yet; 1 where the page has ended */
    uint8_t row, column;           /* the active position */
    uint8_t rows, wrap;            /* how many rows the format has, 20 or 24; 1 where a line goes on in the next one */
    uint8_t first, last;           /* the rows of the scrolling area, 0 and 0 where there is none */
    uint8_t implicit, revision;    /* 1 where it scrolls at its edges; the revision of the rules, 1 or 2 */
    uint8_t c1;                    /* the C1 set: 0 serial, 1 parallel */
    uint8_t g[4], left, right;     /* the sets G0 to G3, numbered as in a sign; which of the four left and right bytes take, 0 to 3 */
    uint8_t single, accent;        /* which of them the next byte alone takes, or 0; the accent that waits for its sign, or 0 */
    uint8_t table, protect;        /* the colour table, 0 to 3; 1 where what is written is protected */
    tamligub_pen pen;
} tamligub_decoder_state;

/* The colours of the 32 entries of the colour table, and the entries, 0 to 31, that the four of the DCLUT name. */
typedef struct {
    tamligub_colour entries[32];
    uint8_t dclut[4];
} tamligub_colour_entries;

/* Opens a decoder before the first byte; one that is open is closed, and its memory given back at the end of the call. Answers 0, or 6 where
 * there is no memory: none is open then. */
uint32_t tamligub_open(tamligub_decoder *decoder);

/* Feeds bytes, as long as `list` has room for as many more notices as one byte may need. Writes the notices at the front of `list`, which
 * has room for `room` of them, and their number in `notices`, and answers how many bytes were taken. It takes none and writes none where
 * no decoder is open, the page has ended, `room` is too little, or 2^32 bytes were taken. */
uint64_t tamligub_feed(tamligub_decoder *decoder, const uint8_t *bytes, size_t length, tamligub_notice *list, size_t room,
                       uint64_t *notices);

/* Ends the page: writes the notices of the item that is left at the front of `list`, and their number in `notices`. Answers 0; or 1 where
 * no decoder is open, the page had ended, or `room` is below TAMLIGUB_ROOM_FOR_A_BYTE. */
uint32_t tamligub_finish(tamligub_decoder *decoder, tamligub_notice *list, size_t room, uint64_t *notices);

/* Writes the look at a place in `notice`, as of an item that has all bytes before it that were taken; what flashes is as it was fed.
 * Answers 0; or 1 where no decoder is open or there is no such place. */
uint32_t tamligub_look(tamligub_decoder *decoder, uint8_t row, uint8_t column, tamligub_notice *notice);

/* Writes in `state` where the decoder stands. Answers 0; or 1 where none is open. */
uint32_t tamligub_state(tamligub_decoder *decoder, tamligub_decoder_state *state);

/* Writes in `colours` the colours in force. Answers 0; or 1 where none is open. */
uint32_t tamligub_colours(tamligub_decoder *decoder, tamligub_colour_entries *colours);

/* Makes a line of a script, as the word `edit` does, after the page has ended: `line` is its bytes without the end of the line, such as
 * "at 1 2" or "undo". Writes at the front of `list` each place that a command of the line changes, once, in reading order, with its look
 * after the line; of an edit of one command, an undo and a redo these are the places that the word `trace` lists. Writes their number in
 * `notices`, and 0 in `reason`. Up to 64 edits can be undone. From then on all calls tell of the page as it is edited. Answers
 *   0  the line was made
 *   1  no decoder is open, the page has not ended, or `room` is below TAMLIGUB_ROOM_FOR_A_LINE
 *   2  there is nothing to make: the line is empty or begins with "#", or it is an undo and no edit can be undone, or a redo and
 *      none can be redone
 *   3  the line is outside the grammar of scripts: `reason` says why, 1 to 6, in the order of cept_tool(1)
 *   6  there is no memory for the first edit
 *   7  the line has more than 2^20 bytes
 * But for 0 all stays, and `notices` is 0; but for 3 `reason` is 0. */
uint32_t tamligub_line(tamligub_decoder *decoder, const uint8_t *line, size_t length, tamligub_notice *list, size_t room,
                       uint64_t *notices, uint32_t *reason);

/* How many edits can be undone, and how many were undone and can be redone: 0 to 64; none where no decoder is open. */
uint32_t tamligub_kept(tamligub_decoder *decoder);
uint32_t tamligub_undone(tamligub_decoder *decoder);

/* Writes the page as bytes, as the word `write` does, at the front of `out`, which has room for `room` of them, and their number in `put`.
 * Answers 0; 1 where no decoder is open; 5 where there is no room for all of them; 6 where there is no memory. In the last three cases
 * `put` is 0 and `out` stays. */
uint32_t tamligub_write(tamligub_decoder *decoder, uint8_t *out, size_t room, uint64_t *put);

/* Writes all of the state at the front of `out`, which has room for `room` bytes, and their number in `put`, at most
 * TAMLIGUB_BESIDE_A_PAGE more than tamligub_write writes. tamligub_restore brings it back, bytes under way and the phase of flashing
 * included: also in another process, which may have a library of another machine. Answers 0; 1 where no decoder is open, or its page has
 * ended; 5 where there is no room for all of them; 6 where there is no memory. In the last three cases `put` is 0 and `out` stays. */
uint32_t tamligub_snapshot(tamligub_decoder *decoder, uint8_t *out, size_t room, uint64_t *put);

/* Opens a decoder in the state that a snapshot has; one that is open is closed, and its memory given back at the end of the call, which
 * meanwhile takes as many bytes as the snapshot has. From then on it says what the one would have said of which the snapshot was taken.
 * Nothing is said of what is shown already: tamligub_look tells it where flashing hadn't begun; where it had, blank the display and call
 * tamligub_flash_start, which tells all of it from the first phase on. A front of a snapshot, or a changed one, may be that of another
 * state: keep its length and a checksum beside it. Answers 0; 1 where the bytes are no snapshot; 6 where there is no memory. In the last two
 * cases none is open. */
uint32_t tamligub_restore(tamligub_decoder *decoder, const uint8_t *bytes, size_t length);

/* What flashes looks otherwise from one of six phases to the next, as under the word `flash`; when they come is for the host to say. The
 * first call begins the first phase over a blank display, and tells all places that aren't blank. The second begins the next phase, after
 * the last one the first again, and tells the places that are shown otherwise: a place that was fed since the phase began shows its look as
 * it was fed. Without the first call the second begins the first phase over what was fed. The looks are steady ones, as they are seen in
 * the phase: `flash` is 0, a sign that isn't seen is a space without a line, and one of reduced intensity has its foreground halved in the
 * last three phases. Both answer 0; or 1 where no decoder is open or `room` is below TAMLIGUB_ROOM_FOR_A_PHASE. */
uint32_t tamligub_flash_start(tamligub_decoder *decoder, tamligub_notice *list, size_t room, uint64_t *notices);
uint32_t tamligub_flash_turn(tamligub_decoder *decoder, tamligub_notice *list, size_t room, uint64_t *notices);

/* Closes a decoder and gives its memory back; where none is open nothing is done. */
void tamligub_close(tamligub_decoder *decoder);

#ifdef __cplusplus
}
#endif

#endif
