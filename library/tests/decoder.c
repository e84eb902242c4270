/* Feeds pages to decoders of the library, and puts what these say. library/test_decoder runs it.
 *
 *   decoder pages SEED TURNS FILE..   of each page, each text with its name and length in a line before it: what its bytes change, the
 *                                     cells at its end, the page as bytes, and what so many turns of flashing change; bytes that are fed
 *                                     one by one, and in pieces drawn from the seed with turns of flashing between, must say the same
 *   decoder feed PIECE FILE           feeds a page in pieces of so many bytes, and puts nothing: to count instructions
 *   decoder threads COUNT FILE..      so many threads, each with decoders of its own, must say the same as one
 *   decoder snapshots SEED FILE..     decoders that snapshots bring back, one of each byte of a page, must go on as the page does; what
 *                                     is no snapshot must be refused
 *   decoder calls SEED COUNT          so many calls in any order on three decoders; of each decoder that was open the bytes that it took,
 *                                     whether its page ended, and what it said
 */
#include <pthread.h>

#include "decoder.h"

#define ROOMS 5

static const size_t rooms[ROOMS] = {TAMLIGUB_ROOM_FOR_A_BYTE, TAMLIGUB_ROOM_FOR_A_BYTE + 1, 2500, 2 * TAMLIGUB_ROOM_FOR_A_BYTE, 5000};

/* Lists of notices with rooms that fit exactly, so that a sanitizer sees what is put behind them. */
typedef struct {
    tamligub_notice *of[ROOMS];
} Lists;

static void fail(const char *what)
{
    printf("decoder: %s\n", what);
    exit(1);
}

static void expect(bool good, const char *what)
{
    if (!good)
        fail(what);
}

static Lists new_lists(void)
{
    Lists lists;
    for (unsigned k = 0; k < ROOMS; k++) {
        lists.of[k] = claim(NULL, rooms[k] * sizeof(tamligub_notice));
        memset(lists.of[k], 0, rooms[k] * sizeof(tamligub_notice));
    }
    return lists;
}

static void free_lists(Lists lists)
{
    for (unsigned k = 0; k < ROOMS; k++)
        free(lists.of[k]);
}

/* ---- pages ---- */

/* Feeds bytes in pieces that are drawn from the seed, or one by one where it is 0, and puts what they say. */
static void feed(tamligub_decoder *decoder, Lists lists, const uint8_t *bytes, size_t length, uint64_t seed, Text *text)
{
    for (size_t from = 0; from < length;) {
        size_t most = seed == 0 ? 1 : 1 + drawn(&seed, 1ULL << drawn(&seed, 9));
        size_t piece = most < length - from ? most : length - from;
        unsigned list = seed == 0 ? 0 : (unsigned)drawn(&seed, ROOMS);
        uint64_t notices = 99, taken = tamligub_feed(decoder, bytes + from, piece, lists.of[list], rooms[list], &notices);
        expect(taken > 0 && taken <= piece && notices <= rooms[list], "no bytes are taken, or too many, or too much is said");
        expect(taken == piece || rooms[list] - notices < TAMLIGUB_ROOM_FOR_A_BYTE, "it stops where there is room");
        put_lines(text, lists.of[list], notices, NULL);
        from += taken;
        if (seed != 0 && drawn(&seed, 4) == 0)
            expect(tamligub_flash_turn(decoder, lists.of[list], rooms[list], &notices) == 0, "a phase doesn't begin");
    }
}

/* What a whole page says, in such pieces. The decoder stays open. */
static Text changes(tamligub_decoder *decoder, Lists lists, const uint8_t *bytes, size_t length, uint64_t seed)
{
    Text text = {0};
    uint64_t notices = 99;
    expect(tamligub_open(decoder) == 0 && decoder->is_open, "it isn't opened");
    feed(decoder, lists, bytes, length, seed, &text);
    expect(tamligub_finish(decoder, lists.of[0], rooms[0], &notices) == 0, "the page doesn't end");
    put_lines(&text, lists.of[0], notices, NULL);
    return text;
}

/* The cells that aren't blank, of the rows of the format. */
static Text cells(tamligub_decoder *decoder)
{
    Text text = {0};
    tamligub_decoder_state state;
    expect(tamligub_state(decoder, &state) == 0 && (state.rows == 20 || state.rows == 24), "it has no state");
    for (unsigned row = 1; row <= state.rows; row++)
        for (unsigned column = 1; column <= 40; column++) {
            static const char blank[] = "- 11.00 FFF 000 S---\n";
            tamligub_notice notice;
            memset(&notice, 0xA5, sizeof notice);
            expect(tamligub_look(decoder, (uint8_t)row, (uint8_t)column, &notice) == 0, "there is no look at a place");
            expect(notice.kind == 1 && notice.row == row && notice.column == column, "the look is of another place");
            size_t before = text.length, look;
            put_number(&text, "%llu ", row);
            put_number(&text, "%llu ", column);
            look = text.length;
            put_look(&text, &notice);
            if (text.length - look == sizeof blank - 1 && memcmp(text.bytes + look, blank, sizeof blank - 1) == 0)
                text.length = before;
        }
    return text;
}

/* The page as bytes, where there is room for exactly these, and none where there is room for one less. */
static Text written(tamligub_decoder *decoder)
{
    static uint8_t out[1 << 20];
    Text text = {0};
    uint64_t put = 99;
    expect(tamligub_write(decoder, out, sizeof out, &put) == 0 && put > 0 && put <= sizeof out, "the page isn't written");
    put_bytes(&text, out, (size_t)put);
    memset(out, 0xA5, (size_t)put + 1);
    expect(tamligub_write(decoder, out, text.length - 1, &put) == 5 && put == 0 && out[0] == 0xA5, "it is written without room");
    expect(tamligub_write(decoder, out, text.length, &put) == 0 && put == text.length && out[text.length] == 0xA5
           && memcmp(out, text.bytes, text.length) == 0, "it is written otherwise into little room");
    return text;
}

/* The start of flashing, and so many turns. */
static Text flashing(tamligub_decoder *decoder, Lists lists, unsigned turns)
{
    Text text = {0};
    for (unsigned long long turn = 0; turn <= turns; turn++) {
        uint64_t notices = 99;
        uint32_t status = turn == 0 ? tamligub_flash_start(decoder, lists.of[0], TAMLIGUB_ROOM_FOR_A_PHASE, &notices)
                                    : tamligub_flash_turn(decoder, lists.of[0], TAMLIGUB_ROOM_FOR_A_PHASE, &notices);
        expect(status == 0 && notices <= TAMLIGUB_ROOM_FOR_A_PHASE, "a phase doesn't begin");
        put_lines(&text, lists.of[0], notices, &turn);
    }
    return text;
}

static Text read_file(const char *path)
{
    Text all = {0};
    uint8_t piece[4096];
    FILE *file = fopen(path, "rb");
    if (file == NULL)
        fail(path);
    for (size_t count; (count = fread(piece, 1, sizeof piece, file)) > 0;)
        put_bytes(&all, piece, count);
    fclose(file);
    return all;
}

static void say(const char *name, Text text)
{
    printf("%s %zu\n", name, text.length);
    if (text.length > 0)
        fwrite(text.bytes, 1, text.length, stdout);
    free(text.bytes);
}

static bool same(Text one, Text other)
{
    return one.length == other.length && (one.length == 0 || memcmp(one.bytes, other.bytes, one.length) == 0);
}

static void tell_page(Lists lists, const char *path, uint64_t seed, unsigned turns)
{
    tamligub_decoder decoder = {0};
    Text page = read_file(path), text = changes(&decoder, lists, (uint8_t *)page.bytes, page.length, 0);
    for (unsigned k = 1; k <= 2; k++) {
        Text again = changes(&decoder, lists, (uint8_t *)page.bytes, page.length, seed * 2 + k);
        expect(same(text, again), "pieces say something else than bytes one by one");
        free(again.bytes);
    }
    say("changes", text);
    say("cells", cells(&decoder));
    say("write", written(&decoder));
    say("flash", flashing(&decoder, lists, turns));
    tamligub_close(&decoder);
    expect(!decoder.is_open, "it is open after it was closed");
    free(page.bytes);
}

static void only_feed(Lists lists, size_t piece, const char *path)
{
    tamligub_decoder decoder = {0};
    Text page = read_file(path);
    expect(tamligub_open(&decoder) == 0, "it isn't opened");
    for (size_t from = 0; from < page.length;) {
        size_t more = page.length - from < piece ? page.length - from : piece;
        uint64_t notices;
        from += tamligub_feed(&decoder, (uint8_t *)page.bytes + from, more, lists.of[3], rooms[3], &notices);
    }
    tamligub_close(&decoder);
    free(page.bytes);
}

/* ---- snapshots ---- */

/* All of a decoder's state, where there is room for exactly that, and none where there is room for one byte less. */
static Text snapshot_of(tamligub_decoder *decoder)
{
    static uint8_t out[1 << 20];
    Text text = {0}, page = written(decoder);
    uint64_t put = 99;
    expect(tamligub_snapshot(decoder, out, sizeof out, &put) == 0 && put <= sizeof out, "there is no snapshot");
    expect(put > page.length && put <= page.length + TAMLIGUB_BESIDE_A_PAGE, "a snapshot has another length");
    put_bytes(&text, out, (size_t)put);
    memset(out, 0xA5, (size_t)put + 1);
    expect(tamligub_snapshot(decoder, out, text.length - 1, &put) == 5 && put == 0 && out[0] == 0xA5, "it is put without room");
    expect(tamligub_snapshot(decoder, out, text.length, &put) == 0 && put == text.length && out[text.length] == 0xA5
           && memcmp(out, text.bytes, text.length) == 0, "it is put otherwise into little room");
    free(page.bytes);
    return text;
}

/* A decoder in the state of a snapshot, whose own snapshot is the same. */
static tamligub_decoder restored(Text snapshot)
{
    tamligub_decoder decoder = {0};
    expect(tamligub_restore(&decoder, (uint8_t *)snapshot.bytes, snapshot.length) == 0 && decoder.is_open, "a snapshot isn't brought back");
    Text again = snapshot_of(&decoder);
    expect(same(again, snapshot), "another state is brought back");
    free(again.bytes);
    return decoder;
}

/* What is no snapshot, since a byte is another one or the last ones are missing, is refused, or it is the snapshot of another state. */
static void refuse_others(Text snapshot, uint64_t *seed)
{
    tamligub_decoder decoder = {0};
    Text other = {0};
    uint32_t status;
    put_bytes(&other, snapshot.bytes, snapshot.length);
    if (drawn(seed, 3) == 0)
        other.length = drawn(seed, other.length);
    else
        other.bytes[drawn(seed, drawn(seed, 2) == 0 ? 200 : other.length)] = (char)drawn(seed, 256);
    status = tamligub_restore(&decoder, (uint8_t *)other.bytes, other.length);
    expect(status == (decoder.is_open ? 0 : 1), "what is no snapshot isn't refused");
    if (decoder.is_open) {
        Text again = snapshot_of(&decoder);
        expect(same(again, other), "what is no snapshot is taken for one");
        free(again.bytes);
    }
    tamligub_close(&decoder);
    free(other.bytes);
}

/* A turn of flashing says the same of both. */
static void turn_both(tamligub_decoder *one, tamligub_decoder *other, Lists lists)
{
    Text texts[2] = {{0}, {0}};
    for (unsigned k = 0; k < 2; k++) {
        uint64_t notices = 99;
        expect(tamligub_flash_turn(k == 0 ? one : other, lists.of[0], rooms[0], &notices) == 0, "a phase doesn't begin");
        put_lines(&texts[k], lists.of[0], notices, NULL);
    }
    expect(same(texts[0], texts[1]), "a decoder that was brought back flashes otherwise");
    free(texts[0].bytes);
    free(texts[1].bytes);
}

/* Of each byte of a page: a decoder that is fed from there on says the rest of what the whole page says. */
static void bring_back(Lists lists, const char *path, uint64_t seed)
{
    tamligub_decoder decoder = {0}, whole = {0};
    Text page = read_file(path), want = changes(&whole, lists, (uint8_t *)page.bytes, page.length, 0), said = {0};
    uint64_t notices = 99;
    uint8_t out[1];
    expect(tamligub_snapshot(&whole, out, 0, &notices) == 1 && notices == 0, "there is a snapshot of a page that has ended");
    expect(tamligub_open(&decoder) == 0, "it isn't opened");
    for (size_t at = 0; at <= page.length; at++) {
        Text snapshot = snapshot_of(&decoder), rest = {0};
        tamligub_decoder other = restored(snapshot);
        if (drawn(&seed, 4) == 0)
            turn_both(&decoder, &other, lists);
        feed(&other, lists, (uint8_t *)page.bytes + at, page.length - at, 1 + drawn(&seed, 1000), &rest);
        expect(tamligub_finish(&other, lists.of[0], rooms[0], &notices) == 0, "the page doesn't end");
        put_lines(&rest, lists.of[0], notices, NULL);
        expect(rest.length == want.length - said.length
               && (rest.length == 0 || memcmp(rest.bytes, want.bytes + said.length, rest.length) == 0),
               "a decoder that was brought back goes on otherwise");
        refuse_others(snapshot, &seed);
        tamligub_close(&other);
        free(rest.bytes);
        free(snapshot.bytes);
        if (at < page.length)
            feed(&decoder, lists, (uint8_t *)page.bytes + at, 1, 0, &said);
    }
    tamligub_close(&decoder);
    tamligub_close(&whole);
    free(want.bytes);
    free(said.bytes);
    free(page.bytes);
}

/* ---- threads ---- */

typedef struct {
    char *const *paths;
    size_t count, number;
    Text *want;
    pthread_t thread;
} Job;

static void *work(void *given)
{
    Job *job = given;
    Lists lists = new_lists();
    for (size_t k = 0; k < job->count; k++) {
        tamligub_decoder decoder = {0};
        Text page = read_file(job->paths[k]);
        Text text = changes(&decoder, lists, (uint8_t *)page.bytes, page.length, job->number);
        expect(same(text, job->want[k]), "a thread says something else");
        tamligub_close(&decoder);
        free(text.bytes);
        free(page.bytes);
    }
    free_lists(lists);
    return NULL;
}

static void run_threads(size_t count, char *const *paths, size_t files)
{
    Lists lists = new_lists();
    Text *want = claim(NULL, files * sizeof *want);
    Job *jobs = claim(NULL, count * sizeof *jobs);
    for (size_t k = 0; k < files; k++) {
        tamligub_decoder decoder = {0};
        Text page = read_file(paths[k]);
        want[k] = changes(&decoder, lists, (uint8_t *)page.bytes, page.length, 0);
        tamligub_close(&decoder);
        free(page.bytes);
    }
    for (size_t k = 0; k < count; k++) {
        jobs[k] = (Job){.paths = paths, .count = files, .number = k, .want = want};
        expect(pthread_create(&jobs[k].thread, NULL, work, &jobs[k]) == 0, "no thread");
    }
    for (size_t k = 0; k < count; k++)
        pthread_join(jobs[k].thread, NULL);
    for (size_t k = 0; k < files; k++)
        free(want[k].bytes);
    free(want);
    free(jobs);
    free_lists(lists);
}

/* ---- calls in any order ---- */

#define PLACES 960
#define DECODERS 3

/* A decoder, and what is known of it: the bytes that it took, whether its page has ended, what it said, how each place looks, what a
 * display shows that is kept as it is told, and how many phases of flashing have begun. */
typedef struct {
    tamligub_decoder decoder;
    bool ended;
    Text bytes, said;
    tamligub_notice looks[PLACES], display[PLACES];
    unsigned phases;
} Known;

static tamligub_notice guarded[2300];

/* A list with room for so many notices, all of it written over. */
static tamligub_notice *clean_list(size_t room)
{
    memset(guarded, 0xA5, (room + 1) * sizeof *guarded);
    return guarded;
}

/* Whether what stands behind so many notices was left as it was. */
static bool is_clean(uint64_t notices, size_t room)
{
    const uint8_t *rest = (const uint8_t *)(guarded + notices);
    size_t length = (room + 1 - (size_t)notices) * sizeof *guarded;
    return rest[0] == 0xA5 && memcmp(rest, rest + 1, length - 1) == 0;
}

static size_t some_room(uint64_t *seed)
{
    static const size_t few[] = {0, 1, 959, 960, 1919};
    return drawn(seed, 4) == 0 ? few[drawn(seed, 5)] : drawn(seed, 4) == 0 ? 1920 + drawn(seed, 300) : 1920;
}

/* Bytes that say something, and others. */
static size_t some_bytes(uint64_t *seed, uint8_t *bytes, size_t most)
{
    static const char *const units[] = {
        "A", "text", "\x1F\x41\x41", "\x1F\x58\x68", "\x9B\x31\x50", "\x9B\x32`", "\x1B\x22@", "\x1B\x22\x41", "\x0C", "\x85",
        "\x8D", "\x8F", "\x9D", "\x88", "\x12\x7F", "\x18", "\x1F# 6A", "\x1F#!0@@@@@@@@", "\x1B( @!\x1B(@", "\x1F&00@@@", "\x1F/A",
        "\x1F-B", "\x9B" "1;5U", "\x1B#!B", "\x1B# B", "\xC1" "a", "\x1C"};
    size_t length = 0;
    for (uint64_t left = 1 + drawn(seed, 6); left > 0; left--) {
        const char *unit = units[drawn(seed, sizeof units / sizeof *units)];
        size_t more = strlen(unit);
        if (length + more > most)
            break;
        if (drawn(seed, 3) == 0)
            bytes[length++] = (uint8_t)drawn(seed, 256);
        else
            memcpy(bytes + length, unit, more), length += more;
    }
    return length;
}

/* A life is over: what the decoder took and said is told. */
static void end_life(Known *known)
{
    if (known->decoder.is_open) {
        Lists lists = {{guarded}};
        printf("life 1\n%d", known->ended);
        say("bytes", known->bytes);
        say("changes", known->said);
        say("cells", cells(&known->decoder));
        say("write", written(&known->decoder));
        say("flash", flashing(&known->decoder, lists, 7));
    } else {
        free(known->bytes.bytes);
        free(known->said.bytes);
    }
    known->bytes = known->said = (Text){0};
    known->ended = false;
    known->phases = 0;
}

/* Shows notices on a display. */
static void show(tamligub_notice *display, const tamligub_notice *list, uint64_t notices)
{
    for (uint64_t k = 0; k < notices; k++)
        if (list[k].kind == 1)
            display[(list[k].row - 1) * 40 + list[k].column - 1] = list[k];
}

static void hear(Known *known, uint64_t notices)
{
    put_lines(&known->said, guarded, notices, NULL);
    show(known->looks, guarded, notices);
    show(known->display, guarded, notices);
}

/* All places of a decoder that was just opened. */
static void look_at_all(tamligub_decoder *decoder, tamligub_notice *looks)
{
    for (unsigned k = 0; k < PLACES; k++)
        expect(tamligub_look(decoder, (uint8_t)(k / 40 + 1), (uint8_t)(k % 40 + 1), &looks[k]) == 0, "there is no look");
}

static void open_one(Known *known)
{
    end_life(known);
    expect(tamligub_open(&known->decoder) == 0 && known->decoder.is_open, "it isn't opened");
    look_at_all(&known->decoder, known->looks);
    memcpy(known->display, known->looks, sizeof known->display);
}

static void feed_one(Known *known, uint64_t *seed)
{
    uint8_t bytes[64];
    size_t length = some_bytes(seed, bytes, sizeof bytes), room = some_room(seed);
    tamligub_notice *list = clean_list(room);
    uint64_t notices = 99, taken = tamligub_feed(&known->decoder, bytes, length, list, room, &notices);
    bool takes = known->decoder.is_open && !known->ended && room >= TAMLIGUB_ROOM_FOR_A_BYTE && length > 0;
    expect(taken <= length && notices <= room && is_clean(notices, room), "too much is taken or put");
    expect(takes ? taken > 0 : taken == 0 && notices == 0, "bytes are taken where they can't be, or not where they can");
    put_bytes(&known->bytes, bytes, (size_t)taken);
    hear(known, notices);
}

static void finish_one(Known *known, uint64_t *seed)
{
    size_t room = some_room(seed);
    tamligub_notice *list = clean_list(room);
    uint64_t notices = 99;
    uint32_t status = tamligub_finish(&known->decoder, list, room, &notices);
    bool ends = known->decoder.is_open && !known->ended && room >= TAMLIGUB_ROOM_FOR_A_BYTE;
    expect(status == (ends ? 0 : 1) && (ends || notices == 0) && notices <= room && is_clean(notices, room), "a page ends wrongly");
    hear(known, notices);
    known->ended = known->ended || ends;
}

static void look_at_one(Known *known, uint64_t *seed)
{
    uint8_t row = (uint8_t)drawn(seed, 27), column = (uint8_t)drawn(seed, 43);
    bool there = known->decoder.is_open && row >= 1 && row <= 24 && column >= 1 && column <= 40;
    tamligub_notice *list = clean_list(1);
    uint32_t status = tamligub_look(&known->decoder, row, column, list);
    expect(status == (there ? 0 : 1) && is_clean(there ? 1 : 0, 1), "there is a look where there is no place, or none where there is one");
    if (there) {
        Text found = {0}, want = {0};
        put_look(&found, list);
        put_look(&want, &known->looks[(row - 1) * 40 + column - 1]);
        expect(same(found, want) && list->row == row && list->column == column, "a place looks otherwise than it was told");
        expect(list->kind == 1 && list->at == known->bytes.length, "the look isn't after the bytes that were taken");
        free(found.bytes);
        free(want.bytes);
    }
}

/* Whether a display shows what one does that is shown the same bytes whole, and then flashes for as many phases. */
static void compare_display(const Known *known)
{
    static tamligub_notice display[PLACES], list[TAMLIGUB_ROOM_FOR_A_BYTE];
    tamligub_decoder twin = {0};
    uint64_t notices;
    Text found = {0}, want = {0};
    expect(tamligub_open(&twin) == 0, "it isn't opened");
    look_at_all(&twin, display);
    for (size_t from = 0; from < known->bytes.length;)
        from += tamligub_feed(&twin, (uint8_t *)known->bytes.bytes + from, known->bytes.length - from, list, TAMLIGUB_ROOM_FOR_A_BYTE,
                              &notices);
    if (known->ended)
        tamligub_finish(&twin, list, TAMLIGUB_ROOM_FOR_A_BYTE, &notices);
    tamligub_flash_start(&twin, list, TAMLIGUB_ROOM_FOR_A_PHASE, &notices);
    show(display, list, notices);
    for (unsigned phase = 1; phase < known->phases; phase++) {
        tamligub_flash_turn(&twin, list, TAMLIGUB_ROOM_FOR_A_PHASE, &notices);
        show(display, list, notices);
    }
    tamligub_close(&twin);
    for (unsigned k = 0; k < PLACES; k++) {
        put_look(&found, &known->display[k]);
        put_look(&want, &display[k]);
    }
    expect(same(found, want), "a phase is shown otherwise than after all bytes at once");
    free(found.bytes);
    free(want.bytes);
}

static void flash_one(Known *known, uint64_t *seed)
{
    static Known blank;
    size_t room = some_room(seed);
    bool starts = drawn(seed, 6) == 0, begins = known->decoder.is_open && room >= TAMLIGUB_ROOM_FOR_A_PHASE;
    tamligub_notice *list = clean_list(room);
    uint64_t notices = 99;
    uint32_t status = starts ? tamligub_flash_start(&known->decoder, list, room, &notices)
                             : tamligub_flash_turn(&known->decoder, list, room, &notices);
    expect(status == (begins ? 0 : 1) && (begins || notices == 0) && notices <= TAMLIGUB_ROOM_FOR_A_PHASE && is_clean(notices, room),
           "a phase begins wrongly");
    if (!begins)
        return;
    if (starts) {
        expect(tamligub_open(&blank.decoder) == 0, "it isn't opened");
        look_at_all(&blank.decoder, known->display);
        tamligub_close(&blank.decoder);
    }
    known->phases = starts ? 1 : known->phases + 1;
    for (uint64_t k = 0; k < notices; k++)
        expect(list[k].kind == 1 && list[k].at == known->bytes.length, "a phase says something else than places");
    show(known->display, list, notices);
    if (drawn(seed, 8) == 0)
        compare_display(known);
}

static void ask_state(Known *known)
{
    tamligub_decoder_state state, clean;
    memset(&clean, 0xA5, sizeof clean);
    state = clean;
    uint32_t status = tamligub_state(&known->decoder, &state);
    if (!known->decoder.is_open)
        expect(status == 1 && memcmp(&state, &clean, sizeof state) == 0, "it has a state where it isn't open");
    else
        expect(status == 0 && state.fed == known->bytes.length && state.ended == known->ended && state.pending <= state.fed
               && state.row >= 1 && state.row <= state.rows && state.column >= 1 && state.column <= 40, "it is in another state");
}

static void write_one(Known *known, uint64_t *seed)
{
    static uint8_t out[65536];
    uint64_t put = 99;
    size_t room = drawn(seed, 2) == 0 ? sizeof out - 1 : drawn(seed, 40);
    memset(out, 0xA5, room + 1);
    uint32_t status = tamligub_write(&known->decoder, out, room, &put);
    expect(out[room] == 0xA5 && put <= room, "more is written than there is room for");
    if (!known->decoder.is_open)
        expect(status == 1 && put == 0, "a page is written where none is open");
    else if (status == 0)
        expect(put > 0 && out[0] == 0x1F, "it is written otherwise");
    else
        expect(status == 5 && put == 0 && (room == 0 || out[0] == 0xA5), "it isn't written, and not for want of room");
}

/* Brings a decoder back from its own snapshot, in its place, or from bytes that are none. */
static void restore_one(Known *known, uint64_t *seed)
{
    static uint8_t out[65536];
    uint64_t put = 99;
    uint32_t status = tamligub_snapshot(&known->decoder, out, sizeof out, &put);
    bool goes_on = known->decoder.is_open && !known->ended;
    expect(status == (goes_on ? 0 : 1) && (goes_on || put == 0), "there is a snapshot where there is none, or none where there is one");
    if (goes_on) {
        expect(tamligub_restore(&known->decoder, out, (size_t)put) == 0 && known->decoder.is_open, "its own snapshot isn't brought back");
    } else if (!known->decoder.is_open) {
        size_t length = some_bytes(seed, out, sizeof out);
        expect(tamligub_restore(&known->decoder, out, length) == 1 && !known->decoder.is_open, "what is no snapshot is brought back");
    }
}

static void run_calls(uint64_t seed, uint64_t count)
{
    static Known all[DECODERS];
    for (uint64_t k = 0; k < count; k++) {
        Known *known = &all[drawn(&seed, DECODERS)];
        uint64_t which = drawn(&seed, 100);
        if (which < 3)
            open_one(known);
        else if (which < 70)
            feed_one(known, &seed);
        else if (which < 72)
            finish_one(known, &seed);
        else if (which < 80)
            flash_one(known, &seed);
        else if (which < 84)
            ask_state(known);
        else if (which < 86)
            write_one(known, &seed);
        else if (which < 87)
            restore_one(known, &seed);
        else if (which < 98)
            look_at_one(known, &seed);
        else {
            bool was_open = known->decoder.is_open;
            end_life(known);
            tamligub_close(&known->decoder);
            expect(!known->decoder.is_open && (was_open || known->decoder.at == NULL), "it is open after it was closed");
        }
    }
    for (unsigned k = 0; k < DECODERS; k++) {
        end_life(&all[k]);
        tamligub_close(&all[k].decoder);
    }
}

int main(int count, char **words)
{
    if (count >= 4 && strcmp(words[1], "pages") == 0) {
        Lists lists = new_lists();
        for (int k = 4; k < count; k++)
            tell_page(lists, words[k], strtoull(words[2], NULL, 10), (unsigned)strtoul(words[3], NULL, 10));
        free_lists(lists);
        return 0;
    }
    if (count >= 3 && strcmp(words[1], "snapshots") == 0) {
        Lists lists = new_lists();
        for (int k = 3; k < count; k++)
            bring_back(lists, words[k], strtoull(words[2], NULL, 10) + (uint64_t)k);
        free_lists(lists);
        return 0;
    }
    if (count == 4 && strcmp(words[1], "feed") == 0) {
        Lists lists = new_lists();
        only_feed(lists, strtoul(words[2], NULL, 10), words[3]);
        free_lists(lists);
        return 0;
    }
    if (count >= 3 && strcmp(words[1], "threads") == 0) {
        run_threads(strtoul(words[2], NULL, 10), words + 3, (size_t)count - 3);
        return 0;
    }
    if (count == 4 && strcmp(words[1], "calls") == 0) {
        run_calls(strtoull(words[2], NULL, 10), strtoull(words[3], NULL, 10));
        return 0;
    }
    return 2;
}
