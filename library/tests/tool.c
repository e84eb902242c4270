/* The program cept_tool over the library: tool WORD [PAGE] [SCRIPT | NUMBER]. It puts the text, and ends with the status. With
 * TAMLIGUB_ROOM there is so much room for the text, else as much as it needs. */
#include <stdint.h>
#include <stdio.h>
#include <stdlib.h>
#include <string.h>

#include "../tamligub.h"

typedef struct {
    uint8_t *bytes;
    size_t length;
} Bytes;

static int is_one_of(const char *word, const char *const *all)
{
    for (; *all != NULL; all++)
        if (strcmp(word, *all) == 0)
            return 1;
    return 0;
}

static void *claim(void *former, size_t size)
{
    void *block = realloc(former, size);
    if (block == NULL) {
        fputs("tool: no memory\n", stderr);
        exit(99);
    }
    return block;
}

static Bytes read_file(const char *path)
{
    Bytes all = {claim(NULL, 4096), 0};
    size_t room = 4096;
    FILE *file = fopen(path, "rb");
    if (file == NULL) {
        perror(path);
        exit(99);
    }
    for (size_t count; (count = fread(all.bytes + all.length, 1, room - all.length, file)) > 0;) {
        all.length += count;
        if (all.length == room)
            all.bytes = claim(all.bytes, room *= 2);
    }
    fclose(file);
    return all;
}

int main(int count, char **words)
{
    static const char *const with_script[] = {"trace", "edit", "plot", NULL};
    static const char *const with_number[] = {"gen", "load", NULL};
    static const char *const with_page_and_number[] = {"flash", NULL};
    Bytes page = {claim(NULL, 1), 0}, script = {claim(NULL, 1), 0};
    const char *word = count > 1 ? words[1] : "";
    const char *fixed = getenv("TAMLIGUB_ROOM");
    size_t room = fixed != NULL ? strtoul(fixed, NULL, 10) : 1 << 20;
    uint32_t given = TAMLIGUB_NOTHING, number = 0, status;
    uint64_t put = 0;
    uint8_t *out = NULL;

    if (count == 3 && is_one_of(word, with_number)) {
        given = TAMLIGUB_NUMBER;
    } else if (count == 4 && is_one_of(word, with_page_and_number)) {
        given = TAMLIGUB_PAGE_AND_NUMBER;
    } else if (count == 4 && is_one_of(word, with_script)) {
        given = TAMLIGUB_PAGE_AND_SCRIPT;
    } else if (count == 3) {
        given = TAMLIGUB_PAGE;
    }
    if (given == TAMLIGUB_NUMBER || given == TAMLIGUB_PAGE_AND_NUMBER)
        number = (uint32_t)strtoul(words[count - 1], NULL, 10);
    if (given == TAMLIGUB_PAGE || given == TAMLIGUB_PAGE_AND_SCRIPT || given == TAMLIGUB_PAGE_AND_NUMBER) {
        free(page.bytes);
        page = read_file(words[2]);
    }
    if (given == TAMLIGUB_PAGE_AND_SCRIPT) {
        free(script.bytes);
        script = read_file(words[3]);
    }
    do {
        out = claim(out, room + 1);
        out[room] = 0xA5;
        status = tamligub_run((const uint8_t *)word, strlen(word), given, number, page.bytes, page.length, script.bytes,
                              script.length, out, room, &put);
        if (out[room] != 0xA5 || put > room) {
            fputs("tool: more was put than there is room for\n", stderr);
            return 99;
        }
        room *= 4;
    } while (status == TAMLIGUB_NO_ROOM && fixed == NULL);
    fwrite(out, 1, (size_t)put, stdout);
    free(out);
    free(page.bytes);
    free(script.bytes);
    return (int)status;
}
