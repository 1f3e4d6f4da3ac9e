/* Calls ppdb_run for each run of a file, and writes the answers to standard output: target_calls RUNS. scripts/checks/target_runs.py
   has both forms. It is built for each machine that has a library. */
#include <stdint.h>
#include <stdio.h>
#include <stdlib.h>
#include <string.h>
#ifdef _WIN32
#include <fcntl.h>
#include <io.h>
#endif
#include "ppdb.h"

static const uint8_t *at;

static uint32_t number(void)
{
    uint32_t made;
    memcpy(&made, at, sizeof made);
    at += sizeof made;
    return made;
}

static const uint8_t *bytes(uint32_t length)
{
    const uint8_t *made = at;
    at += length;
    return made;
}

static void *room(size_t length)
{
    void *made = malloc(length + 1);
    if (!made)
        exit(70);
    return made;
}

static uint8_t *whole(const char *name)
{
    FILE *file = fopen(name, "rb");
    if (!file || fseek(file, 0, SEEK_END))
        exit(70);
    size_t length = (size_t)ftell(file);
    uint8_t *made = room(length);
    rewind(file);
    if (fread(made, 1, length, file) != length)
        exit(70);
    fclose(file);
    return made;
}

static void put(const uint8_t *part, uint64_t length)
{
    fwrite(&length, sizeof length, 1, stdout);
    fwrite(part, 1, length, stdout);
}

/* The same words and files again where the text or the file needs more room. */
static void answer(const uint8_t *words, size_t words_length, const uint8_t *files, size_t length, const ppdb_piece *pieces, size_t count)
{
    size_t text_room = 0, made_room = 0;
    for (;;) {
        size_t text_needed = 0, made_needed = 0;
        uint8_t *text = room(text_room), *made = room(made_room);
        uint8_t status = ppdb_run(words, words_length, files, length, pieces, count, text, text_room, &text_needed, made, made_room, &made_needed);
        int fits = text_needed <= text_room && made_needed <= made_room;
        if (fits) {
            putchar(status);
            put(text, text_needed);
            put(made, made_needed);
        }
        free(text);
        free(made);
        if (fits)
            return;
        text_room = text_needed;
        made_room = made_needed;
    }
}

int main(int argc, char **argv)
{
    if (argc != 2)
        return 2;
#ifdef _WIN32
    _setmode(1, _O_BINARY);
#endif
    at = whole(argv[1]);
    uint32_t blobs = number(), *lengths = room(blobs * sizeof *lengths);
    const uint8_t **all = room(blobs * sizeof *all);
    for (uint32_t blob = 0; blob < blobs; blob++) {
        lengths[blob] = number();
        all[blob] = bytes(lengths[blob]);
    }
    for (uint32_t runs = number(); runs; runs--) {
        uint32_t words_length = number();
        const uint8_t *words = bytes(words_length);
        uint32_t count = number();
        ppdb_piece *pieces = room(count * sizeof *pieces);
        uint8_t *files = room(0);
        size_t end = 0;
        for (uint32_t file = 0; file < count; file++) {
            uint32_t name_length = number();
            const uint8_t *name = bytes(name_length);
            uint32_t blob = number();
            pieces[file] = (ppdb_piece){end, name_length, lengths[blob]};
            files = realloc(files, end + name_length + lengths[blob] + 1);
            if (!files)
                return 70;
            memcpy(files + end, name, name_length);
            memcpy(files + end + name_length, all[blob], lengths[blob]);
            end += name_length + lengths[blob];
        }
        answer(words, words_length, files, end, pieces, count);
        free(files);
        free(pieces);
    }
    return fflush(stdout) != 0;
}
