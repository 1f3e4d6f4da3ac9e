// Prints the source lines of frames of a stack trace: frames FILE METHOD:OFFSET .., the method by its row and both in decimal.
#include <ppdb.h>
#include <stdio.h>
#include <stdlib.h>

static uint8_t *read_file(const char *name, size_t *length) {
    FILE *in = fopen(name, "rb");
    if (!in || fseek(in, 0, SEEK_END) != 0)
        return NULL;
    *length = (size_t)ftell(in);
    rewind(in);
    uint8_t *bytes = malloc(*length + 1);
    if (bytes && fread(bytes, 1, *length, in) != *length)
        bytes = NULL;
    fclose(in);
    return bytes;
}

static void print_line(const ppdb_frame *frame, const ppdb_line *line) {
    printf("%u:%u ", (unsigned)frame->method, (unsigned)frame->offset);
    switch (line->kind) {
    case PPDB_LINE_NO_METHOD: puts("no method"); break;
    case PPDB_LINE_NO_POINT: puts("no point"); break;
    case PPDB_LINE_HIDDEN: printf("hidden, document %u, point %u\n", (unsigned)line->document, (unsigned)line->offset); break;
    default:
        printf("line %u:%u to %u:%u, document %u, point %u\n", (unsigned)line->start_line, (unsigned)line->start_column,
               (unsigned)line->end_line, (unsigned)line->end_column, (unsigned)line->document, (unsigned)line->offset);
    }
}

int main(int count, char **words) {
    size_t length = 0, frames_count = count > 2 ? (size_t)count - 2 : 0;
    uint8_t *file = count > 2 ? read_file(words[1], &length) : NULL;
    ppdb_frame *frames = calloc(frames_count + 1, sizeof *frames);
    ppdb_line *lines = calloc(frames_count + 1, sizeof *lines);
    if (!file || !frames || !lines) {
        fputs("the words are: frames FILE METHOD:OFFSET ..\n", stderr);
        return 2;
    }
    for (size_t at = 0; at < frames_count; at++) {
        char *rest = NULL;
        frames[at].method = (uint32_t)strtoul(words[at + 2], &rest, 10);
        frames[at].offset = *rest == ':' ? (uint32_t)strtoul(rest + 1, NULL, 10) : 0;
    }
    uint8_t status = ppdb_lines(file, length, frames, frames_count, lines, frames_count);
    for (size_t at = 0; status == PPDB_DONE && at < frames_count; at++)
        print_line(&frames[at], &lines[at]);
    free(file);
    free(frames);
    free(lines);
    return status;
}
