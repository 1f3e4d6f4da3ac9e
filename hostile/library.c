// Attacks on libppdb from C, built and run by hostile/library. The words are an attack and those of a command, whose files are read
// first: rooms (buffers of each length about what is needed, before a page that no one may touch), threads (eight threads at once, on
// stacks of so many bytes), refuse (each allocation refused in turn; it is linked with --wrap). Ends with 0 where all is as it should.
#define _GNU_SOURCE
#include <ppdb.h>
#include <limits.h>
#include <pthread.h>
#include <stdio.h>
#include <stdlib.h>
#include <string.h>
#include <sys/mman.h>
#include <unistd.h>

enum { FILES = 16, THREADS = 8, FILL = 0xa5 };

// A call without its rooms.
typedef struct {
    uint8_t *words, *files;
    size_t words_length, files_length, count;
    ppdb_piece pieces[FILES];
} call;

// What a call gives.
typedef struct {
    uint8_t status, *text, *made;
    size_t text_needed, made_needed;
} given;

static void fail(const char *what) {
    fprintf(stderr, "library: %s\n", what);
    exit(1);
}

static void *room_for(size_t length) {
    void *room = malloc(length + 1);
    if (!room)
        fail("no memory left for the attack itself");
    return room;
}

static void add_file(call *c, const char *name) {
    FILE *in = fopen(name, "rb");
    if (!in)
        return;
    fseek(in, 0, SEEK_END);
    long length = ftell(in);
    rewind(in);
    if (length >= 0 && length < LONG_MAX && c->count < FILES) {
        ppdb_piece *piece = &c->pieces[c->count++];
        *piece = (ppdb_piece){.start = c->files_length, .name_length = strlen(name), .length = (size_t)length};
        c->files = realloc(c->files, c->files_length + piece->name_length + piece->length + 1);
        memcpy(c->files + c->files_length, name, piece->name_length);
        c->files_length += piece->name_length;
        if (fread(c->files + c->files_length, 1, piece->length, in) != piece->length)
            fail("a file is not read");
        c->files_length += piece->length;
    }
    fclose(in);
}

// The call of these words, over the files that they name.
static call call_of(int count, char **words) {
    call c = {.files = room_for(0), .words = room_for(0)};
    for (int at = 0; at < count; at++) {
        size_t length = strlen(words[at]) + 1;
        c.words = realloc(c.words, c.words_length + length);
        memcpy(c.words + c.words_length, words[at], length);
        c.words_length += length;
        if (at > 0)
            add_file(&c, words[at]);
    }
    return c;
}

static uint8_t run(const call *c, uint8_t *text, size_t text_room, size_t *text_needed, uint8_t *made, size_t made_room,
                   size_t *made_needed) {
    return ppdb_run(c->words, c->words_length, c->files, c->files_length, c->pieces, c->count, text, text_room, text_needed, made,
                    made_room, made_needed);
}

static given ran(const call *c) {
    given g = {0};
    uint8_t none[1];
    run(c, none, 0, &g.text_needed, none, 0, &g.made_needed);
    g.text = room_for(g.text_needed);
    g.made = room_for(g.made_needed);
    g.status = run(c, g.text, g.text_needed, &g.text_needed, g.made, g.made_needed, &g.made_needed);
    return g;
}

static void drop(given *g) {
    free(g->text);
    free(g->made);
}

static int is_filled(const uint8_t *bytes, size_t length) {
    for (size_t at = 0; at < length; at++)
        if (bytes[at] != FILL)
            return 0;
    return 1;
}

// A room of this length that ends where a page begins that no one may touch.
static uint8_t *guarded(size_t length, uint8_t **pages, size_t *size) {
    size_t page = (size_t)sysconf(_SC_PAGESIZE);
    *size = (length / page + 2) * page;
    *pages = mmap(NULL, *size, PROT_READ | PROT_WRITE, MAP_PRIVATE | MAP_ANONYMOUS, -1, 0);
    if (*pages == MAP_FAILED || mprotect(*pages + *size - page, page, PROT_NONE) != 0)
        fail("no pages");
    memset(*pages, FILL, *size - page);
    return *pages + *size - page - length;
}

// The room has the bytes and then what it had, or nothing where it is too small; so have the bytes before it.
static void check_room(const uint8_t *pages, const uint8_t *room, size_t length, const uint8_t *bytes, size_t needed) {
    size_t put = needed <= length ? needed : 0;
    if (memcmp(room, bytes, put) != 0 || !is_filled(room + put, length - put) || !is_filled(pages, (size_t)(room - pages)))
        fail("a room holds what it should not");
}

static void try_rooms(const call *c, const given *want, size_t text_room, size_t made_room) {
    uint8_t *text_pages, *made_pages;
    size_t text_size, made_size, text_needed, made_needed;
    uint8_t *text = guarded(text_room, &text_pages, &text_size), *made = guarded(made_room, &made_pages, &made_size);
    uint8_t status = run(c, text, text_room, &text_needed, made, made_room, &made_needed);
    if (status != want->status || text_needed != want->text_needed || made_needed != want->made_needed)
        fail("the answer depends on the rooms");
    check_room(text_pages, text, text_room, want->text, want->text_needed);
    check_room(made_pages, made, made_room, want->made, want->made_needed);
    munmap(text_pages, text_size);
    munmap(made_pages, made_size);
}

static int rooms(const call *c) {
    given want = ran(c);
    for (size_t more = 0; more < 9; more++)
        for (size_t other = 0; other < 9; other++) {
            size_t text = want.text_needed + more, made = want.made_needed + other;
            try_rooms(c, &want, text < 4 ? 0 : text - 4, made < 4 ? 0 : made - 4);
        }
    printf("status %d, %zu bytes of text, %zu made\n", want.status, want.text_needed, want.made_needed);
    drop(&want);
    return 0;
}

static const call *shared;
static given expected;

static void *run_often(void *unused) {
    (void)unused;
    for (int at = 0; at < 50; at++) {
        given g = ran(shared);
        int same = g.status == expected.status && g.text_needed == expected.text_needed && g.made_needed == expected.made_needed &&
                   memcmp(g.text, expected.text, g.text_needed) == 0 && memcmp(g.made, expected.made, g.made_needed) == 0;
        drop(&g);
        if (!same)
            return &expected;
    }
    return NULL;
}

static int threads(const call *c, size_t stack) {
    pthread_attr_t attributes;
    pthread_t started[THREADS];
    shared = c;
    expected = ran(c);
    pthread_attr_init(&attributes);
    if (pthread_attr_setstacksize(&attributes, stack) != 0)
        fail("no such stack");
    for (int at = 0; at < THREADS; at++)
        if (pthread_create(&started[at], &attributes, run_often, NULL) != 0)
            fail("no thread");
    for (int at = 0; at < THREADS; at++) {
        void *bad;
        pthread_join(started[at], &bad);
        if (bad)
            fail("a thread was answered otherwise");
    }
    drop(&expected);
    return 0;
}

#ifdef REFUSE
static long left = -1;
static size_t held;
void *__real_malloc(size_t);
void *__real_realloc(void *, size_t);
void __real_free(void *);

static int refused(void) { return left >= 0 && left-- == 0; }

void *__wrap_malloc(size_t size) {
    void *made = refused() ? NULL : __real_malloc(size);
    held += made != NULL;
    return made;
}

void *__wrap_realloc(void *old, size_t size) {
    void *made = refused() ? NULL : __real_realloc(old, size);
    held += made != NULL && old == NULL;
    return made;
}

void __wrap_free(void *old) {
    held -= old != NULL;
    __real_free(old);
}

// Whether a run gave what is wanted, in rooms that it fills.
static int is_usual(const given *got, const given *want) {
    return got->status == want->status && got->text_needed == want->text_needed && got->made_needed == want->made_needed &&
           memcmp(got->text, want->text, want->text_needed) == 0 && memcmp(got->made, want->made, want->made_needed) == 0;
}

// Whether a run gave nothing, since there was no memory left.
static int is_nothing(const given *got, const given *want) {
    return got->status == PPDB_MEMORY && got->text_needed == 0 && got->made_needed == 0 && is_filled(got->text, want->text_needed) &&
           is_filled(got->made, want->made_needed);
}

// Each allocation is refused in turn: nothing is given, or all as usual where it could do without, and all memory is given back.
static int refuse(const call *c) {
    given want = ran(c), got = {.text = room_for(want.text_needed), .made = room_for(want.made_needed)};
    long turn = 0, nothing = 0;
    for (int was_refused = 1; was_refused; turn++) {
        size_t before = held;
        memset(got.text, FILL, want.text_needed);
        memset(got.made, FILL, want.made_needed);
        left = turn;
        got.status = run(c, got.text, want.text_needed, &got.text_needed, got.made, want.made_needed, &got.made_needed);
        was_refused = left < 0;
        left = -1;
        nothing += is_nothing(&got, &want);
        if (held != before)
            fail("memory is not given back");
        if (!is_usual(&got, &want) && !(was_refused && is_nothing(&got, &want)))
            fail("a part is given without memory");
    }
    printf("%ld allocations, %ld of them without which nothing is given\n", turn - 1, nothing);
    drop(&want);
    drop(&got);
    return nothing == 0;
}
#endif

static int attack(const char *kind, size_t stack, const call *c) {
    if (strcmp(kind, "rooms") == 0)
        return rooms(c);
    if (strcmp(kind, "threads") == 0)
        return threads(c, stack);
#ifdef REFUSE
    return refuse(c);
#else
    fail("it is built without refuse");
    return 1;
#endif
}

int main(int count, char **words) {
    if (count < 4)
        fail("the words are: library rooms|threads|refuse STACK WORD ..");
    call c = call_of(count - 3, words + 3);
    int status = attack(words[1], (size_t)strtoul(words[2], NULL, 10), &c);
    free(c.words);
    free(c.files);
    return status;
}
