/*
 * saves COMMITS SAVES: one thread feeds and commits, one operation a commit. Beside it a reader saves the first attribute again and again:
 * save i is not begun before commit i * COMMITS / SAVES. Each save is read back in C and compared, document by document, with a plain table
 * of just its operations.
 */
#include "attr.h"
#include "table.h"
#include <pthread.h>
#include <stdatomic.h>
#include <stdlib.h>

enum { LINE = 256, HEAD = 14, EACH = 14, ROOM = HEAD + EACH * DOCUMENTS };

static uint64_t commits, saves;
static _Atomic uint64_t committed;

static void fail(const char *what, int32_t code) {
    uint8_t text[128];
    size_t n = attr_message(code, text, sizeof text);
    fprintf(stderr, "saves: %s: %.*s (%d)\n", what, (int)n, (const char *)text, code);
    exit(1);
}

static void must(const char *what, int32_t code) {
    if (code != ATTR_OK) fail(what, code);
}

static void expect(const char *what, int is) {
    if (!is) {
        fprintf(stderr, "saves: a wrong save: %s\n", what);
        exit(1);
    }
}

/* ---- the reader ---- */

struct seat { attr_reader reader; uint64_t older, first, last; };

/* The number in `size` bytes, the highest first. */
static uint64_t number(const uint8_t *bytes, int size) {
    uint64_t found = 0;
    for (int i = 0; i < size; i++) found = found << 8 | bytes[i];
    return found;
}

static void compare(const uint8_t *bytes, size_t length, const struct table *table, uint32_t operations) {
    expect("its head", length >= HEAD && !memcmp(bytes, "ATS1\0\0", 6));
    expect("its operations", number(bytes + 6, 4) == operations);
    size_t at = HEAD, documents = 0;
    for (uint32_t document = 1; document <= DOCUMENTS; document++) {
        const struct row *row = &table->rows[document];
        if (!row->there) continue;
        expect("a document more", at + EACH <= length);
        expect("a document", number(bytes + at, 4) == document && number(bytes + at + 4, 2) == 1);
        expect("a year", (int64_t)number(bytes + at + 6, 8) == row->year);
        at += EACH;
        documents++;
    }
    expect("nothing more", at == length && number(bytes + 10, 4) == documents);
}

static void *saver(void *argument) {
    struct seat *seat = argument;
    static struct table table;
    static uint8_t bytes[ROOM];
    uint64_t applied = 0;
    for (uint64_t i = 0; i < saves; i++) {
        while (atomic_load(&committed) < i * commits / saves) {}
        struct attr_answer answer;
        must("save", attr_save(&seat->reader, &answer));
        uint64_t now = atomic_load(&committed);
        if (answer.operations < now) seat->older++;
        if (i == 0) seat->first = answer.operations;
        seat->last = answer.operations;
        expect("no commit before it began", answer.operations >= i * commits / saves);
        for (; applied < answer.operations; applied++) {
            struct operation op = operation(applied + 1);
            apply(&table, &op);
        }
        expect("no commit before the last save's", applied == answer.operations);
        expect("its length", answer.count <= ROOM && attr_saved(&seat->reader, 0, bytes, ROOM) == answer.count);
        compare(bytes, answer.count, &table, answer.operations);
    }
    return NULL;
}

/* ---- the writer ---- */

static void step(attr_engine *engine) {
    struct attr_told told;
    int32_t code = attr_compact(engine, 256, &told);
    if (code != ATTR_OK && code != ATTR_FULL) fail("compact", code);
}

static void write_one(attr_engine *engine, uint64_t i) {
    char line[LINE];
    struct attr_told told;
    struct operation op = operation(i);
    size_t length = write_line(line, &op);
    /* (a reader that is held up keeps entries: there is room again once it goes on) */
    while (1) {
        int32_t code = attr_feed(engine, (const uint8_t *)line, length, &told);
        if (code == ATTR_OK) break;
        if (code != ATTR_FULL) fail("feed", code);
        must("commit", attr_commit(engine, &told));
    }
    must("commit", attr_commit(engine, &told));
    step(engine);
}

int main(int count, char **words) {
    commits = count > 1 ? strtoull(words[1], NULL, 10) : 2000;
    saves = count > 2 ? strtoull(words[2], NULL, 10) : 50;
    const char *attributes = "year:single:long,tags:weightedset:string";
    const struct attr_sizes sizes = {.buffers = 512, .words = 8192, .readers = 1, .wide = 0};
    attr_engine engine;
    uint64_t place;
    must("open", attr_open((const uint8_t *)attributes, strlen(attributes), &sizes, &engine.at, &place));
    static struct seat seat;
    must("reader", attr_reader_open(&engine, &seat.reader.at));
    pthread_t thread;
    if (pthread_create(&thread, NULL, saver, &seat)) return 1;
    for (uint64_t i = 1; i <= commits; i++) {
        write_one(&engine, i);
        atomic_store(&committed, i);
    }
    pthread_join(thread, NULL);
    attr_reader_close(seat.reader);
    attr_close(engine);
    printf("saves: %llu saves beside %llu commits, each that of its operations\n", (unsigned long long)saves, (unsigned long long)commits);
    fprintf(stderr, "saves: of %llu to %llu operations; as they ended, %llu were older than the last commit\n", (unsigned long long)seat.first,
        (unsigned long long)seat.last, (unsigned long long)seat.older);
    return 0;
}
