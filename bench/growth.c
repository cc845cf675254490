/* Calls of libvattr on an engine of given sizes, each between two marks for callgrind: bench/growth runs it under valgrind and reads how
 * many instructions each took. The documents have one attribute, and each of its values has so many of them. */
#include "attr.h"
#include <stdio.h>
#include <stdlib.h>
#include <string.h>
#include <valgrind/callgrind.h>

enum { LINES = 100, LINE = 64 };

static attr_engine engine;
static attr_reader reader;
static struct attr_told told;
static struct attr_answer answer;
static char lines[LINES][LINE], batch[LINES * LINE], text[32];
static size_t batch_length;
static uint32_t documents, values, repeats;

static void must(int32_t code) { if (code) { fprintf(stderr, "growth: code %d\n", code); exit(1); } }

/* A put of a document, with its value moved on by so many. */
static size_t put_line(char *into, uint32_t document, uint32_t more) {
    return (size_t)sprintf(into, "{\"put\":\"id:n:t::%u\",\"fields\":{\"n\":%u}}\n", document, document % values + more);
}

static void feed(const char *from, size_t length) { must(attr_feed(&engine, (const uint8_t *)from, length, &told)); }
static void commit(void) { must(attr_commit(&engine, &told)); }

/* Puts all documents, LINES to a commit. */
static void fill(void) {
    for (uint32_t first = 1; first <= documents; first += LINES) {
        batch_length = 0;
        for (uint32_t i = first; i < first + LINES && i <= documents; i++) batch_length += put_line(batch + batch_length, i, 0);
        feed(batch, batch_length);
        commit();
    }
}

/* The lines of round `round`: documents spread over all, whose values are moved on in even rounds, and back in odd ones. */
static void make_lines(uint32_t round) {
    batch_length = 0;
    for (uint32_t i = 0; i < LINES; i++) {
        uint32_t document = (uint32_t)((uint64_t)i * documents / LINES) + 1;
        put_line(lines[i], document, round % 2 ? 0 : 1);
        size_t length = strlen(lines[i]);
        memcpy(batch + batch_length, lines[i], length);
        batch_length += length;
    }
}

/* Compacts until two steps in a row, with a commit between, find nothing to do. */
static void compact_all(void) {
    int idle = 0;
    while (idle < 2) {
        int32_t code = attr_compact(&engine, 4096, &told);
        if (code == ATTR_FULL) return;
        must(code);
        idle = told.keys || told.finished ? 0 : idle + 1;
        commit();
    }
}

static void nothing(uint32_t round) { (void)round; }
static void put_each(uint32_t round) { (void)round; for (int i = 0; i < LINES; i++) feed(lines[i], strlen(lines[i])); }
static void commit_after(uint32_t round) { (void)round; commit(); }
static void put_one(uint32_t round) { make_lines(round); feed(lines[0], strlen(lines[0])); }
static void put_batch(uint32_t round) { (void)round; feed(batch, batch_length); commit(); }
static void step(uint32_t round) { (void)round; int32_t code = attr_compact(&engine, 256, &told); if (code != ATTR_FULL) must(code); }
static void hold(uint32_t round) { (void)round; must(attr_hold(&reader, &answer)); must(attr_release(&reader)); }
static void ask(uint32_t round) { (void)round; must(attr_ask(&reader, (const uint8_t *)text, strlen(text), &answer)); }
static void count(uint32_t round) { (void)round; must(attr_count(&reader, (const uint8_t *)text, strlen(text), &answer)); }
static void items(uint32_t round) { must(attr_items(&reader, round % documents + 1, 0, &answer)); }
static void counts(uint32_t round) { struct attr_numbers numbers; (void)round; attr_counts(&engine, &numbers); }
static void save(uint32_t round) { (void)round; must(attr_save(&reader, &answer)); }

/* What is done before each call, the call, and the name of the instructions of all rounds. */
static void measure(const char *name, void (*before)(uint32_t), void (*call)(uint32_t)) {
    CALLGRIND_ZERO_STATS;
    for (uint32_t round = 0; round < repeats; round++) {
        before(round);
        CALLGRIND_START_INSTRUMENTATION;
        call(round);
        CALLGRIND_STOP_INSTRUMENTATION;
    }
    CALLGRIND_DUMP_STATS_AT(name);
}

int main(int given, char **words) {
    if (given != 8) { fprintf(stderr, "use: growth DOCUMENTS LENGTH BUFFERS WORDS WIDE DENSE REPEATS\n"); return 2; }
    documents = (uint32_t)atoi(words[1]);
    uint32_t length = (uint32_t)atoi(words[2]);
    struct attr_sizes sizes = {(uint32_t)atoi(words[3]), (uint32_t)atoi(words[4]), 1, (uint32_t)atoi(words[5]), (uint32_t)atoi(words[6])};
    uint64_t place;
    repeats = (uint32_t)atoi(words[7]);
    values = documents / length ? documents / length : 1;
    sprintf(text, "%u", values / 2);
    must(attr_open((const uint8_t *)"n:single:long", 13, &sizes, &engine.at, &place));
    must(attr_reader_open(&engine, &reader.at));
    fill();
    measure("put", make_lines, put_each);
    commit();
    measure("batch", make_lines, put_batch);
    measure("commit", put_one, commit_after);
    measure("step", put_one, step);
    commit();
    compact_all();
    measure("idle step", nothing, step);
    measure("hold", nothing, hold);
    measure("ask", nothing, ask);
    measure("count", nothing, count);
    measure("items", nothing, items);
    measure("numbers", nothing, counts);
    measure("save", nothing, save);
    attr_reader_close(reader);
    attr_close(engine);
    return 0;
}
