/*
 * threads OPERATIONS [dense]: one thread feeds and commits, four others ask. Each reader keeps a plain table in C of its own, takes it to
 * the commit that it holds, and compares every answer with it: hits, counts, scores and items. With dense the years are few, so that
 * each has many documents, and frequent years are bit vectors.
 */
#include "attr.h"
#include "table.h"
#include <pthread.h>
#include <stdlib.h>

enum { READERS = 4, BATCH = 100, LINE = 256 };

static uint64_t total;
static int dense;

/* Operation i; with dense, of few years. */
static struct operation next(uint64_t i) {
    struct operation op = operation(i);
    if (dense && op.kind == PUT) op.year = 1900 + op.year % 4;
    if (dense && op.kind == MOVE) op.year = 1;
    return op;
}

static void fail(const char *what, int32_t code) {
    uint8_t text[128];
    size_t n = attr_message(code, text, sizeof text);
    fprintf(stderr, "threads: %s: %.*s (%d)\n", what, (int)n, (const char *)text, code);
    exit(1);
}

static void must(const char *what, int32_t code) {
    if (code != ATTR_OK) fail(what, code);
}

static void expect(const char *what, int is) {
    if (!is) {
        fprintf(stderr, "threads: a wrong answer: %s\n", what);
        exit(1);
    }
}

static int32_t ask(attr_reader *reader, const char *text, struct attr_answer *answer) {
    return attr_ask(reader, (const uint8_t *)text, strlen(text), answer);
}

/* ---- the readers ---- */

struct seat { attr_reader reader; uint64_t answers, commits; uint32_t last; };

static void check_years(attr_reader *reader, const struct table *table, int64_t low, int64_t high, uint32_t commit) {
    char text[64];
    struct attr_answer answer;
    static _Thread_local uint32_t hits[DOCUMENTS];
    snprintf(text, sizeof text, "[%lld;%lld]", (long long)low, (long long)high);
    must("ask", ask(reader, text, &answer));
    expect("the commit is the one that is held", answer.commit == commit);
    size_t n = attr_hits(reader, 0, hits, DOCUMENTS), k = 0;
    expect("as many hits as were told", n == answer.count);
    for (uint32_t document = 1; document <= DOCUMENTS; document++) {
        const struct row *row = &table->rows[document];
        if (row->there && low <= row->year && row->year <= high) expect("a hit", k < n && hits[k++] == document);
    }
    expect("no hit more", k == n);
    must("count", attr_count(reader, (const uint8_t *)text, strlen(text), &answer));
    expect("the count", answer.count == n);
    expect("hits from the middle on", attr_hits(reader, n / 2, hits, DOCUMENTS) == n - n / 2);
}

static void check_scores(attr_reader *reader, const struct table *table, int32_t rock, int32_t jazz) {
    char text[96];
    struct attr_answer answer;
    static _Thread_local struct attr_score scores[DOCUMENTS];
    snprintf(text, sizeof text, "tags:dot(\"rock\":%d,\"jazz\":%d)", rock, jazz);
    must("dot", ask(reader, text, &answer));
    size_t n = attr_scores(reader, 0, scores, DOCUMENTS), k = 0;
    expect("as many scores as were told", n == answer.count);
    for (uint32_t document = 1; document <= DOCUMENTS; document++) {
        const struct row *row = &table->rows[document];
        if (!row->there || (!row->rock && !row->jazz)) continue;
        expect("a score", k < n && scores[k].document == document && scores[k].exact
            && scores[k].score == (int64_t)rock * row->rock + (int64_t)jazz * row->jazz);
        k++;
    }
    expect("no score more", k == n);
}

static void check_item(attr_reader *reader, size_t number, const char *name, int32_t weight) {
    struct attr_item_told item;
    uint8_t text[16];
    must("item", attr_item(reader, number, &item));
    size_t n = attr_item_text(reader, number, text, sizeof text);
    expect("an item", item.is_text && item.weight == weight && n == strlen(name) && n == item.length && !memcmp(text, name, n));
}

static void check_items(attr_reader *reader, const struct table *table, uint32_t document) {
    const struct row *row = &table->rows[document];
    struct attr_answer answer;
    struct attr_item_told item;
    int32_t code = attr_items(reader, document, 0, &answer);
    if (!row->there) {
        expect("no document", code == ATTR_NO_DOCUMENT);
        return;
    }
    must("items", code);
    must("item", attr_item(reader, 0, &item));
    expect("the year", answer.count == 1 && !item.is_text && item.number == row->year && item.weight == 1);
    must("items", attr_items(reader, document, 1, &answer));
    expect("as many tags", answer.count == (uint64_t)(row->rock != 0) + (row->jazz != 0));
    size_t k = 0;
    if (row->jazz) check_item(reader, k++, "jazz", row->jazz);
    if (row->rock) check_item(reader, k++, "rock", row->rock);
    expect("no tag more", attr_item(reader, k, &item) == ATTR_BOUNDS);
}

static void *reads(void *argument) {
    struct seat *seat = argument;
    struct table *table = calloc(1, sizeof *table);
    uint64_t done = 0, rounds = 0;
    if (!table) exit(1);
    while (done < total) {
        struct attr_answer held;
        must("hold", attr_hold(&seat->reader, &held));
        expect("no commit below one that was seen", held.commit >= seat->last);
        expect("whole batches", held.operations % BATCH == 0 || held.operations == total);
        if (held.commit > seat->last) seat->commits++;
        seat->last = held.commit;
        while (done < held.operations) {
            struct operation op = next(++done);
            apply(table, &op);
        }
        uint64_t r = mixed(rounds++ ^ 0x5eed);
        int64_t low = 1890 + (int64_t)(r % (dense ? 20 : 220));
        check_years(&seat->reader, table, low, low + (int64_t)((r >> 16) % 30), held.commit);
        check_scores(&seat->reader, table, (int32_t)((r >> 24) % 9) - 4, 3);
        for (int i = 0; i < 4; i++) check_items(&seat->reader, table, 1 + (uint32_t)(mixed(r + (uint64_t)i) % DOCUMENTS));
        must("release", attr_release(&seat->reader));
        seat->answers += 7;
    }
    free(table);
    return NULL;
}

/* ---- the writer ---- */

/* Commits; where no buffer is free, waits for readers by compacting and trying again. */
static void commit(attr_engine *engine, struct attr_told *told) {
    int32_t code = attr_commit(engine, told);
    for (int tries = 0; code == ATTR_FULL && tries < 1000000; tries++) code = attr_commit(engine, told);
    must("commit", code);
}

static void feed(attr_engine *engine, const char *lines, size_t length) {
    struct attr_told told;
    size_t from = 0;
    for (;;) {
        int32_t code = attr_feed(engine, (const uint8_t *)lines + from, length - from, &told);
        if (code == ATTR_OK) return;
        if (code != ATTR_FULL) fail("feed", code);
        from += told.place;
        struct attr_told room;
        int32_t step = attr_compact(engine, 256, &room);
        if (step != ATTR_OK && step != ATTR_FULL) fail("compact", step);
    }
}

int main(int count, char **words) {
    total = count > 1 ? strtoull(words[1], NULL, 10) : 20000;
    dense = count > 2 && !strcmp(words[2], "dense");
    const char *attributes = "year:single:long,tags:weightedset:string";
    const struct attr_sizes sizes = {.buffers = 512, .words = 8192, .readers = READERS, .dense = (uint32_t)dense};
    attr_engine engine;
    uint64_t place;
    must("open", attr_open((const uint8_t *)attributes, strlen(attributes), &sizes, &engine.at, &place));

    static struct seat seats[READERS];
    pthread_t threads[READERS];
    for (int i = 0; i < READERS; i++) must("reader", attr_reader_open(&engine, &seats[i].reader.at));
    attr_reader none;
    if (attr_reader_open(&engine, &none.at) != ATTR_NO_READER) return 1;
    for (int i = 0; i < READERS; i++) if (pthread_create(&threads[i], NULL, reads, &seats[i])) return 1;

    static char lines[BATCH * LINE];
    struct attr_told told = {0};
    for (uint64_t done = 0; done < total;) {
        size_t length = 0;
        for (int i = 0; i < BATCH && done < total; i++) {
            struct operation op = next(++done);
            length += write_line(lines + length, &op);
        }
        feed(&engine, lines, length);
        commit(&engine, &told);
        struct attr_told step;
        int32_t code = attr_compact(&engine, 256, &step);
        if (code != ATTR_OK && code != ATTR_FULL) fail("compact", code);
    }
    for (int i = 0; i < READERS; i++) pthread_join(threads[i], NULL);

    uint64_t answers = 0;
    for (int i = 0; i < READERS; i++) {
        if (seats[i].last != told.commit) return 1;
        answers += seats[i].answers;
        attr_reader_close(seats[i].reader);
    }
    struct attr_numbers numbers;
    attr_counts(&engine, &numbers);
    expect("the counts", numbers.operations == total && numbers.committed == total && numbers.commit == told.commit);
    expect("the words", numbers.held_words <= numbers.dead_words && numbers.dead_words <= numbers.used_words);
    expect("the buffers", numbers.used_words <= (uint64_t)numbers.active * numbers.words && numbers.active + numbers.held <= numbers.buffers);
    printf("threads: %llu operations in %u commits, of which %llu were skipped; every answer right\n", (unsigned long long)total, told.commit, (unsigned long long)numbers.skipped);
    fprintf(stderr, "threads: %llu answers of %d readers\n", (unsigned long long)answers, READERS);
    fprintf(stderr, "threads: of %u buffers %u are in use and %u wait; %llu words used, %llu of them dead, %llu held\n", numbers.buffers, numbers.active, numbers.held,
        (unsigned long long)numbers.used_words, (unsigned long long)numbers.dead_words, (unsigned long long)numbers.held_words);
    attr_close(engine);
    return 0;
}
