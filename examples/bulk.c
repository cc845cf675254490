/*
 * bulk OPERATIONS [dense]: one thread feeds and commits, four others sort, group and read numbers in bulk. Each reader keeps a plain table in C of its
 * own, takes it to the commit that it holds, and compares every answer with it. Now and then it gives its guard back between the query and
 * the call: then the answer is of one commit, and the values are of another. With dense the years are few, so that each has many documents,
 * and frequent years are bit vectors.
 */
#include "attr.h"
#include "table.h"
#include <pthread.h>
#include <stdlib.h>

enum { READERS = 4, BATCH = 100, LINE = 256, YEAR = 0, TAGS = 1 };

static uint64_t total;
static int dense;

/* Operation i; with dense, of few years. */
static struct operation next(uint64_t i) {
    struct operation op = operation(i);
    if (dense && op.kind == PUT) op.year = 1900 + op.year % 4;
    if (dense && op.kind == MOVE) op.year = 1;
    return op;
}

static void must(const char *what, int32_t code) {
    uint8_t text[80];
    if (code == ATTR_OK) return;
    size_t n = attr_message(code, text, sizeof text);
    fprintf(stderr, "bulk: %s: %.*s (%d)\n", what, (int)n, (const char *)text, code);
    exit(1);
}

static void expect(const char *what, int is) {
    if (is) return;
    fprintf(stderr, "bulk: a wrong answer: %s\n", what);
    exit(1);
}

/* ---- a reader, its table, and the documents of its answer with their values ---- */

struct key { int there; int64_t year; uint32_t document; };
struct seat {
    attr_reader reader;
    struct table table;
    uint32_t hits[DOCUMENTS], documents[DOCUMENTS + 8];
    struct key keys[DOCUMENTS];
    int64_t numbers[DOCUMENTS + 8];
    uint8_t present[DOCUMENTS + 8];
    struct attr_score scores[DOCUMENTS];
    size_t count;
    uint64_t done, answers, random;
    uint32_t commit;
};

static uint32_t dice(struct seat *seat, uint32_t sides) { return (uint32_t)(mixed(seat->random++) % sides); }

static int compare(int64_t a, int64_t b) { return (a > b) - (a < b); }

static int by_year(const void *a, const void *b) {
    const struct key *x = a, *y = b;
    if (x->there != y->there) return y->there - x->there;
    return x->year != y->year ? compare(x->year, y->year) : compare(x->document, y->document);
}

static int by_year_down(const void *a, const void *b) {
    const struct key *x = a, *y = b;
    if (x->there != y->there) return y->there - x->there;
    return x->year != y->year ? compare(y->year, x->year) : compare(x->document, y->document);
}

/* Asks for years, or for scores; the table says which documents that has to be. */
static void ask(struct seat *seat) {
    char text[64];
    struct attr_answer answer;
    int64_t low = 1890 + dice(seat, dense ? 20 : 220), high = low + dice(seat, dice(seat, 2) ? 8 : 150);
    int is_dot = dice(seat, 4) == 0;
    if (is_dot) sprintf(text, "tags:dot(\"rock\":2,\"jazz\":-1)");
    else sprintf(text, "[%lld;%lld]", (long long)low, (long long)high);
    must("ask", attr_ask(&seat->reader, (const uint8_t *)text, strlen(text), &answer));
    expect("the commit is the one that is held", answer.commit == seat->commit);
    seat->count = 0;
    for (uint32_t document = 1; document <= DOCUMENTS; document++) {
        const struct row *row = &seat->table.rows[document];
        if (row->there && (is_dot ? row->rock || row->jazz : low <= row->year && row->year <= high)) seat->hits[seat->count++] = document;
    }
    expect("as many hits", answer.count == seat->count);
}

/* The hits with the years that the table has now. */
static void keys(struct seat *seat) {
    for (size_t i = 0; i < seat->count; i++) {
        const struct row *row = &seat->table.rows[seat->hits[i]];
        seat->keys[i] = (struct key){row->there, row->there ? row->year : 0, seat->hits[i]};
    }
}

static void check_sort(struct seat *seat) {
    struct attr_answer answer;
    uint32_t down = dice(seat, 2);
    size_t first = dice(seat, 3) ? dice(seat, 30) : dice(seat, DOCUMENTS), room = dice(seat, 3) ? dice(seat, 20) : DOCUMENTS;
    qsort(seat->keys, seat->count, sizeof *seat->keys, down ? by_year_down : by_year);
    seat->documents[room] = 7;
    must("sort", attr_sort(&seat->reader, YEAR, down, first, seat->documents, room, &answer));
    size_t left = first < seat->count ? seat->count - first : 0;
    expect("as many sorted", answer.count == (left < room ? left : room) && answer.commit == seat->commit);
    for (size_t i = 0; i < answer.count; i++) expect("a document by its year", seat->documents[i] == seat->keys[first + i].document);
    expect("nothing behind them", seat->documents[room] == 7);
}

static void check_totals(struct seat *seat) {
    struct attr_answer answer;
    struct attr_totals_told told;
    uint64_t count = 0;
    int64_t sum = 0, least = INT64_MAX, greatest = INT64_MIN;
    for (size_t i = 0; i < seat->count; i++) {
        int64_t year = seat->keys[i].year;
        if (!seat->keys[i].there) continue;
        count++;
        sum += year;
        least = year < least ? year : least;
        greatest = year > greatest ? year : greatest;
    }
    must("totals", attr_totals(&seat->reader, YEAR, &told, &answer));
    expect("totals", told.count == count && answer.count == count && told.high == 0 && (int64_t)told.low == sum);
    expect("the least and the greatest", count ? told.least == least && told.greatest == greatest : !told.least && !told.greatest);
    must("totals of texts", attr_totals(&seat->reader, TAGS, &told, &answer));
    expect("no totals of texts", !told.count && !told.low && !told.high && !told.least && !told.greatest);
}

/* The years of the hits by value; a year's count is that of its run in the sorted keys. */
static void check_years(struct seat *seat) {
    struct attr_answer answer;
    struct attr_group_told group;
    size_t most = dice(seat, 2) ? dice(seat, 10) : SIZE_MAX, i = 0, groups = 0;
    qsort(seat->keys, seat->count, sizeof *seat->keys, by_year);
    must("group", attr_group(&seat->reader, YEAR, 0, most, &answer));
    while (i < seat->count && seat->keys[i].there && groups < most) {
        size_t from = i;
        while (i < seat->count && seat->keys[i].there && seat->keys[i].year == seat->keys[from].year) i++;
        must("a group", attr_group_at(&seat->reader, groups++, &group));
        expect("a year's group", !group.is_text && group.number == seat->keys[from].year && group.documents == i - from && !group.length && !group.zero);
    }
    expect("no group more", answer.count == groups && attr_group_at(&seat->reader, groups, &group) == ATTR_BOUNDS && !group.documents);
}

static void check_tag(struct seat *seat, size_t number, const char *name, uint64_t documents) {
    struct attr_group_told group;
    uint8_t text[8];
    must("a tag", attr_group_at(&seat->reader, number, &group));
    expect("a tag's group", group.is_text && group.documents == documents && group.length == strlen(name) && !group.number);
    expect("a tag's text", attr_group_text(&seat->reader, number, text, sizeof text) == strlen(name) && !memcmp(text, name, strlen(name)));
    expect("a part of it", attr_group_text(&seat->reader, number, text, 2) == 2);
}

/* The tags of the hits by count, and the tags of all documents that begin with r. */
static void check_tags(struct seat *seat) {
    static const char terms[] = "tags:\"r\"*", more[] = "or(tags:\"rock\",tags:\"jazz\")";
    struct attr_answer answer;
    uint64_t rock = 0, jazz = 0, all = 0;
    for (size_t i = 0; i < seat->count; i++) {
        const struct row *row = &seat->table.rows[seat->hits[i]];
        rock += row->there && row->rock;
        jazz += row->there && row->jazz;
    }
    for (uint32_t document = 1; document <= DOCUMENTS; document++) all += seat->table.rows[document].there && seat->table.rows[document].rock;
    must("group", attr_group(&seat->reader, TAGS, 1, 5, &answer));
    expect("as many tags", answer.count == (uint64_t)(rock > 0) + (jazz > 0));
    if (rock) check_tag(seat, rock > jazz || !jazz ? 0 : 1, "rock", rock);
    if (jazz) check_tag(seat, rock > jazz ? 1 : 0, "jazz", jazz);
    expect("more than a comparison", attr_terms(&seat->reader, (const uint8_t *)more, sizeof more - 1, 5, &answer) == ATTR_SYNTAX && !answer.place);
    if (jazz) check_tag(seat, rock > jazz ? 1 : 0, "jazz", jazz);
    must("terms", attr_terms(&seat->reader, (const uint8_t *)terms, sizeof terms - 1, 5, &answer));
    expect("as many terms", answer.count == (all > 0));
    if (all) check_tag(seat, 0, "rock", all);
}

struct scored { int64_t score; uint32_t document; };

static int by_score(const void *a, const void *b) {
    const struct scored *x = a, *y = b;
    return x->score != y->score ? compare(y->score, x->score) : compare(x->document, y->document);
}

static void check_best(struct seat *seat) {
    static const char text[] = "tags:dot(\"rock\":2,\"jazz\":-1)";
    static _Thread_local struct scored all[DOCUMENTS];
    struct attr_answer answer;
    size_t count = 0, room = dice(seat, 2) ? dice(seat, 12) : DOCUMENTS;
    for (uint32_t document = 1; document <= DOCUMENTS; document++) {
        const struct row *row = &seat->table.rows[document];
        if (row->there && (row->rock || row->jazz)) all[count++] = (struct scored){2 * (int64_t)row->rock - row->jazz, document};
    }
    qsort(all, count, sizeof *all, by_score);
    must("best", attr_best(&seat->reader, (const uint8_t *)text, sizeof text - 1, seat->scores, room, &answer));
    expect("as many of the best", answer.count == (count < room ? count : room));
    for (size_t i = 0; i < answer.count; i++)
        expect("one of the best", seat->scores[i].document == all[i].document && seat->scores[i].score == all[i].score && seat->scores[i].exact);
}

/* The years of some documents: the hits, or any ones in any order. */
static void check_longs(struct seat *seat) {
    struct attr_answer answer;
    size_t count = dice(seat, 2) ? seat->count : dice(seat, 20);
    int any = count != seat->count;
    uint64_t there = 0;
    for (size_t i = 0; i < count; i++) seat->documents[i] = any ? dice(seat, DOCUMENTS + 20) : seat->hits[i];
    must("longs", attr_longs(&seat->reader, YEAR, seat->documents, count, seat->numbers, count, seat->present, count, &answer));
    for (size_t i = 0; i < count; i++) {
        uint32_t document = seat->documents[i];
        const struct row *row = document <= DOCUMENTS ? &seat->table.rows[document] : NULL;
        int is_there = row && row->there;
        there += (uint64_t)is_there;
        expect("a document's year", seat->present[i] == is_there && seat->numbers[i] == (is_there ? row->year : 0));
    }
    expect("how many have a year", answer.count == there);
    uint32_t first = dice(seat, DOCUMENTS + 10);
    size_t room = dice(seat, 2) ? dice(seat, 50) : DOCUMENTS, found = 0;
    must("documents", attr_documents(&seat->reader, first, seat->documents, room, &answer));
    for (uint32_t document = first; document <= DOCUMENTS && found < room; document++)
        if (seat->table.rows[document].there) expect("the next document", found < answer.count && seat->documents[found++] == document);
    expect("no document more", answer.count == found);
}

static void refusals(struct seat *seat) {
    struct attr_answer answer;
    struct attr_totals_told told;
    uint32_t document = 1;
    int64_t number = 7;
    uint8_t is = 7;
    expect("no such attribute", attr_sort(&seat->reader, 2, 0, 0, &document, 1, &answer) == ATTR_BOUNDS && document == 1 && !answer.commit);
    expect("no such order", attr_sort(&seat->reader, YEAR, 2, 0, &document, 1, &answer) == ATTR_BOUNDS && document == 1);
    expect("no totals", attr_totals(&seat->reader, 9, &told, &answer) == ATTR_BOUNDS && !told.count);
    expect("no such grouping", attr_group(&seat->reader, YEAR, 2, 9, &answer) == ATTR_BOUNDS && !answer.count);
    expect("no groups", attr_group(&seat->reader, UINT32_MAX, 0, 9, &answer) == ATTR_BOUNDS);
    expect("no room", attr_longs(&seat->reader, YEAR, &document, 1, &number, 0, &is, 1, &answer) == ATTR_BOUNDS && number == 7 && is == 7);
    expect("too much room", attr_longs(&seat->reader, YEAR, &document, 1, &number, 1, &is, 2, &answer) == ATTR_BOUNDS && number == 7 && is == 7);
}

/* Holds the last commit, and takes the table to it. */
static void hold(struct seat *seat) {
    struct attr_answer held;
    must("hold", attr_hold(&seat->reader, &held));
    seat->commit = held.commit;
    while (seat->done < held.operations) {
        struct operation op = next(++seat->done);
        apply(&seat->table, &op);
    }
}

static void *reads(void *argument) {
    struct seat *seat = argument;
    uint32_t hits[1];
    while (seat->done < total) {
        hold(seat);
        ask(seat);
        if (dice(seat, 3) == 0) {
            must("release", attr_release(&seat->reader));
            hold(seat);
        }
        keys(seat);
        check_sort(seat);
        check_totals(seat);
        check_years(seat);
        check_tags(seat);
        check_best(seat);
        check_longs(seat);
        refusals(seat);
        expect("the answer stays", attr_hits(&seat->reader, 0, hits, 1) == (seat->count > 0) && (!seat->count || hits[0] == seat->hits[0]));
        must("release", attr_release(&seat->reader));
        seat->answers += 10;
    }
    return NULL;
}

/* ---- the writer ---- */

static void write_batch(attr_engine *engine, uint64_t first, uint64_t last) {
    static char lines[BATCH * LINE];
    struct attr_told told, step;
    size_t length = 0, from = 0;
    for (uint64_t i = first; i <= last; i++) {
        struct operation op = next(i);
        length += write_line(lines + length, &op);
    }
    for (;;) {
        int32_t code = attr_feed(engine, (const uint8_t *)lines + from, length - from, &told);
        if (code == ATTR_OK) break;
        if (code != ATTR_FULL) must("feed", code);
        from += told.place;
        attr_compact(engine, 256, &step);
    }
    int32_t code;
    do code = attr_commit(engine, &told); while (code == ATTR_FULL);
    must("commit", code);
    code = attr_compact(engine, 256, &step);
    if (code != ATTR_FULL) must("compact", code);
}

int main(int count, char **words) {
    total = count > 1 ? strtoull(words[1], NULL, 10) : 10000;
    dense = count > 2 && !strcmp(words[2], "dense");
    const char *attributes = "year:single:long,tags:weightedset:string";
    const struct attr_sizes sizes = {.buffers = 512, .words = 8192, .readers = READERS, .dense = (uint32_t)dense};
    attr_engine engine;
    uint64_t place, answers = 0;
    pthread_t threads[READERS];
    struct seat *seats = calloc(READERS, sizeof *seats);
    if (!seats) return 1;
    must("open", attr_open((const uint8_t *)attributes, strlen(attributes), &sizes, &engine.at, &place));
    for (unsigned i = 0; i < READERS; i++) {
        must("reader", attr_reader_open(&engine, &seats[i].reader.at));
        seats[i].random = (uint64_t)i << 32;
    }
    for (int i = 0; i < READERS; i++) if (pthread_create(&threads[i], NULL, reads, &seats[i])) return 1;
    for (uint64_t first = 1; first <= total; first += BATCH) write_batch(&engine, first, first + BATCH - 1 < total ? first + BATCH - 1 : total);
    for (int i = 0; i < READERS; i++) {
        pthread_join(threads[i], NULL);
        answers += seats[i].answers;
        attr_reader_close(seats[i].reader);
    }
    attr_close(engine);
    free(seats);
    printf("bulk: %llu operations beside %d readers; every answer right\n", (unsigned long long)total, READERS);
    fprintf(stderr, "bulk: %llu answers\n", (unsigned long long)answers);
    return 0;
}
