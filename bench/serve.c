/* What a search service asks, of libvattr, of SQLite in memory and of plain columns: bench/serve builds and runs it.
 *
 * Use: serve DOCUMENTS ROUNDS. A line for each way and round: the row, the way, microseconds. The ways: `whole` is attr_ask with the call,
 * `call` the call alone, `items` what it took before by a call for each document or value; `scan` and `index` are SQLite without and with
 * indexes on each column; `column` is plain C over arrays, the choice of hits not counted. All ways of a row have to give the same answer. */
#include "attr.h"
#include <stdio.h>
#include <stdlib.h>
#include <string.h>
#include <time.h>
#ifdef WITH_SQLITE
#include <sqlite3.h>
#endif

enum { PICK, PRICE, KIND, SHOP, RARE, FIELDS };
static const char *const NAME[] = {"pick", "price", "kind", "shop", "rare"};

static attr_engine engine;
static attr_reader reader;
static uint32_t documents, *into, *hits;
static int64_t *column[FIELDS], *numbers;
static uint8_t *present;
static size_t hit_count;

static void must(int32_t code) { if (code) { fprintf(stderr, "serve: code %d\n", code); exit(1); } }

static uint64_t mixed(uint64_t x) {
    x = (x ^ (x >> 30)) * 0xbf58476d1ce4e5b9u + 0x9e3779b97f4a7c15u;
    x = (x ^ (x >> 27)) * 0x94d049bb133111ebu;
    return x ^ (x >> 31);
}

static double now(void) {
    struct timespec t;
    clock_gettime(CLOCK_MONOTONIC, &t);
    return (double)t.tv_sec * 1e6 + (double)t.tv_nsec / 1e3;
}

static uint64_t sum_of(uint64_t sum, uint64_t more) { return (sum ^ more) * 1099511628211u; }

/* ---- the documents: pick is even over 10,000 numbers; a price is one of 16 frequent ones, or for a quarter a rare one ---- */

static int64_t value(uint32_t document, int field) {
    uint64_t r = mixed((uint64_t)document * FIELDS + (unsigned)field);
    switch (field) {
    case PICK: return (int64_t)(r % 10000);
    case PRICE: return r % 4 ? (int64_t)(r >> 8) % 16 * 1000 : (int64_t)((r >> 8) % 1000000);
    case KIND: return (int64_t)(r % 16);
    case SHOP: return (int64_t)(r % 200);
    default: return (int64_t)(r % 20000);
    }
}

static void fill(void) {
    char line[256];
    struct attr_told told;
    for (uint32_t document = 1; document <= documents; document++) {
        int n = sprintf(line, "{\"put\":\"id:a:b::%u\",\"fields\":{", document);
        for (int field = 0; field < FIELDS; field++) {
            column[field][document] = value(document, field);
            n += sprintf(line + n, "%s\"%s\":%lld", field ? "," : "", NAME[field], (long long)column[field][document]);
        }
        n += sprintf(line + n, "}}\n");
        must(attr_feed(&engine, (const uint8_t *)line, (size_t)n, &told));
        if (document % 1000 == 0 || document == documents) {
            must(attr_commit(&engine, &told));
            int32_t code = attr_compact(&engine, 4096, &told);
            if (code != ATTR_FULL) must(code);
        }
    }
}

/* ---- the rows ---- */

struct row { const char *name; enum { SORT, GROUP, FACETS, LONGS } what; int field, down; size_t most; int64_t low, high; };

static const struct row rows[] = {
    {"top 10 up of 1 %", SORT, PRICE, 0, 10, 0, 99}, {"top 10 up of 10 %", SORT, PRICE, 0, 10, 0, 999}, {"top 10 up of all", SORT, PRICE, 0, 10, 0, 9999},
    {"top 10 down of 1 %", SORT, PRICE, 1, 10, 0, 99}, {"top 10 down of 10 %", SORT, PRICE, 1, 10, 0, 999}, {"top 10 down of all", SORT, PRICE, 1, 10, 0, 9999},
    {"top 1,000 up of 10 %", SORT, PRICE, 0, 1000, 0, 999}, {"top 1,000 up of all", SORT, PRICE, 0, 1000, 0, 9999},
    {"top 1,000 down of 10 %", SORT, PRICE, 1, 1000, 0, 999}, {"top 1,000 down of all", SORT, PRICE, 1, 1000, 0, 9999},
    {"16 groups of 1 %", GROUP, KIND, 0, SIZE_MAX, 0, 99}, {"16 groups of 10 %", GROUP, KIND, 0, SIZE_MAX, 0, 999}, {"16 groups of all", GROUP, KIND, 0, SIZE_MAX, 0, 9999},
    {"200 groups of 1 %", GROUP, SHOP, 0, SIZE_MAX, 0, 99}, {"200 groups of 10 %", GROUP, SHOP, 0, SIZE_MAX, 0, 999}, {"200 groups of all", GROUP, SHOP, 0, SIZE_MAX, 0, 9999},
    {"20,000 groups of 1 %", GROUP, RARE, 0, SIZE_MAX, 0, 99}, {"20,000 groups of 10 %", GROUP, RARE, 0, SIZE_MAX, 0, 999}, {"20,000 groups of all", GROUP, RARE, 0, SIZE_MAX, 0, 9999},
    {"200 facets of half", FACETS, SHOP, 0, SIZE_MAX, 0, 4999},
    {"numbers of half", LONGS, PRICE, 0, 0, 0, 4999}};

static void ask(const struct row *row) {
    char text[64];
    struct attr_answer answer;
    sprintf(text, "[%lld;%lld]", (long long)row->low, (long long)row->high);
    must(attr_ask(&reader, (const uint8_t *)text, strlen(text), &answer));
}

/* The call, with all of its answer read. */
static uint64_t call(const struct row *row) {
    struct attr_answer answer;
    struct attr_group_told group;
    uint64_t sum = 0;
    if (row->what == SORT) {
        must(attr_sort(&reader, (uint32_t)row->field, (uint32_t)row->down, 0, into, row->most, &answer));
        for (size_t i = 0; i < answer.count; i++) sum = sum_of(sum, into[i]);
    } else if (row->what == LONGS) {
        size_t count = attr_hits(&reader, 0, into, documents);
        must(attr_longs(&reader, (uint32_t)row->field, into, count, numbers, count, present, count, &answer));
        for (size_t i = 0; i < count; i++) sum += (uint64_t)numbers[i];
    } else {
        must(attr_group(&reader, (uint32_t)row->field, 0, row->most, &answer));
        for (size_t i = 0; i < answer.count; i++) {
            must(attr_group_at(&reader, i, &group));
            sum = sum_of(sum_of(sum, (uint64_t)group.number), group.documents);
        }
    }
    return sum;
}

/* ---- plain columns ---- */

static const int64_t *keys;
static int is_down;

static int before(uint32_t a, uint32_t b) {
    if (keys[a] != keys[b]) return is_down ? keys[a] > keys[b] : keys[a] < keys[b];
    return a < b;
}

static int by_key(const void *a, const void *b) {
    uint32_t x = *(const uint32_t *)a, y = *(const uint32_t *)b;
    return before(x, y) ? -1 : before(y, x);
}

/* The best `most` by a heap whose root is the worst of them. */
static size_t heap_of(size_t most) {
    size_t count = 0;
    for (size_t i = 0; i < hit_count; i++) {
        uint32_t it = hits[i];
        size_t at;
        if (count < most) {
            for (at = count++; at && before(into[(at - 1) / 2], it); at = (at - 1) / 2) into[at] = into[(at - 1) / 2];
        } else {
            if (!before(it, into[0])) continue;
            for (at = 0;;) {
                size_t child = 2 * at + 1;
                if (child >= count) break;
                if (child + 1 < count && before(into[child], into[child + 1])) child++;
                if (!before(it, into[child])) break;
                into[at] = into[child];
                at = child;
            }
        }
        into[at] = it;
    }
    qsort(into, count, sizeof *into, by_key);
    return count;
}

static uint64_t of_column(const struct row *row) {
    uint64_t sum = 0;
    keys = column[row->field];
    is_down = row->down;
    if (row->what == SORT) {
        size_t count = heap_of(row->most);
        for (size_t i = 0; i < count; i++) sum = sum_of(sum, into[i]);
    } else if (row->what == LONGS) {
        for (size_t i = 0; i < hit_count; i++) sum += (uint64_t)keys[hits[i]];
    } else {
        /* (the values are small numbers, so that an array counts them) */
        static uint32_t counts[20000];
        memset(counts, 0, sizeof counts);
        for (size_t i = 0; i < hit_count; i++) counts[keys[hits[i]]]++;
        for (uint64_t i = 0; i < 20000; i++) if (counts[i]) sum = sum_of(sum_of(sum, i), counts[i]);
    }
    return sum;
}

/* ---- a call for each document or value ---- */

static int64_t first_item(uint32_t document, int field) {
    struct attr_answer answer;
    struct attr_item_told item;
    must(attr_items(&reader, document, (uint32_t)field, &answer));
    must(attr_item(&reader, 0, &item));
    return item.number;
}

static uint64_t by_items(const struct row *row) {
    static int64_t *read, *kept;
    struct attr_answer answer;
    char text[96];
    uint64_t sum = 0;
    if (!read) read = calloc(documents + 1, sizeof *read);
    ask(row);
    size_t count = attr_hits(&reader, 0, into, documents);
    if (row->what == FACETS) {
        for (int64_t shop = 0; shop < 200; shop++) {
            sprintf(text, "and([%lld;%lld],%s:%lld)", (long long)row->low, (long long)row->high, NAME[row->field], (long long)shop);
            must(attr_count(&reader, (const uint8_t *)text, strlen(text), &answer));
            if (answer.count) sum = sum_of(sum_of(sum, (uint64_t)shop), answer.count);
        }
        return sum;
    }
    for (size_t i = 0; i < count; i++) read[into[i]] = first_item(into[i], row->field);
    kept = column[row->field];
    column[row->field] = read;
    sum = of_column(row);
    column[row->field] = kept;
    return sum;
}

/* ---- SQLite ---- */

#ifdef WITH_SQLITE
static sqlite3 *base[2];

static void sql(sqlite3 *db, const char *text) {
    char *said = NULL;
    if (sqlite3_exec(db, text, NULL, NULL, &said)) { fprintf(stderr, "serve: %s: %s\n", text, said); exit(1); }
}

static void fill_sqlite(int with_index) {
    sqlite3 *db;
    sqlite3_stmt *put;
    if (sqlite3_open(":memory:", &db)) exit(1);
    base[with_index] = db;
    sql(db, "create table d (document integer primary key, pick integer, price integer, kind integer, shop integer, rare integer); begin");
    if (sqlite3_prepare_v2(db, "insert into d values (?,?,?,?,?,?)", -1, &put, NULL)) exit(1);
    for (uint32_t document = 1; document <= documents; document++) {
        sqlite3_bind_int64(put, 1, document);
        for (int field = 0; field < FIELDS; field++) sqlite3_bind_int64(put, field + 2, column[field][document]);
        if (sqlite3_step(put) != SQLITE_DONE) exit(1);
        sqlite3_reset(put);
    }
    sqlite3_finalize(put);
    sql(db, "commit");
    if (with_index) sql(db, "create index p on d (pick); create index r on d (price); create index k on d (kind); create index s on d (shop); create index q on d (rare); analyze");
}

static uint64_t of_sqlite(const struct row *row, int with_index) {
    char text[256];
    sqlite3_stmt *asked;
    uint64_t sum = 0;
    const char *name = NAME[row->field];
    if (row->what == SORT)
        sprintf(text, "select document from d where pick between ? and ? order by %s %s, document limit %zu", name, row->down ? "desc" : "asc", row->most);
    else if (row->what == LONGS) sprintf(text, "select %s from d where pick between ? and ?", name);
    else sprintf(text, "select %s, count(*) from d where pick between ? and ? group by %s order by %s", name, name, name);
    if (sqlite3_prepare_v2(base[with_index], text, -1, &asked, NULL)) exit(1);
    sqlite3_bind_int64(asked, 1, row->low);
    sqlite3_bind_int64(asked, 2, row->high);
    while (sqlite3_step(asked) == SQLITE_ROW) {
        uint64_t first = (uint64_t)sqlite3_column_int64(asked, 0);
        if (row->what == LONGS) sum += first;
        else sum = sum_of(sum, first);
        if (row->what == GROUP || row->what == FACETS) sum = sum_of(sum, (uint64_t)sqlite3_column_int64(asked, 1));
    }
    sqlite3_finalize(asked);
    return sum;
}
#endif

/* ---- the measurement ---- */

static uint64_t wanted;

static void tell(const struct row *row, const char *way, double from, uint64_t sum) {
    printf("%s\t%s\t%.1f\n", row->name, way, now() - from);
    if (sum != wanted) { fprintf(stderr, "serve: %s: %s answers otherwise\n", row->name, way); exit(1); }
}

static void measure(const struct row *row) {
    hit_count = 0;
    for (uint32_t document = 1; document <= documents; document++)
        if (row->low <= column[PICK][document] && column[PICK][document] <= row->high) hits[hit_count++] = document;
    wanted = of_column(row);
    double from = now();
    tell(row, "column", from, of_column(row));
    from = now();
    ask(row);
    tell(row, "whole", from, call(row));
    from = now();
    tell(row, "call", from, call(row));
    from = now();
    tell(row, "items", from, by_items(row));
#ifdef WITH_SQLITE
    from = now();
    tell(row, "scan", from, of_sqlite(row, 0));
    from = now();
    tell(row, "index", from, of_sqlite(row, 1));
#endif
}

int main(int count, char **words) {
    static const char attributes[] = "pick:single:long,price:single:long,kind:single:long,shop:single:long,rare:single:long";
    const struct attr_sizes sizes = {.buffers = 1023, .words = 32768, .readers = 1};
    uint64_t place;
    if (count != 3) { fprintf(stderr, "use: serve DOCUMENTS ROUNDS\n"); return 2; }
    documents = (uint32_t)atoi(words[1]);
    into = calloc(documents + 1, sizeof *into);
    hits = calloc(documents + 1, sizeof *hits);
    numbers = calloc(documents + 1, sizeof *numbers);
    present = calloc(documents + 1, 1);
    for (int field = 0; field < FIELDS; field++) column[field] = calloc(documents + 1, sizeof **column);
    must(attr_open((const uint8_t *)attributes, sizeof attributes - 1, &sizes, &engine.at, &place));
    must(attr_reader_open(&engine, &reader.at));
    fill();
#ifdef WITH_SQLITE
    fill_sqlite(0);
    fill_sqlite(1);
#endif
    for (int round = atoi(words[2]); round > 0; round--)
        for (size_t i = 0; i < sizeof rows / sizeof *rows; i++) measure(&rows[i]);
    return 0;
}
