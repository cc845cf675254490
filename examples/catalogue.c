/* catalogue: products with a price, tags, and how much each kind of customer likes them. A page of hits by price, facets by tag, totals, the
 * best for a customer and suggestions by a prefix, all of one commit, while the writer changes products. Each answer is compared with a plain
 * table. */
#include "attr.h"
#include <inttypes.h>
#include <stdio.h>
#include <stdlib.h>
#include <string.h>

enum { PRODUCTS = 3000, PAGE = 10, PRICE = 0, TAGS = 1, LINE = 256 };
static const char *const TAG[] = {"blue", "cotton", "garden", "glass", "gold", "green", "kitchen", "steel", "wood"};
enum { TAG_COUNT = sizeof TAG / sizeof *TAG };

/* The plain table: tags are bits, and a product without a price has -1. */
struct product { int there; int64_t price; unsigned tags; int32_t young, old; };
static struct product table[PRODUCTS + 1];

static attr_engine engine;
static attr_reader reader;

static void must(int32_t code) {
    uint8_t text[80];
    if (code == ATTR_OK) return;
    fprintf(stderr, "catalogue: %.*s\n", (int)attr_message(code, text, sizeof text), (const char *)text);
    exit(1);
}

static void expect(const char *what, int holds) {
    if (holds) return;
    fprintf(stderr, "catalogue: a wrong answer: %s\n", what);
    exit(1);
}

/* ---- the writer ---- */

static unsigned dice(unsigned sides) {
    static uint64_t state = 88172645463325252u;
    state ^= state << 13;
    state ^= state >> 7;
    state ^= state << 17;
    return (unsigned)(state % sides);
}

static void put(uint32_t document) {
    struct product *p = &table[document];
    *p = (struct product){1, dice(20) ? (int64_t)dice(500) * 10 : -1, dice(1 << TAG_COUNT) & dice(1 << TAG_COUNT), (int32_t)dice(100), (int32_t)dice(100)};
    char line[LINE];
    int n = sprintf(line, "{\"put\":\"id:shop:product::%" PRIu32 "\",\"fields\":{\"tags\":[", document);
    const char *comma = "";
    for (int tag = 0; tag < TAG_COUNT; tag++)
        if (p->tags >> tag & 1) n += sprintf(line + n, "%s\"%s\"", comma, TAG[tag]), comma = ",";
    n += sprintf(line + n, "],\"liked\":{\"young\":%d,\"old\":%d}", (int)p->young, (int)p->old);
    if (p->price >= 0) n += sprintf(line + n, ",\"price\":%" PRId64, p->price);
    n += sprintf(line + n, "}}\n");
    struct attr_told told;
    must(attr_feed(&engine, (const uint8_t *)line, (size_t)n, &told));
}

static void commit(void) {
    struct attr_told told;
    must(attr_commit(&engine, &told));
    int32_t code = attr_compact(&engine, 256, &told);
    if (code != ATTR_FULL) must(code);
}

/* ---- what the plain table says ---- */

static uint32_t wanted[PRODUCTS];
static size_t hits;
static const struct product *now;

static int compare(int64_t a, int64_t b) { return (a > b) - (a < b); }

static int by_price(const void *a, const void *b) {
    uint32_t one = *(const uint32_t *)a, other = *(const uint32_t *)b;
    int64_t x = now[one].price, y = now[other].price;
    if (x < 0 || y < 0) return x < 0 && y < 0 ? compare(one, other) : x < 0 ? 1 : -1;
    return x != y ? compare(x, y) : compare(one, other);
}

static int64_t score(uint32_t document) { return 3 * (int64_t)now[document].young - now[document].old; }

static int by_score(const void *a, const void *b) {
    uint32_t one = *(const uint32_t *)a, other = *(const uint32_t *)b;
    return score(one) != score(other) ? compare(score(other), score(one)) : compare(one, other);
}

/* How many of the wanted products, or of all, have a tag. */
static uint64_t with_tag(int tag, int of_all) {
    uint64_t count = 0;
    if (of_all) for (uint32_t document = 1; document <= PRODUCTS; document++) count += now[document].there && now[document].tags >> tag & 1;
    else for (size_t i = 0; i < hits; i++) count += now[wanted[i]].tags >> tag & 1;
    return count;
}

static int tag_of(size_t number, struct attr_group_told *group) {
    uint8_t text[16];
    must(attr_group_at(&reader, number, group));
    size_t n = attr_group_text(&reader, number, text, sizeof text);
    for (int tag = 0; tag < TAG_COUNT; tag++)
        if (group->is_text && n == strlen(TAG[tag]) && !memcmp(TAG[tag], text, n)) return tag;
    expect("a group is a tag", 0);
    return 0;
}

/* ---- the shop ---- */

/* The page of this number of the hits, by price. */
static void page(size_t number, struct attr_answer *answer) {
    uint32_t documents[PAGE];
    int64_t prices[PAGE];
    uint8_t present[PAGE];
    must(attr_sort(&reader, PRICE, 0, number * PAGE, documents, PAGE, answer));
    size_t count = (size_t)answer->count;
    qsort(wanted, hits, sizeof *wanted, by_price);
    size_t first = number * PAGE < hits ? number * PAGE : hits;
    expect("a page is as long", count == (hits - first < PAGE ? hits - first : PAGE));
    expect("a page by price", !memcmp(documents, wanted + first, count * sizeof *documents));
    if (!count) return;
    must(attr_longs(&reader, PRICE, documents, count, prices, count, present, count, answer));
    for (size_t i = 0; i < count; i++) {
        int64_t price = now[documents[i]].price;
        expect("a price", present[i] == (price >= 0) && prices[i] == (price >= 0 ? price : 0));
    }
    if (number) return;
    printf("cheapest:");
    for (size_t i = 0; i < count; i++) printf(" %" PRIu32 " at %" PRId64, documents[i], prices[i]);
    printf("\n");
}

/* The tags of all hits, the most frequent first. */
static void facets(struct attr_answer *answer) {
    struct attr_group_told group, last = {0, 0, UINT64_MAX, 0, 0};
    int last_tag = -1;
    must(attr_group(&reader, TAGS, 1, TAG_COUNT, answer));
    for (size_t i = 0; i < answer->count; i++, last = group) {
        int tag = tag_of(i, &group);
        expect("a facet's count", group.documents == with_tag(tag, 0));
        expect("facets by count", group.documents < last.documents || (group.documents == last.documents && tag > last_tag));
        printf("%s%s %" PRIu64, i ? ", " : "facets: ", TAG[tag], group.documents);
        last_tag = tag;
    }
    printf("\n");
    uint64_t count = 0;
    for (int tag = 0; tag < TAG_COUNT; tag++) count += with_tag(tag, 0) != 0;
    expect("all facets", answer->count == count);
}

static void totals(struct attr_answer *answer) {
    struct attr_totals_told told;
    int64_t sum = 0, least = INT64_MAX, greatest = INT64_MIN;
    uint64_t count = 0;
    for (size_t i = 0; i < hits; i++) {
        int64_t price = now[wanted[i]].price;
        if (price < 0) continue;
        count++;
        sum += price;
        least = price < least ? price : least;
        greatest = price > greatest ? price : greatest;
    }
    must(attr_totals(&reader, PRICE, &told, answer));
    expect("totals", told.count == count && told.high == 0 && (int64_t)told.low == sum);
    expect("the least and the greatest", count ? told.least == least && told.greatest == greatest : !told.least && !told.greatest);
    if (count) printf("%" PRIu64 " prices from %" PRId64 " to %" PRId64 ", %.2f on average\n", count, least, greatest, (double)sum / (double)count);
}

/* What a young customer likes best, of all products. */
static void best(struct attr_answer *answer) {
    static const char text[] = "liked:dot(\"young\":3,\"old\":-1)";
    struct attr_score scores[PAGE];
    static uint32_t all[PRODUCTS];
    size_t count = 0;
    for (uint32_t document = 1; document <= PRODUCTS; document++) if (now[document].there) all[count++] = document;
    qsort(all, count, sizeof *all, by_score);
    must(attr_best(&reader, (const uint8_t *)text, sizeof text - 1, scores, PAGE, answer));
    expect("as many of the best", answer->count == (count < PAGE ? count : PAGE));
    for (size_t i = 0; i < answer->count; i++)
        expect("one of the best", scores[i].document == all[i] && scores[i].score == score(all[i]) && scores[i].exact);
}

/* The tags that begin with g, as a box of suggestions shows them. */
static void suggestions(struct attr_answer *answer) {
    static const char text[] = "tags:\"g\"*";
    struct attr_group_told group;
    size_t i = 0;
    must(attr_terms(&reader, (const uint8_t *)text, sizeof text - 1, 10, answer));
    for (int tag = 0; tag < TAG_COUNT; tag++) {
        if (TAG[tag][0] != 'g' || !with_tag(tag, 1)) continue;
        expect("a suggestion", i < answer->count && tag_of(i, &group) == tag && group.documents == with_tag(tag, 1));
        printf("%s%s %" PRIu64, i++ ? ", " : "g..: ", TAG[tag], group.documents);
    }
    printf("\n");
    expect("all suggestions", i == answer->count);
}

/* Everything that a page of the shop shows, of one commit. */
static void shop(uint32_t at, const struct product *products) {
    static const char text[] = "or(tags:\"glass\",tags:\"garden\")";
    struct attr_answer answer;
    now = products;
    hits = 0;
    for (uint32_t document = 1; document <= PRODUCTS; document++)
        if (now[document].there && now[document].tags & (1u << 2 | 1u << 3)) wanted[hits++] = document; /* garden, glass */
    must(attr_ask(&reader, (const uint8_t *)text, sizeof text - 1, &answer));
    expect("hits", answer.count == hits && answer.commit == at);
    page(0, &answer);
    page(1, &answer);
    page(hits / PAGE + 1, &answer);
    facets(&answer);
    totals(&answer);
    best(&answer);
    suggestions(&answer);
    expect("one commit", answer.commit == at);
}

int main(void) {
    const char *attributes = "price:single:long,tags:array:string,liked:weightedset:string";
    const struct attr_sizes sizes = {.buffers = 256, .words = 8192, .readers = 1};
    static struct product before[PRODUCTS + 1];
    struct attr_answer held;
    uint64_t place;
    must(attr_open((const uint8_t *)attributes, strlen(attributes), &sizes, &engine.at, &place));
    must(attr_reader_open(&engine, &reader.at));
    for (uint32_t document = 1; document <= PRODUCTS; document++) put(document);
    commit();
    memcpy(before, table, sizeof table);
    must(attr_hold(&reader, &held));
    for (int i = 0; i < 10; i++) {
        for (int k = 0; k < 100; k++) put(1 + dice(PRODUCTS));
        commit();
    }
    shop(held.commit, before);
    must(attr_release(&reader));
    shop(held.commit + 10, table);
    attr_reader_close(reader);
    attr_close(engine);
    printf("catalogue: every answer right, at a commit that was held and at the last one\n");
    return 0;
}
