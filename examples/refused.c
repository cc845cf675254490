/* refused: calls whose allocations are refused, each once. A refused call says so, the answer and the groups that the reader keeps stay, and
 * the same call is right afterwards. The linker gives the library these allocators in place of malloc's (examples/Makefile, --wrap). */
#include "attr.h"
#include <stdio.h>
#include <stdlib.h>
#include <string.h>

enum { DOCUMENTS = 400, LINE = 128 };

/* ---- the allocators: with refuse above 0 the allocation of that number is refused ---- */

void *__real_malloc(size_t size);
void *__real_realloc(void *block, size_t size);
int __real_posix_memalign(void **block, size_t align, size_t size);

static long made, refuse;

static int is_refused(void) { return ++made == refuse; }

void *__wrap_malloc(size_t size) { return is_refused() ? NULL : __real_malloc(size); }
void *__wrap_realloc(void *block, size_t size) { return is_refused() ? NULL : __real_realloc(block, size); }
int __wrap_posix_memalign(void **block, size_t align, size_t size) { return is_refused() ? 12 : __real_posix_memalign(block, align, size); }

/* ---- the calls, each with all that it gives ---- */

static attr_reader reader;

struct given {
    struct attr_answer answer;
    uint32_t documents[DOCUMENTS];
    struct attr_score scores[DOCUMENTS];
    struct attr_totals_told totals;
    int64_t numbers[DOCUMENTS];
    uint8_t present[DOCUMENTS];
};

static uint32_t asked[DOCUMENTS];

#define TEXT(text) (const uint8_t *)(text), sizeof(text) - 1

static int32_t sort_up(struct given *to) { return attr_sort(&reader, 0, 0, 5, to->documents, 50, &to->answer); }
static int32_t sort_down(struct given *to) { return attr_sort(&reader, 1, 1, 0, to->documents, DOCUMENTS, &to->answer); }
static int32_t totals(struct given *to) { return attr_totals(&reader, 0, &to->totals, &to->answer); }
static int32_t best(struct given *to) { return attr_best(&reader, TEXT("liked:dot(\"a\":3,\"b\":-1)"), to->scores, 100, &to->answer); }
static int32_t longs(struct given *to) {
    return attr_longs(&reader, 0, asked, DOCUMENTS, to->numbers, DOCUMENTS, to->present, DOCUMENTS, &to->answer);
}
static int32_t documents(struct given *to) { return attr_documents(&reader, 17, to->documents, DOCUMENTS, &to->answer); }
static int32_t by_value(struct given *to) { return attr_group(&reader, 1, 0, 100, &to->answer); }
static int32_t by_count(struct given *to) { return attr_group(&reader, 1, 1, 10, &to->answer); }
static int32_t terms(struct given *to) { return attr_terms(&reader, TEXT("tags:\"t1\"*"), 100, &to->answer); }

static const struct { const char *name; int32_t (*call)(struct given *); int makes_groups; } calls[] = {
    {"sort_up", sort_up, 0}, {"sort_down", sort_down, 0}, {"totals", totals, 0}, {"best", best, 0}, {"longs", longs, 0},
    {"documents", documents, 0}, {"by_value", by_value, 1}, {"by_count", by_count, 1}, {"terms", terms, 1}};

static void expect(const char *what, const char *name, int holds) {
    if (holds) return;
    fprintf(stderr, "refused: %s: %s, allocation %ld\n", name, what, refuse);
    exit(1);
}

/* The kept groups as one number, and the kept answer. */
static uint64_t kept(void) {
    static uint32_t hits[DOCUMENTS];
    struct attr_group_told group;
    uint8_t text[16];
    uint64_t sum = 14695981039346656037u;
    size_t count = attr_hits(&reader, 0, hits, DOCUMENTS);
    for (size_t i = 0; i < count; i++) sum = (sum ^ hits[i]) * 1099511628211u;
    for (size_t i = 0; attr_group_at(&reader, i, &group) == ATTR_OK; i++) {
        size_t n = attr_group_text(&reader, i, text, sizeof text);
        for (size_t k = 0; k < n; k++) sum = (sum ^ text[k]) * 1099511628211u;
        sum = (sum ^ (uint64_t)group.number ^ group.documents) * 1099511628211u;
    }
    return sum;
}

/* Makes a call with each of its allocations refused once, and again without a refusal. Returns how many were refused. */
static long refusals_of(size_t number, uint64_t *groups) {
    static struct given wanted, found;
    const char *name = calls[number].name;
    memset(&wanted, 0, sizeof wanted);
    refuse = 0;
    expect("the call", name, calls[number].call(&wanted) == ATTR_OK && wanted.answer.count > 0);
    uint64_t after = kept();
    if (!calls[number].makes_groups) expect("the groups stay", name, after == *groups);
    /* (another kind of groups is kept meanwhile, so that it is seen when they change) */
    struct attr_answer answer;
    expect("other groups", name, attr_group(&reader, 0, 1, 7, &answer) == ATTR_OK);
    uint64_t before = kept();
    long refused = 0;
    for (refuse = 1;; refuse++) {
        memset(&found, 0, sizeof found);
        made = 0;
        int32_t code = calls[number].call(&found);
        if (made < refuse) {
            expect("the last call", name, code == ATTR_OK);
            break;
        }
        expect("a refusal", name, code == ATTR_MEMORY || code == ATTR_OK);
        refused += code == ATTR_MEMORY;
        if (code == ATTR_OK) continue;
        expect("what is kept stays", name, kept() == before);
        expect("no totals", name, !found.totals.count && !found.totals.low && !found.totals.high);
    }
    refuse = 0;
    expect("as without refusals", name, !memcmp(&wanted, &found, sizeof wanted));
    *groups = kept();
    if (calls[number].makes_groups) expect("the same groups", name, *groups == after);
    return refused;
}

int main(void) {
    const struct attr_sizes sizes = {.buffers = 128, .words = 8192, .readers = 1};
    static const char attributes[] = "price:single:long,tags:array:string,liked:weightedset:string";
    attr_engine engine;
    uint64_t place, groups;
    struct attr_told told;
    struct attr_answer answer;
    char line[LINE];
    if (attr_open(TEXT(attributes), &sizes, &engine.at, &place) || attr_reader_open(&engine, &reader.at)) return 1;
    for (uint32_t i = 1; i <= DOCUMENTS; i++) {
        int n = sprintf(line, "{\"put\":\"id:a:b::%u\",\"fields\":{\"price\":%u,\"tags\":[\"t%u\",\"x\"],\"liked\":{\"a\":%u,\"b\":%u}}}\n", i, i * 7919 % 1000, i % 50,
            i % 13, i % 29);
        if (attr_feed(&engine, (const uint8_t *)line, (size_t)n, &told)) return 1;
        asked[i - 1] = DOCUMENTS - i + 1;
    }
    if (attr_commit(&engine, &told)) return 1;
    printf("refused:");
    for (int held = 0; held < 2; held++) {
        if (held && attr_hold(&reader, &answer)) return 1;
        if (attr_ask(&reader, TEXT("[0;800]"), &answer) || attr_group(&reader, 0, 1, 7, &answer)) return 1;
        groups = kept();
        for (size_t number = 0; number < sizeof calls / sizeof *calls; number++) {
            long refused = refusals_of(number, &groups);
            if (!held) printf(" %s %ld", calls[number].name, refused);
        }
    }
    printf("\nrefused: each as wanted\n");
    attr_reader_close(reader);
    attr_close(engine);
    return 0;
}
