/* Every call of attr.h that takes bytes, as libFuzzer wants it. An input is a byte that picks the attributes, and calls one after another:
   a byte that picks the call, two bytes of length, and the bytes. Beside what the sanitizer sees, each answer is held against others:
   counts against copies, the order of documents, a save against the save of what was loaded from it (but for its operations), what is asked
   over an answer (its documents by value, numbers, totals, groups, best scores, terms) against each other, and each code against those that
   the call may return. */
#include "attr.h"
#include <stdio.h>
#include <stdlib.h>
#include <string.h>

#define MUST(holds) ((holds) ? (void)0 : (fprintf(stderr, "fuzz: not so: %s (line %d)\n", #holds, __LINE__), abort()))

static const char *const names[8] = {"a:single:long", "a:single:string", "a:array:long", "a:array:string", "a:weightedset:long",
                                     "a:weightedset:string",
                                     "a:single:long,b:array:string,c:weightedset:string", "a:weightedset:long,b:single:string"};
static const struct attr_sizes small = {5, 8192, 2, 0, 0}, dense = {5, 8192, 2, 0, 1}, wide = {6, 8192, 2, 1, 1};
enum { MOST = 1 << 16 };
static uint32_t hits[MOST];
static struct attr_score scores[MOST], best[MOST];
static uint32_t ranked[MOST], listed[MOST];
static int64_t numbers[MOST];
static uint8_t present[MOST];
static uint8_t saved[1 << 20], again[1 << 20];

static size_t save_of(attr_reader *reader, uint8_t *into) {
    struct attr_answer answer;
    int32_t code = attr_save(reader, &answer);
    MUST(code == ATTR_OK || code == ATTR_MEMORY);
    MUST(answer.count <= sizeof saved && attr_saved(reader, 0, into, sizeof saved) == answer.count);
    return (size_t)answer.count;
}

/* Groups: by value they ascend; by count no one has more than the one before. Returns how many documents all of them have. */
static uint64_t groups(attr_reader *reader, uint32_t field, uint32_t by_count, size_t count, size_t *found) {
    struct attr_answer answer;
    struct attr_group_told group, last = {0, 0, 0, 0, 0};
    uint64_t all = 0;
    uint8_t text[1024];
    MUST(attr_group(reader, field, by_count, SIZE_MAX, &answer) == ATTR_OK);
    for (size_t i = 0; i < answer.count; i++, last = group) {
        MUST(attr_group_at(reader, i, &group) == ATTR_OK && group.documents > 0 && group.documents <= count && group.is_text <= 1 && !group.zero);
        MUST(group.is_text ? !group.number : !group.length);
        MUST(attr_group_text(reader, i, text, sizeof text) == group.length);
        if (i && by_count) MUST(group.documents <= last.documents);
        if (i && !by_count && !group.is_text) MUST(group.number > last.number);
        all += group.documents;
    }
    MUST(attr_group_at(reader, answer.count, &group) == ATTR_BOUNDS && !group.documents);
    *found = (size_t)answer.count;
    return all;
}

/* What is asked over the documents of the answer, which stand in hits. */
static void over(attr_reader *reader, uint32_t field, size_t count) {
    struct attr_answer answer;
    struct attr_totals_told totals;
    uint64_t sum = 0, wanted = 0, low = 0, many = 0;
    size_t by_value, by_count;
    if (attr_sort(reader, field, 0, 0, ranked, MOST, &answer) == ATTR_BOUNDS) return;
    MUST(answer.count == count);
    for (size_t i = 0; i < count; i++) sum += ranked[i], wanted += hits[i];
    MUST(sum == wanted);
    MUST(attr_longs(reader, field, ranked, count, numbers, count, present, count, &answer) == ATTR_OK);
    for (size_t i = 0; i < count; i++) {
        low += (uint64_t)numbers[i];
        many += present[i];
        MUST(present[i] <= 1 && (present[i] || !numbers[i]));
        if (i && present[i] && present[i - 1]) MUST(numbers[i - 1] < numbers[i] || (numbers[i - 1] == numbers[i] && ranked[i - 1] < ranked[i]));
    }
    MUST(answer.count == many);
    MUST(attr_totals(reader, field, &totals, &answer) == ATTR_OK && totals.count == many && totals.low == low);
    if (many) MUST(totals.least == numbers[0] && totals.greatest == numbers[many - 1]);
    MUST(attr_sort(reader, field, 1, count / 2, listed, 3, &answer) == ATTR_OK && answer.count == (count - count / 2 < 3 ? count - count / 2 : 3));
    MUST(groups(reader, field, 0, count, &by_value) == groups(reader, field, 1, count, &by_count) && by_value == by_count);
}

/* The best scores of a text against all of them, and the terms of a text. */
static void best_of(attr_reader *reader, const uint8_t *text, size_t length, size_t scored) {
    struct attr_answer answer;
    MUST(attr_best(reader, text, length, best, MOST, &answer) == ATTR_OK && answer.count == scored);
    uint64_t sum = 0;
    for (size_t i = 0; i < scored; i++) {
        sum += best[i].document - scores[i].document;
        if (i) MUST(best[i - 1].score > best[i].score || (best[i - 1].score == best[i].score && (!best[i].exact || best[i - 1].document < best[i].document)));
    }
    MUST(sum == 0);
    int32_t code = attr_terms(reader, text, length, 50, &answer);
    MUST(code == ATTR_OK || (code == ATTR_SYNTAX && !answer.place));
    struct attr_group_told group;
    if (code == ATTR_OK) MUST(answer.count <= 50 && attr_group_at(reader, answer.count, &group) == ATTR_BOUNDS);
}

static void ask(attr_reader *reader, const uint8_t *text, size_t length) {
    struct attr_answer answer, counted;
    int32_t code = attr_ask(reader, text, length, &answer), same = attr_count(reader, text, length, &counted);
    MUST(code == same && (code == ATTR_OK || code == ATTR_NO_TEXT || (code >= ATTR_SYNTAX && code <= ATTR_TOO_DEEP)));
    if (code != ATTR_OK) { MUST(answer.place <= length && answer.place == counted.place); return; }
    MUST(answer.count == counted.count && answer.count < MOST && answer.commit == counted.commit);
    size_t count = attr_hits(reader, 0, hits, MOST);
    MUST(count == answer.count);
    for (size_t i = 1; i < count; i++) MUST(hits[i - 1] < hits[i]);
    size_t scored = attr_scores(reader, 0, scores, MOST);
    MUST(scored == 0 || scored == count);
    for (size_t i = 0; i < scored; i++) MUST(scores[i].document == hits[i] && scores[i].exact <= 1);
    best_of(reader, text, length, scored);
    for (uint32_t field = 0; field < 4; field++) over(reader, field, count);
    MUST(attr_hits(reader, 0, listed, MOST) == count && !memcmp(listed, hits, count * sizeof *hits));
    MUST(attr_documents(reader, 1 + (uint32_t)length % 50, listed, MOST, &answer) == ATTR_OK);
    for (size_t i = 1; i < answer.count; i++) MUST(listed[i - 1] < listed[i]);
    if (count > 1) MUST(attr_hits(reader, 1, hits, 1) == 1 && hits[0] < hits[1] + 1);
    for (size_t i = 0; i < count && i < 2; i++) {
        struct attr_answer items;
        MUST(attr_items(reader, hits[i], 0, &items) == ATTR_OK && items.count <= 1023);
        for (size_t k = 0; k <= items.count && k < 8; k++) {
            struct attr_item_told item;
            int32_t told = attr_item(reader, k, &item);
            MUST(told == (k < items.count ? ATTR_OK : ATTR_BOUNDS));
            if (!told && item.is_text) MUST(attr_item_text(reader, k, again, sizeof again) == item.length && item.length <= 1024);
        }
    }
}

/* An engine of the same attributes beside the first, made when it is first used. */
static attr_engine *second(attr_engine *other, const char *attributes) {
    uint64_t place;
    if (!other->at) MUST(attr_open((const uint8_t *)attributes, strlen(attributes), &small, &other->at, &place) == ATTR_OK);
    return other;
}

/* Many puts, or removes, by a rule of six bytes, so that a short input has lists and trees of each size, and compactions. */
static void bulk(attr_engine *engine, const char *attributes, const uint8_t *rule) {
    static char lines[1 << 16];
    const char *kind = strchr(attributes, ':') + 1, *type = strchr(kind, ':') + 1;
    const char *quote = *type == 's' || *kind == 'w' ? "\"" : "";
    struct attr_told told;
    for (unsigned i = 0, size = 0; i < rule[0] * 2u; i++) {
        unsigned document = 1 + (rule[1] * 16u + i * (1u + rule[2])) % 5000, value = i * (1u + rule[3]) % (1u + rule[4] * 4u);
        char *at = lines + size;
        size_t room = sizeof lines - size;
        if (rule[5] % 4 == 0) size += (unsigned)snprintf(at, room, "{\"remove\":\"id:a:b::%u\"}\n", document);
        else {
            const char *form = *kind == 's' ? "%s%u%s" : *kind == 'a' ? "[%s%u%s,%s0%s]" : "{%s%u%s:3}";
            char items[64];
            if (*kind == 'a' && *type == 'l') form = "[%s%u%s,%s7%s]";
            snprintf(items, sizeof items, form, quote, value, quote, quote, quote);
            size += (unsigned)snprintf(at, room, "{\"put\":\"id:a:b::%u\",\"fields\":{\"a\":%s}}\n", document, items);
        }
        if (size < sizeof lines - 256 && i + 1 < rule[0] * 2u) continue;
        int32_t code = attr_feed(engine, (const uint8_t *)lines, size, &told);
        MUST(code == ATTR_OK || code == ATTR_FULL || code == ATTR_BAD_VALUE || code == ATTR_WRONG_TYPE || code == ATTR_UNSUPPORTED);
        if (code != ATTR_OK) return;
        size = 0;
    }
}

static void one(attr_engine *engine, attr_reader *reader, attr_engine *other, const char *names_of_other, unsigned call,
                const uint8_t *bytes, size_t length) {
    struct attr_told told;
    struct attr_answer answer;
    int32_t code;
    switch (call % 9) {
    case 0:
    case 1:
        for (size_t from = 0; from <= length;) {
            code = attr_feed(engine, bytes + from, length - from, &told);
            MUST(code == ATTR_OK || code == ATTR_FULL || code == ATTR_NO_TEXT || (code >= ATTR_NOT_JSON && code <= ATTR_LINE_TOO_LONG));
            if (code == ATTR_OK || code == ATTR_FULL) break;
            MUST(told.line > 0 && told.place <= told.next && told.next <= length - from);
            if (told.next == 0) break;
            from += told.next;
        }
        break;
    case 2:
    case 3: ask(reader, bytes, length); break;
    case 4:
        code = attr_load(length % 2 ? engine : second(other, names_of_other), bytes, length, &told);
        MUST(code == ATTR_OK || code == ATTR_FULL || code == ATTR_BAD_SAVE || code == ATTR_OTHER_SAVE);
        MUST(code != ATTR_BAD_SAVE || told.place <= length);
        break;
    case 5:
        code = attr_commit(engine, &told);
        MUST(code == ATTR_OK || code == ATTR_FULL);
        code = attr_compact(engine, length % 300, &told);
        MUST(code == ATTR_OK || code == ATTR_FULL);
        break;
    case 6:
        if (length % 2) attr_hold(reader, &answer);
        else attr_release(reader);
        break;
    case 8:
        if (length >= 6) bulk(engine, names_of_other, bytes);
        break;
    default: {
        size_t count = save_of(reader, saved);
        attr_engine copy;
        attr_reader its;
        uint64_t place;
        if (count > 4096) break;
        MUST(count >= 14 && saved[4] <= 2 && saved[5] <= 1);
        /* an engine of the kind and value type that stand in the save */
        const char *attributes = names[2 * saved[4] + saved[5]];
        MUST(attr_open((const uint8_t *)attributes, strlen(attributes), &small, &copy.at, &place) == ATTR_OK);
        MUST(attr_reader_open(&copy, &its.at) == ATTR_OK);
        code = attr_load(&copy, saved, count, &told);
        MUST(code == ATTR_OK || code == ATTR_FULL);
        /* (the save of what was loaded has other operations, in bytes 6 to 9) */
        if (code == ATTR_OK && attr_commit(&copy, &told) == ATTR_OK)
            MUST(save_of(&its, again) == count && memcmp(saved, again, 6) == 0 && memcmp(saved + 10, again + 10, count - 10) == 0);
        attr_reader_close(its);
        attr_close(copy);
    }
    }
}

int LLVMFuzzerTestOneInput(const uint8_t *data, size_t size) {
    uint64_t place;
    attr_engine engine, other;
    attr_reader reader;
    if (size < 4) return 0;
    const char *attributes = names[data[0] % 8];
    const struct attr_sizes *sizes = data[0] / 8 % 4 == 0 ? &small : data[0] / 8 % 4 == 1 ? &wide : &dense;
    /* one input in 32 is a text of attributes, and what it opens goes on */
    if (data[0] >= 248) {
        size_t length = data[1] < size - 2 ? data[1] : size - 2;
        int32_t code = attr_open(data + 2, length, sizes, &engine.at, &place);
        MUST(code == ATTR_OK || code == ATTR_ATTRIBUTES || code == ATTR_NO_TEXT);
        if (code != ATTR_OK) return 0;
        data += 1 + length, size -= 1 + length;
    } else MUST(attr_open((const uint8_t *)attributes, strlen(attributes), sizes, &engine.at, &place) == ATTR_OK);
    other.at = NULL;
    MUST(attr_reader_open(&engine, &reader.at) == ATTR_OK);
    for (size_t at = 1; at + 3 <= size;) {
        size_t length = (size_t)data[at + 1] | (size_t)(data[at + 2] & 15) << 8;
        unsigned call = data[at];
        at += 3;
        if (length > size - at) length = size - at;
        /* (a copy of its own, so that a byte behind the end is seen) */
        uint8_t *bytes = malloc(length ? length : 1);
        memcpy(bytes, data + at, length);
        one(&engine, &reader, &other, attributes, call, bytes, length);
        free(bytes);
        at += length;
    }
    if (size % 2) MUST(attr_reader_return(&engine, reader) == ATTR_OK);
    else attr_reader_close(reader);
    if (other.at) attr_close(other);
    attr_close(engine);
    return 0;
}
