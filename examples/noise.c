/* noise COUNT: random bytes as lines and as queries, from nothing and by changes of good ones. Every call returns a code, and what the
 * engine answers in between stays right. */
#include "attr.h"
#include <stdio.h>
#include <stdlib.h>
#include <string.h>

static uint64_t state = 88172645463325252u;

static uint64_t next(void) {
    state ^= state << 13;
    state ^= state >> 7;
    state ^= state << 17;
    return state;
}

/* Bytes from nothing, or a good text with a few bytes changed, doubled or left out. */
static size_t noise(char *to, size_t room, const char *const *good, size_t count) {
    size_t n = 0;
    if (next() % 4 == 0) {
        n = next() % 64;
        for (size_t i = 0; i < n; i++) to[i] = (char)next();
        return n;
    }
    const char *text = good[next() % count];
    for (size_t i = 0; text[i] && n + 2 < room; i++) {
        uint64_t r = next() % 40;
        if (r == 0) continue;
        to[n++] = r == 1 ? (char)next() : r == 2 ? "{}[]\",:()0-;"[next() % 12] : text[i];
        if (r == 3) to[n++] = text[i];
    }
    return n;
}

int main(int count, char **words) {
    static const char *const lines[] = {
        "{\"put\":\"id:n:t::5\",\"fields\":{\"n\":7,\"tags\":{\"a\":1,\"b\":2}}}", "{\"update\":\"id:n:t::5\",\"fields\":{\"n\":{\"increment\":1}}}",
        "{\"update\":\"id:n:t::6\",\"create\":true,\"fields\":{\"tags\":{\"add\":{\"c\":3}}}}", "{\"update\":\"id:n:t::5\",\"fields\":{\"tags\":{\"match\":{\"element\":\"a\",\"increment\":1}}}}",
        "{\"remove\":\"id:n:t::6\"}", "{\"put\":\"id:n:t::1048575\",\"fields\":{\"n\":-9223372036854775808,\"tags\":{\"\\u00e9\":-5}}}", "   "};
    static const char *const queries[] = {"[1;9]", "or(1,2,<3)", "and(tags:\"a\",n:>0)", "tags:\"a\"*", "tags:dot(\"a\":1,\"b\":-2)", "[;]"};
    unsigned long total = count > 1 ? strtoul(words[1], NULL, 10) : 20000, codes[40] = {0};
    struct attr_sizes sizes = {512, 8192, 1, 0, 0};
    attr_engine engine;
    attr_reader reader;
    uint64_t place;
    struct attr_told told, step;
    struct attr_answer answer;
    char text[1024];
    uint32_t hits[16];
    const char *attributes = "n:single:long,tags:weightedset:string";
    if (attr_open((const uint8_t *)attributes, strlen(attributes), &sizes, &engine.at, &place) || attr_reader_open(&engine, &reader.at)) return 1;
    const char *marker = "{\"put\":\"id:n:t::99\",\"fields\":{\"n\":123456789,\"tags\":null}}";
    for (unsigned long i = 0; i < total; i++) {
        size_t n = noise(text, sizeof text, lines, sizeof lines / sizeof *lines);
        int32_t code = attr_feed(&engine, (const uint8_t *)text, n, &told);
        if (code < 0 || code >= 40 || told.next > n || told.place > told.next) return 1;
        codes[code]++;
        if (code == ATTR_FULL && attr_compact(&engine, 256, &step) > ATTR_FULL) return 1;
        n = noise(text, sizeof text, queries, sizeof queries / sizeof *queries);
        code = attr_ask(&reader, (const uint8_t *)text, n, &answer);
        if (code < 0 || code >= 40 || answer.place > n) return 1;
        codes[code]++;
        if (code == ATTR_OK && attr_hits(&reader, 0, hits, 16) > answer.count) return 1;
        if (i % 100 == 99) {
            if (attr_feed(&engine, (const uint8_t *)marker, strlen(marker), &told) || attr_commit(&engine, &told)) return 1;
            int32_t code2 = attr_compact(&engine, 256, &step);
            if (code2 != ATTR_OK && code2 != ATTR_FULL) return 1;
            if (attr_ask(&reader, (const uint8_t *)"and(123456789,[0;])", 19, &answer) || answer.commit != told.commit) return 1;
            size_t k = attr_hits(&reader, 0, hits, 16), there = 0;
            for (size_t j = 0; j < k; j++) there |= hits[j] == 99;
            if (!there && answer.count <= 16) return 1;
        }
    }
    printf("noise: %lu lines and as many queries;", total);
    for (int code = 0; code < 40; code++) if (codes[code]) printf(" %d:%lu", code, codes[code]);
    printf("\n");
    attr_reader_close(reader);
    attr_close(engine);
    return 0;
}
