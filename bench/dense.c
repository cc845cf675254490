/* Bit vectors of libvattr, for bench/dense: an And of two values that a quarter of the documents have each, or a load without a frequent value.
 * DENSE 1 wants bit vectors; with ROUNDS or APPLIES 0 only the rest is done. Prints the sum of all counts, or how many operations changed
 * something. */
#include "attr.h"
#include <stdio.h>
#include <stdlib.h>
#include <string.h>

static attr_engine engine;
static attr_reader reader;
static struct attr_told told;
static uint64_t state = 88172645463325252u;

static void must(int32_t code) { if (code) { fprintf(stderr, "dense: code %d\n", code); exit(1); } }

static void begin(const char *attributes, int dense) {
    struct attr_sizes sizes = {1000, 8192, 1, 0, (uint32_t)dense};
    uint64_t place;
    must(attr_open((const uint8_t *)attributes, strlen(attributes), &sizes, &engine.at, &place));
    must(attr_reader_open(&engine, &reader.at));
}

static void feed(const char *line, int applies) {
    if (applies) must(attr_feed(&engine, (const uint8_t *)line, strlen(line), &told));
}

/* Documents with two numbers each, one of 4 and another of 4. */
static void fill(int documents) {
    char line[128];
    for (int number = 1; number <= documents; number++) {
        sprintf(line, "{\"put\":\"id:n:t::%d\",\"fields\":{\"f\":[%d,%d]}}\n", number, number % 4, number / 4 % 4 + 10);
        feed(line, 1);
        if (number % 1000 == 0) must(attr_commit(&engine, &told));
    }
    must(attr_commit(&engine, &told));
}

static void ands(int documents, int rounds, int dense) {
    struct attr_answer answer;
    char text[32];
    uint64_t sum = 0;
    begin("f:array:long", dense);
    fill(documents);
    for (int round = 0; round < rounds; round++) {
        sprintf(text, "and(%d,%d)", round % 4, round / 4 % 4 + 10);
        must(attr_count(&reader, (const uint8_t *)text, strlen(text), &answer));
        sum += answer.count;
    }
    printf("%llu\n", (unsigned long long)sum);
}

static uint32_t below(uint32_t limit) {
    state ^= state << 13;
    state ^= state >> 7;
    state ^= state << 17;
    return (uint32_t)(state / 65536 % limit);
}

/* One item, which begins with its comma where it is not the first. */
static void item(char *line, int at, int is_text, int is_weighted, uint32_t most) {
    uint64_t number = below(most) * 0x9E3779B97F4A7C15u;
    char *end = line + strlen(line);
    if (at) *end++ = ',';
    if (is_text) sprintf(end, "\"%020llu\"", (unsigned long long)number);
    else sprintf(end, is_weighted ? "\"%lld\"" : "%lld", (long long)number);
    if (is_weighted) sprintf(line + strlen(line), ":%d", at + 1);
}

static void load(const char *attribute, uint32_t operations, int applies, int dense) {
    int is_single = strstr(attribute, "single") != NULL, is_text = strstr(attribute, "string") != NULL, is_weighted = strstr(attribute, "weighted") != NULL;
    uint32_t skipped = 0;
    begin(attribute, dense);
    for (uint32_t number = 0; number < operations; number++) {
        char line[256];
        sprintf(line, "{\"%s\":\"id:n:t::%u\"", number % 8 == 7 ? "remove" : "put", below(operations / 2) + 1);
        if (number % 8 != 7) {
            strcat(line, is_single ? ",\"fields\":{\"f\":" : is_weighted ? ",\"fields\":{\"f\":{" : ",\"fields\":{\"f\":[");
            for (int at = 0; at < (is_single ? 1 : 3); at++) item(line, at, is_text, is_weighted, operations / 2);
            strcat(line, is_single ? "}" : is_weighted ? "}}" : "]}");
        }
        strcat(line, "}\n");
        feed(line, applies);
        skipped += told.skipped;
        if (applies && number % 100 == 99) must(attr_commit(&engine, &told));
    }
    printf("%u\n", operations - skipped);
}

int main(int count, char **words) {
    if (count == 5 && strcmp(words[1], "and") == 0) {
        ands(atoi(words[2]), atoi(words[3]), atoi(words[4]));
    } else if (count == 5) {
        load(words[1], (uint32_t)atoi(words[2]), atoi(words[3]), atoi(words[4]));
    } else {
        fprintf(stderr, "use: dense and DOCUMENTS ROUNDS DENSE | NAME:KIND:TYPE OPERATIONS APPLIES DENSE\n");
        return 2;
    }
    attr_reader_close(reader);
    attr_close(engine);
    return 0;
}
