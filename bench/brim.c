/* One store of libvattr, filled until a put is refused and then brought back to a tenth of its documents: bench/brim runs it for many
 * stores. It makes room as docs/LIBRARY.md says. It prints one line: how many documents fitted, how many were left in the end, how many
 * were to be left, and whether the reader counts exactly those. */
#include "attr.h"
#include <stdio.h>
#include <stdlib.h>
#include <string.h>

enum { MOST = 400000, LINE = 2048, TRIES = 4, ROUNDS = 400 };

static const char *const shapes[] = {"f:single:long", "f:single:string", "f:array:string", "f:weightedset:string"};

static attr_engine engine;
static attr_reader reader;
static struct attr_told told;
static struct attr_answer answer;
static uint64_t state;
static uint32_t keys, holds, commits;
static uint8_t there[MOST + 1];

static uint32_t below(uint32_t n) {
    state += 0x9e3779b97f4a7c15u;
    uint64_t x = (state ^ (state >> 30)) * 0xbf58476d1ce4e5b9u;
    x = (x ^ (x >> 27)) * 0x94d049bb133111ebu;
    return (uint32_t)((x ^ (x >> 31)) % n);
}

static int32_t feed(const char *line) { return attr_feed(&engine, (const uint8_t *)line, strlen(line), &told); }

/* A put of a document of the shape: up to five of 5,000 words, or one of 5,000 numbers or words. */
static void put_line(char *into, uint32_t shape, uint32_t document) {
    int n = sprintf(into, "{\"put\":\"id:n:t::%u\",\"fields\":{\"f\":", document);
    if (shape == 0) n += sprintf(into + n, "%u", below(5000));
    if (shape == 1) n += sprintf(into + n, "\"word %u\"", below(5000));
    if (shape > 1) {
        uint32_t items = below(6);
        n += sprintf(into + n, shape == 2 ? "[" : "{");
        for (uint32_t i = 0; i < items; i++) n += sprintf(into + n, shape == 2 ? "%s\"word %u\"" : "%s\"word %u\":1", i ? "," : "", 5 * below(1000) + i);
        n += sprintf(into + n, shape == 2 ? "]" : "}");
    }
    sprintf(into + n, "}}\n");
}

/* Commits, moves the reader's guard on at every 20th commit where it holds one, and compacts. */
static int32_t commit(void) {
    int32_t code = attr_commit(&engine, &told);
    struct attr_told step;
    if (holds && ++commits % 20 == 0) {
        attr_release(&reader);
        attr_hold(&reader, &answer);
    }
    if (keys) attr_compact(&engine, keys, &step);
    return code;
}

/* Makes room: no guard, a commit, a compaction to its end, and a commit more. */
static void make_room(void) {
    struct attr_told step;
    attr_release(&reader);
    attr_commit(&engine, &told);
    for (uint32_t round = 0; round < ROUNDS; round++) {
        int32_t code = attr_compact(&engine, 4096, &step);
        attr_commit(&engine, &told);
        if (code || (!step.keys && !step.finished)) break;
    }
    attr_commit(&engine, &told);
}

/* Gives a line, and again after making room. Returns whether it was applied. */
static int applied(const char *line) {
    for (uint32_t i = 0; i < TRIES; i++) {
        int32_t code = feed(line);
        if (code == ATTR_OK) return 1;
        if (code != ATTR_FULL) { fprintf(stderr, "brim: code %d\n", code); exit(2); }
        make_room();
    }
    return 0;
}

static uint32_t fill(uint32_t shape, uint32_t batch) {
    char line[LINE];
    uint32_t fitted = 0;
    for (uint32_t document = 1; document <= MOST; document++) {
        put_line(line, shape, document);
        if (!applied(line)) break;
        there[fitted = document] = 1;
        if (batch && document % batch == 0) commit();
    }
    commit();
    return fitted;
}

/* Removes nine of ten documents, in an order of its own. Returns how many are left: more than a tenth where the store is stuck. */
static uint32_t drain(uint32_t fitted, uint32_t batch) {
    char line[80];
    uint32_t left = fitted, refused = 0, to = fitted / 10;
    for (uint64_t i = 0; left > to && refused < 100; i++) {
        uint32_t document = 1 + below(fitted);
        while (!there[document]) document = document % fitted + 1;
        sprintf(line, "{\"remove\":\"id:n:t::%u\"}\n", document);
        if (applied(line)) { there[document] = 0; left--; refused = 0; } else { refused++; }
        if (batch && i % batch == 0) commit();
    }
    make_room();
    return left;
}

int main(int count, char **words) {
    if (count != 10) return 2;
    uint32_t n[9];
    for (int i = 0; i < 9; i++) n[i] = (uint32_t)strtoul(words[i + 1], NULL, 10);
    uint32_t shape = n[0], batch = n[4];
    struct attr_sizes sizes = {n[1], 8192, 1, n[2], n[3]};
    uint64_t place;
    keys = n[5];
    holds = n[6];
    state = n[7];
    int drains = (int)n[8];
    if (attr_open((const uint8_t *)shapes[shape], strlen(shapes[shape]), &sizes, &engine.at, &place)) return 2;
    if (attr_reader_open(&engine, &reader.at)) return 2;
    uint32_t fitted = fill(shape, batch), left = drains ? drain(fitted, batch) : fitted;
    struct attr_numbers numbers;
    attr_counts(&engine, &numbers);
    printf("%u %u %u %d %u %u\n", fitted, left, fitted / 10, numbers.committed == numbers.operations, numbers.active, numbers.held);
    attr_release(&reader);
    attr_reader_return(&engine, reader);
    attr_close(engine);
    return 0;
}
