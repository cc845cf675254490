/* What an ask costs beside its hits: asks of an engine without documents, whose query has nothing to look up. A text of one number is
 * read, a guard is taken and given back, and an answer is kept. The second figure is under a guard that is held, the third the copy of
 * ten hits. Each is the best of so many rounds, in nanoseconds of processor time. */
#include "attr.h"
#include <stdio.h>
#include <stdlib.h>
#include <string.h>
#include <time.h>

enum { ASKS = 20000 };

static attr_engine engine;
static attr_reader reader;

static void must(int32_t code) { if (code) { fprintf(stderr, "own: code %d\n", code); exit(1); } }

static double now(void) {
    struct timespec t;
    clock_gettime(CLOCK_THREAD_CPUTIME_ID, &t);
    return (double)t.tv_sec * 1e9 + (double)t.tv_nsec;
}

static void ask(void) {
    struct attr_answer answer;
    must(attr_ask(&reader, (const uint8_t *)"77", 2, &answer));
}

static void copy(void) {
    uint32_t hits[10];
    if (attr_hits(&reader, 0, hits, 10) != 10) exit(1);
}

static double one(void (*call)(void)) {
    double begin = now();
    for (int i = 0; i < ASKS; i++) call();
    return (now() - begin) / ASKS;
}

static double best(void (*call)(void), int rounds) {
    double least = 1e12;
    for (int i = 0; i < rounds; i++) {
        double took = one(call);
        if (took < least) least = took;
    }
    return least;
}

int main(int count, char **words) {
    int rounds = count > 1 ? atoi(words[1]) : 50;
    struct attr_sizes sizes = {64, 8192, 1, 0, 0};
    struct attr_told told;
    struct attr_answer answer;
    uint64_t place;
    char line[64];
    must(attr_open((const uint8_t *)"n:single:long", 13, &sizes, &engine.at, &place));
    must(attr_reader_open(&engine, &reader.at));
    must(attr_commit(&engine, &told));
    double free_ask = best(ask, rounds);
    must(attr_hold(&reader, &answer));
    double held_ask = best(ask, rounds);
    must(attr_release(&reader));
    for (int i = 1; i <= 10; i++) {
        size_t length = (size_t)sprintf(line, "{\"put\":\"id:n:t::%d\",\"fields\":{\"n\":77}}\n", i);
        must(attr_feed(&engine, (const uint8_t *)line, length, &told));
    }
    must(attr_commit(&engine, &told));
    ask();
    printf("%.0f %.0f %.0f\n", free_ask, held_ask, best(copy, rounds));
    return 0;
}
