/* Guards of libvattr, for bench/guard: each reader takes a guard by attr_hold and gives it back by attr_release, so many times; or, beside a
 * writer that makes so many commits, until the last one is made. Prints how many guards were taken. */
#include "attr.h"
#include <pthread.h>
#include <stdatomic.h>
#include <stdio.h>
#include <stdlib.h>

enum { MOST = 64 };

static attr_engine engine;
static attr_reader readers[MOST];
static unsigned long loops, commits, counts[MOST];
static atomic_int done;

static void must(int32_t code) { if (code) { fprintf(stderr, "guard: code %d\n", code); exit(1); } }

static void *take(void *at) {
    size_t which = (size_t)at;
    unsigned long count = 0;
    struct attr_answer answer;
    while (commits ? !atomic_load(&done) : count < loops) {
        must(attr_hold(&readers[which], &answer));
        must(attr_release(&readers[which]));
        count++;
    }
    counts[which] = count;
    return NULL;
}

int main(int given, char **words) {
    if (given != 4) { fprintf(stderr, "use: guard READERS LOOPS COMMITS\n"); return 2; }
    size_t many = (size_t)atoi(words[1]);
    loops = strtoul(words[2], NULL, 10);
    commits = strtoul(words[3], NULL, 10);
    struct attr_sizes sizes = {8, 8192, MOST, 0, 0};
    struct attr_told told;
    uint64_t place;
    pthread_t threads[MOST];
    unsigned long sum = 0;
    must(attr_open((const uint8_t *)"n:single:long", 13, &sizes, &engine.at, &place));
    for (size_t at = 0; at < many; at++) must(attr_reader_open(&engine, &readers[at].at));
    for (size_t at = 0; at < many; at++) pthread_create(&threads[at], NULL, take, (void *)at);
    for (unsigned long number = 0; number < commits; number++) must(attr_commit(&engine, &told));
    atomic_store(&done, 1);
    for (size_t at = 0; at < many; at++) {
        pthread_join(threads[at], NULL);
        sum += counts[at];
        attr_reader_close(readers[at]);
    }
    attr_close(engine);
    printf("%lu\n", sum);
    return 0;
}
