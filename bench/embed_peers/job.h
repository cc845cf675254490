/* The job of bench/embed: documents with one whole number each, a writer that puts them in commits of 100, and readers that ask for the
 * documents of one number and copy them out. Each program prints the operations and the asks that it made, and the seconds of both. */
#ifndef JOB_H
#define JOB_H
#include <pthread.h>
#include <stdatomic.h>
#include <stdint.h>
#include <stdio.h>
#include <stdlib.h>
#include <string.h>
#include <time.h>

enum { BATCH = 100, DOCUMENTS = 50000, NUMBERS = 5000, ROOM = 4096, MOST_READERS = 8 };

static inline uint64_t mixed(uint64_t x) {
    x += 0x9e3779b97f4a7c15u;
    x = (x ^ (x >> 30)) * 0xbf58476d1ce4e5b9u;
    x = (x ^ (x >> 27)) * 0x94d049bb133111ebu;
    return x ^ (x >> 31);
}

/* The first DOCUMENTS puts fill, those behind them change. */
static inline uint32_t document_of(uint64_t i) { return i <= DOCUMENTS ? (uint32_t)i : 1 + (uint32_t)(mixed(i) % DOCUMENTS); }
static inline int64_t number_of(uint64_t i) { return (int64_t)(mixed(i ^ 0xabcdef) % NUMBERS); }

static inline double now(void) {
    struct timespec t;
    clock_gettime(CLOCK_MONOTONIC, &t);
    return (double)t.tv_sec + (double)t.tv_nsec * 1e-9;
}

static atomic_int stop;

/* What a program defines. `reader_new` is called by the writer's thread. */
static void store_open(int readers);
static void store_batch(uint64_t from, uint64_t to);     /* puts from..to, and a commit */
static void *reader_new(void);
static size_t reader_ask(void *reader, int64_t number, uint32_t *into, size_t room);

struct asker { void *reader; uint64_t asks, found, seed; };

static void *askers_run(void *argument) {
    struct asker *asker = argument;
    uint32_t *into = malloc(sizeof *into * ROOM);
    if (!into) exit(1);
    while (!atomic_load_explicit(&stop, memory_order_relaxed)) {
        asker->found += reader_ask(asker->reader, (int64_t)(mixed(asker->seed++) % NUMBERS), into, ROOM);
        asker->asks++;
    }
    free(into);
    return NULL;
}

/* load OPERATIONS | ask READERS SECONDS | mixed READERS SECONDS */
int main(int count, char **words) {
    const char *mode = count > 1 ? words[1] : "load";
    uint64_t first = count > 2 ? strtoull(words[2], NULL, 10) : 100000;
    double seconds = count > 3 ? atof(words[3]) : 1;
    int is_load = !strcmp(mode, "load"), is_mixed = !strcmp(mode, "mixed"), readers = is_load ? 0 : (int)first;
    if (readers > MOST_READERS) return 2;
    store_open(readers);
    uint64_t done = 0, target = is_load ? first : DOCUMENTS, asks = 0, found = 0;
    double begin = now();
    if (!is_load) {
        for (; done < target; done += BATCH) store_batch(done + 1, done + BATCH);
        done = 0;
        begin = now();
    }
    static struct asker askers[MOST_READERS];
    pthread_t threads[MOST_READERS];
    for (int i = 0; i < readers; i++) {
        askers[i] = (struct asker){reader_new(), 0, 0, mixed((uint64_t)i + 7)};
        if (pthread_create(&threads[i], NULL, askers_run, &askers[i])) return 1;
    }
    if (is_load) for (; done < target; done += BATCH) store_batch(done + 1, done + BATCH);
    else if (is_mixed) while (now() - begin < seconds) { store_batch(DOCUMENTS + done + 1, DOCUMENTS + done + BATCH); done += BATCH; }
    else { struct timespec t = {(time_t)seconds, (long)((seconds - (double)(time_t)seconds) * 1e9)}; nanosleep(&t, NULL); }
    double took = now() - begin;
    atomic_store(&stop, 1);
    for (int i = 0; i < readers; i++) {
        pthread_join(threads[i], NULL);
        asks += askers[i].asks;
        found += askers[i].found;
    }
    printf("%llu %llu %llu %.6f\n", (unsigned long long)done, (unsigned long long)asks, (unsigned long long)found, took);
    return 0;
}
#endif
