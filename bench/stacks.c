/* stacks: at some thousand moments of feeding, compacting, asking and saving, the unwinder of the C library walks the stack from wherever
   the timer's signal struck, and has to come to the caller each time. It tells whether the frames that dist/frames gives are right. */
#define _GNU_SOURCE
#include "attr.h"
#include <dlfcn.h>
#include <execinfo.h>
#include <signal.h>
#include <stdio.h>
#include <stdlib.h>
#include <string.h>
#include <sys/time.h>
#include <ucontext.h>

static volatile unsigned long inside, whole, broken;
static uintptr_t low, high;
static void *last[64];
static int last_count;

/* The calls are made by one function, which lies in a section of its own. */
extern char __start_calls_of_work[], __stop_calls_of_work[];
static int is_work(void *at) { return (char *)at > __start_calls_of_work && (char *)at < __stop_calls_of_work; }

/* The places of the library's calls: between the lowest and the highest of them. */
static void place_library(void) {
    static void *const calls[] = {(void *)attr_open, (void *)attr_feed, (void *)attr_ask, (void *)attr_version, (void *)attr_hits, (void *)attr_scores};
    FILE *maps = fopen("/proc/self/maps", "r");
    char line[512];
    while (maps && fgets(line, sizeof line, maps)) {
        unsigned long from, to;
        if (sscanf(line, "%lx-%lx", &from, &to) == 2 && (uintptr_t)calls[1] >= from && (uintptr_t)calls[1] < to) low = from, high = to;
    }
    if (maps) fclose(maps);
}

static void look(int signal, siginfo_t *info, void *context) {
    (void)signal; (void)info;
    uintptr_t at = (uintptr_t)((ucontext_t *)context)->uc_mcontext.gregs[REG_RIP];
    if (at < low || at >= high || is_work((void *)at)) return;
    void *frames[64];
    int count = backtrace(frames, 64);
    inside++;
    for (int i = 0; i < count; i++)
        if (is_work(frames[i])) { whole++; return; }
    broken++;
    memcpy(last, frames, sizeof frames);
    last_count = count;
}

__attribute__((noinline, section("calls_of_work"))) static void work(void) {
    const char *names = "year:single:long,tags:weightedset:string,parts:array:string";
    struct attr_sizes sizes = {.buffers = 512, .words = 8192, .readers = 1, .dense = 1};
    attr_engine engine; attr_reader reader; struct attr_told told; struct attr_answer answer; uint64_t place;
    static char line[1 << 14];
    if (attr_open((const uint8_t *)names, strlen(names), &sizes, &engine.at, &place) || attr_reader_open(&engine, &reader.at)) exit(1);
    for (unsigned i = 0; inside < 3000 && i < 4000000; i++) {
        unsigned r = i * 2654435761u;
        int n = snprintf(line, sizeof line, "{\"put\":\"id:a:b::%u\",\"fields\":{\"year\":%u,\"tags\":{\"t%u\":1,\"u\":%u},\"parts\":[\"p%u\",\"q%u\"]}}\n", 1 + r % 3000, r % 97,
                         r / 7 % 50, r % 9, r / 3 % 500, r % 4);
        if (attr_feed(&engine, (const uint8_t *)line, (size_t)n, &told) > ATTR_FULL) exit(2);
        if (i % 20 == 0) { attr_commit(&engine, &told); attr_compact(&engine, 256, &told); }
        const char *text = i % 3 == 0 ? "year:[10;30]" : i % 3 == 1 ? "and(tags:u,not_there)" : "tags:dot(\"u\":2,\"t3\":1)";
        attr_ask(&reader, (const uint8_t *)text, strlen(text), &answer);
        if (i % 500 == 0) attr_save(&reader, &answer);
        attr_items(&reader, 1 + r % 3000, 2, &answer);
    }
    attr_reader_close(reader);
    attr_close(engine);
}

int main(void) {
    void *warm[4];
    backtrace(warm, 4);
    place_library();
    struct sigaction action = {.sa_sigaction = look, .sa_flags = SA_SIGINFO | SA_RESTART};
    sigaction(SIGPROF, &action, NULL);
    struct itimerval often = {{0, 997}, {0, 997}};
    setitimer(ITIMER_PROF, &often, NULL);
    work();
    struct itimerval never = {{0, 0}, {0, 0}};
    setitimer(ITIMER_PROF, &never, NULL);
    if (broken) backtrace_symbols_fd(last, last_count, 2);
    printf("stacks: %lu moments inside the library, %lu stacks come to the caller, %lu do not\n", inside, whole, broken);
    return broken != 0 || inside < 100;
}
