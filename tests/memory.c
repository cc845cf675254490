/* Each allocation of libvattr refused in turn: the calls of a script, each made once more where it answers ATTR_MEMORY. It is linked with --wrap,
 * so malloc, realloc and posix_memalign of the library alone come here.
 *
 * Use: memory SCRIPT. The script (tests/rows/memory.txt) has attributes, lines of a feed, commits and queries. What the calls told stands on
 * standard output, a line for each, as it is without a refusal. Each part of it runs once for each of its allocations, with that one refused: the
 * call that made it has to answer ATTR_MEMORY, and the rest has to be as before. The last line says how often each call was refused. */
#include "attr.h"
#include <stdio.h>
#include <stdlib.h>
#include <string.h>

enum { LINE = 4096, TOLD = 1 << 20, LINES = 1000 };
enum call { OPEN, READER, FEED, COMMIT, ASK, SAVE, LOAD, CALLS };

static const char *const names[CALLS] = {"open", "reader", "feed", "commit", "ask", "save", "load"};
static char script[LINES][LINE], told_before[TOLD], told_now[TOLD];
static size_t lines, length;
static long made, refuse;
static unsigned long refusals[CALLS];
static int refused;
static attr_engine engine;
static attr_reader reader;
static char attributes[LINE];

/* ---- what the library asks for ---- */

void *__real_malloc(size_t size);
void *__real_realloc(void *block, size_t size);
int __real_posix_memalign(void **block, size_t align, size_t size);

static int is_refused(void) {
    if (++made != refuse) return 0;
    refused = 1;
    return 1;
}

void *__wrap_malloc(size_t size) { return is_refused() ? NULL : __real_malloc(size); }
void *__wrap_realloc(void *block, size_t size) { return is_refused() ? NULL : __real_realloc(block, size); }
int __wrap_posix_memalign(void **block, size_t align, size_t size) { return is_refused() ? 12 : __real_posix_memalign(block, align, size); }

/* ---- what is told ---- */

static void fail(const char *what, int32_t code) {
    printf("%s: code %d, with allocation %ld refused\n", what, code, refuse);
    exit(1);
}

static void tell(const char *text) {
    size_t more = strlen(text);
    if (length + more + 1 > TOLD) fail("too much is told", 0);
    memcpy(told_now + length, text, more + 1);
    length += more;
}

static void tell_number(const char *front, long long number) {
    char text[64];
    snprintf(text, sizeof text, "%s%lld", front, number);
    tell(text);
}

static void tell_bytes(const uint8_t *bytes, size_t count) {
    char text[3];
    for (size_t at = 0; at < count; at++) {
        snprintf(text, sizeof text, "%02x", bytes[at]);
        tell(text);
    }
    tell("\n");
}

/* Whether a call has to be made again: an allocation was refused in it, and it said so. The library does without some. */
static int again(enum call which, int32_t code) {
    int was = refused;
    refused = 0;
    if (code == ATTR_MEMORY && was) {
        refusals[which]++;
        return 1;
    }
    if (code != ATTR_OK && which != ASK) fail(names[which], code);
    return 0;
}

/* ---- the calls ---- */

static void open_one(attr_engine *into, attr_reader *seat) {
    struct attr_sizes sizes = {16, 8192, 1, 0, 0};
    uint64_t place;
    while (again(OPEN, attr_open((const uint8_t *)attributes, strlen(attributes), &sizes, &into->at, &place))) {}
    while (again(READER, attr_reader_open(into, &seat->at))) {}
}

static void feed(const char *line) {
    struct attr_told told;
    while (again(FEED, attr_feed(&engine, (const uint8_t *)line, strlen(line), &told))) {
        if (told.operations != 0) fail("a refused line was applied", 0);
    }
    tell(told.skipped ? "skipped\n" : "changed\n");
}

static void commit(void) {
    struct attr_told told;
    while (again(COMMIT, attr_commit(&engine, &told))) {}
    tell_number("commit ", told.commit);
    tell_number(" of ", told.operations);
    tell("\n");
}

static void ask(const char *text) {
    struct attr_answer answer;
    uint32_t hits[100];
    struct attr_score scores[100];
    int32_t code;
    while (again(ASK, code = attr_ask(&reader, (const uint8_t *)text, strlen(text), &answer))) {}
    if (code != ATTR_OK) {
        tell_number("code ", code);
        tell_number(" at ", (long long)answer.place);
        tell("\n");
        return;
    }
    size_t count = attr_scores(&reader, 0, scores, 100);
    for (size_t at = 0; at < count; at++) {
        tell_number(" ", scores[at].document);
        tell_number("=", scores[at].score);
    }
    if (count == 0) {
        count = attr_hits(&reader, 0, hits, 100);
        for (size_t at = 0; at < count; at++) tell_number(" ", hits[at]);
    }
    tell("\n");
}

static size_t save(attr_reader *from, uint8_t *bytes, size_t room) {
    struct attr_answer answer;
    while (again(SAVE, attr_save(from, &answer))) {}
    return attr_saved(from, 0, bytes, room);
}

/* Saves the first attribute, loads the save into an engine of that attribute alone, and saves it again. */
static void finish(void) {
    static uint8_t bytes[TOLD / 4], others[TOLD / 4];
    attr_engine other;
    attr_reader seat;
    struct attr_told told;
    if (attributes[0] == 0) return;
    size_t count = save(&reader, bytes, sizeof bytes);
    tell_bytes(bytes, count);
    if (strchr(attributes, ',')) *strchr(attributes, ',') = 0;
    open_one(&other, &seat);
    while (again(LOAD, attr_load(&other, bytes, count, &told))) {}
    while (again(COMMIT, attr_commit(&other, &told))) {}
    count = save(&seat, others, sizeof others);
    /* (a load that is made again puts documents twice, and bytes 6 to 9 count operations) */
    memset(others + 6, 0, 4);
    tell_bytes(others, count);
    attr_reader_close(seat);
    attr_close(other);
    attr_reader_close(reader);
    attr_close(engine);
    attributes[0] = 0;
}

/* `on KIND:TYPE,..`: an engine of these attributes, named f, g and so on. */
static void begin(char *text) {
    finish();
    char name = 'f';
    for (char *part = strtok(text, ","); part; part = strtok(NULL, ",")) {
        sprintf(attributes + strlen(attributes), "%s%c:%s", name == 'f' ? "" : ",", name, part);
        name++;
    }
    open_one(&engine, &reader);
}

/* The lines of one part, which begins with its attributes. */
static void run(size_t first, size_t last) {
    char line[LINE];
    made = 0;
    length = 0;
    for (size_t at = first; at < last; at++) {
        strcpy(line, script[at]);
        if (strncmp(line, "on ", 3) == 0) begin(line + 3);
        else if (line[0] == '{') feed(line);
        else if (strcmp(line, "commit") == 0) commit();
        else if (strncmp(line, "ask ", 4) == 0) ask(line + 4);
    }
    finish();
}

/* One part without a refusal, and then with each of its allocations refused. How many allocations it makes. */
static long try_part(size_t first, size_t last) {
    refuse = 0;
    run(first, last);
    long all = made;
    fputs(told_now, stdout);
    memcpy(told_before, told_now, length + 1);
    for (refuse = 1; refuse <= all; refuse++) {
        run(first, last);
        if (strcmp(told_before, told_now) != 0) fail("another answer", 0);
    }
    return all;
}

int main(int count, char **words) {
    FILE *file = count == 2 ? fopen(words[1], "r") : NULL;
    if (!file) { fprintf(stderr, "use: memory SCRIPT\n"); return 2; }
    while (lines < LINES && fgets(script[lines], LINE, file)) {
        script[lines][strcspn(script[lines], "\n")] = 0;
        lines++;
    }
    long all = 0;
    for (size_t first = 0, next; first < lines; first = next) {
        for (next = first + 1; next < lines && strncmp(script[next], "on ", 3) != 0;) next++;
        all += try_part(first, next);
    }
    unsigned long sum = 0;
    for (int which = 0; which < CALLS; which++) {
        printf("%s %lu ", names[which], refusals[which]);
        sum += refusals[which];
        if (refusals[which] == 0) fail("no refusal of a call", which);
    }
    printf("of %ld allocations, done without %ld\n", all, all - (long)sum);
    return 0;
}
