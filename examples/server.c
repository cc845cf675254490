/*
 * server ATTRIBUTES: a line server over standard input, as a service would embed the engine. The main thread writes; a pool of reader
 * threads answers. Each line is a command:
 *
 *     put N JSON | update N JSON | remove N    an operation on document N, JSON being its fields
 *     commit                                  makes a commit of what was applied
 *     ask QUERY                               answered by some reader thread, at the last commit or a later one
 *     quit
 *
 * Answers are lines on standard output, each begun with the number of its command. Answers of ask come when they are ready.
 */
#include "attr.h"
#include <pthread.h>
#include <stdio.h>
#include <stdlib.h>
#include <string.h>

enum { POOL = 4, QUEUE = 64, LINE = 65536, SHOWN = 1000 };

/* ---- the queue of questions ---- */

struct question { unsigned long number; char *text; };
static struct question queue[QUEUE];
static int first, waiting, closed;
static pthread_mutex_t lock = PTHREAD_MUTEX_INITIALIZER, output = PTHREAD_MUTEX_INITIALIZER;
static pthread_cond_t some = PTHREAD_COND_INITIALIZER, room = PTHREAD_COND_INITIALIZER;

static void push(struct question question) {
    pthread_mutex_lock(&lock);
    while (waiting == QUEUE) pthread_cond_wait(&room, &lock);
    queue[(first + waiting++) % QUEUE] = question;
    pthread_cond_signal(&some);
    pthread_mutex_unlock(&lock);
}

static int pop(struct question *question) {
    pthread_mutex_lock(&lock);
    while (!waiting && !closed) pthread_cond_wait(&some, &lock);
    int is = waiting > 0;
    if (is) {
        *question = queue[first];
        first = (first + 1) % QUEUE;
        waiting--;
        pthread_cond_signal(&room);
    }
    pthread_mutex_unlock(&lock);
    return is;
}

/* ---- answers ---- */

static void refuse(unsigned long number, int32_t code, uint64_t place) {
    uint8_t text[128];
    size_t n = attr_message(code, text, sizeof text);
    pthread_mutex_lock(&output);
    printf("%lu error %d at %llu: %.*s\n", number, code, (unsigned long long)place, (int)n, (const char *)text);
    pthread_mutex_unlock(&output);
}

static void answer_one(attr_reader *reader, const struct question *question) {
    struct attr_answer answer;
    uint32_t hits[SHOWN];
    int32_t code = attr_ask(reader, (const uint8_t *)question->text, strlen(question->text), &answer);
    if (code != ATTR_OK) {
        refuse(question->number, code, answer.place);
        return;
    }
    size_t count = attr_hits(reader, 0, hits, SHOWN);
    pthread_mutex_lock(&output);
    printf("%lu commit %u count %llu:", question->number, answer.commit, (unsigned long long)answer.count);
    for (size_t i = 0; i < count; i++) printf(" %u", hits[i]);
    printf("%s\n", count < answer.count ? " .." : "");
    pthread_mutex_unlock(&output);
}

static void *answers(void *argument) {
    attr_reader *reader = argument;
    struct question question;
    while (pop(&question)) {
        answer_one(reader, &question);
        free(question.text);
    }
    return NULL;
}

/* ---- the writer ---- */

static void say(unsigned long number, const char *what, unsigned long value) {
    pthread_mutex_lock(&output);
    printf("%lu %s %lu\n", number, what, value);
    pthread_mutex_unlock(&output);
}

/* The feed's line of a command, or 0 where it is none. */
static size_t line_of(const char *command, char *line) {
    char verb[8];
    unsigned long document;
    int at = 0;
    if (sscanf(command, "%7s %lu %n", verb, &document, &at) < 2 || !at) return 0;
    if (!strcmp(verb, "remove")) return (size_t)sprintf(line, "{\"remove\":\"id:s:d::%lu\"}\n", document);
    if (strcmp(verb, "put") && strcmp(verb, "update")) return 0;
    return (size_t)sprintf(line, "{\"%s\":\"id:s:d::%lu\",\"fields\":%s}\n", verb, document, command + at);
}

static void write_one(attr_engine *engine, unsigned long number, const char *command) {
    static char line[LINE + 64];
    struct attr_told told, step;
    if (!strcmp(command, "commit")) {
        int32_t code = attr_commit(engine, &told);
        for (int tries = 0; code == ATTR_FULL && tries < 1000; tries++) code = attr_commit(engine, &told);
        if (code != ATTR_OK) {
            refuse(number, code, 0);
            return;
        }
        attr_compact(engine, 256, &step);
        say(number, "commit", told.commit);
        return;
    }
    size_t length = line_of(command, line);
    if (!length) {
        refuse(number, ATTR_NO_OPERATION, 0);
        return;
    }
    int32_t code = attr_feed(engine, (const uint8_t *)line, length, &told);
    if (code != ATTR_OK) refuse(number, code, told.place);
    else say(number, told.skipped ? "skipped" : "applied", told.operations);
}

int main(int count, char **words) {
    const char *attributes = count > 1 ? words[1] : "year:single:long";
    struct attr_sizes sizes = {256, 8192, POOL, 0, 0};
    attr_engine engine;
    attr_reader readers[POOL];
    pthread_t threads[POOL];
    uint64_t place;
    int32_t code = attr_open((const uint8_t *)attributes, strlen(attributes), &sizes, &engine.at, &place);
    if (code != ATTR_OK) {
        refuse(0, code, place);
        return 2;
    }
    for (int i = 0; i < POOL; i++) {
        if (attr_reader_open(&engine, &readers[i].at)) return 1;
        if (pthread_create(&threads[i], NULL, answers, &readers[i])) return 1;
    }
    static char command[LINE];
    for (unsigned long number = 1; fgets(command, sizeof command, stdin); number++) {
        command[strcspn(command, "\n")] = 0;
        if (!strcmp(command, "quit")) break;
        if (strncmp(command, "ask ", 4)) {
            write_one(&engine, number, command);
            continue;
        }
        struct question question = {number, strdup(command + 4)};
        if (!question.text) return 1;
        push(question);
    }
    pthread_mutex_lock(&lock);
    closed = 1;
    pthread_cond_broadcast(&some);
    pthread_mutex_unlock(&lock);
    for (int i = 0; i < POOL; i++) {
        pthread_join(threads[i], NULL);
        attr_reader_close(readers[i]);
    }
    attr_close(engine);
    return 0;
}
