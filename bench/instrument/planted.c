/* Faults of a caller, which the sanitizers have to report from inside the library's text. */
#include "attr.h"
#include <pthread.h>
#include <stdlib.h>
#include <string.h>

static attr_engine engine;
static attr_reader reader;

static void *asks(void *unused) {
    struct attr_answer answer;
    for (int i = 0; i < 2000; i++) attr_ask(&reader, (const uint8_t *)"[;]", 3, &answer);
    return unused;
}

int main(void) {
    struct attr_sizes sizes = {64, 8192, 1, 0, 0};
    struct attr_answer answer;
    struct attr_told told;
    uint64_t place;
    pthread_t thread;
    if (attr_open((const uint8_t *)"a:single:long", 13, &sizes, &engine.at, &place) || attr_reader_open(&engine, &reader.at)) return 0;
    attr_commit(&engine, &told);
    if (FAULT == 1) {
        uint8_t *text = malloc(4);
        memcpy(text, "1234", 4);
        attr_ask(&reader, text, 5, &answer);
    } else if (FAULT == 2) {
        attr_engine copy = engine;
        attr_close(engine);
        attr_commit(&copy, &told);
    } else {
        pthread_create(&thread, NULL, asks, NULL);
        asks(NULL);
        pthread_join(thread, NULL);
    }
    return 0;
}
