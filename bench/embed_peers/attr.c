/* The job over libvattr. Operations are lines of JSON, which are read in the figure. */
#include "job.h"
#include "attr.h"

static attr_engine engine;

static void must(int32_t code) { if (code) { fprintf(stderr, "attr: code %d\n", code); exit(1); } }

static void store_open(int readers) {
    struct attr_sizes sizes = {1023, 65536, (uint32_t)readers, 0, 0};
    uint64_t place;
    must(attr_open((const uint8_t *)"n:single:long", 13, &sizes, &engine.at, &place));
}

static void store_batch(uint64_t from, uint64_t to) {
    static char lines[BATCH * 96];
    struct attr_told told;
    size_t length = 0;
    for (uint64_t i = from; i <= to; i++) length += (size_t)sprintf(lines + length, "{\"put\":\"id:n:t::%u\",\"fields\":{\"n\":%lld}}\n", document_of(i), (long long)number_of(i));
    must(attr_feed(&engine, (const uint8_t *)lines, length, &told));
    must(attr_commit(&engine, &told));
    int32_t code = attr_compact(&engine, 256, &told);
    if (code != ATTR_FULL) must(code);
}

static void *reader_new(void) {
    attr_reader *reader = malloc(sizeof *reader);
    if (!reader) exit(1);
    must(attr_reader_open(&engine, &reader->at));
    return reader;
}

static size_t reader_ask(void *reader, int64_t number, uint32_t *into, size_t room) {
    char text[32];
    struct attr_answer answer;
    size_t length = (size_t)sprintf(text, "%lld", (long long)number);
    must(attr_ask(reader, (const uint8_t *)text, length, &answer));
    return attr_hits(reader, 0, into, room);
}
