/* The first program: two documents, a commit, and a query. */
#include "attr.h"
#include <stdio.h>
#include <string.h>

int main(void) {
    const char *attributes = "year:single:long";
    const char *lines = "{\"put\":\"id:music:song::1\",\"fields\":{\"year\":1969}}\n{\"put\":\"id:music:song::2\",\"fields\":{\"year\":1971}}\n";
    const char *query = "[1960;1969]";
    struct attr_sizes sizes = {.buffers = 64, .words = 8192, .readers = 1};
    attr_engine engine; attr_reader reader; struct attr_told told; struct attr_answer answer; uint64_t place; uint32_t hits[10];

    if (attr_open((const uint8_t *)attributes, strlen(attributes), &sizes, &engine.at, &place)) return 1;
    if (attr_reader_open(&engine, &reader.at)) return 1;
    if (attr_feed(&engine, (const uint8_t *)lines, strlen(lines), &told)) return 1;
    if (attr_commit(&engine, &told)) return 1;
    if (attr_ask(&reader, (const uint8_t *)query, strlen(query), &answer)) return 1;
    size_t count = attr_hits(&reader, 0, hits, 10);
    for (size_t i = 0; i < count; i++) printf("document %u\n", hits[i]);
    attr_reader_close(reader);
    attr_close(engine);
    return 0;
}
