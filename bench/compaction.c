/* Updates of one attribute of libvattr, with a step of a compaction after each commit or without: bench/compaction runs it, and says what the
 * words are. Prints how many operations were applied, the words of the buffers that are not free, the words that live, the emptied buffers,
 * and the steps that found no room. */
#include "attr.h"
#include <stdio.h>
#include <stdlib.h>
#include <string.h>

static attr_engine engine;
static struct attr_told told;
static uint64_t state = 88172645463325252u;
static uint32_t documents, updates, left, commits_after, keys, finished, stopped;
static int is_array, is_zipf, applies;

static void must(int32_t code) { if (code) { fprintf(stderr, "compaction: code %d\n", code); exit(1); } }

static uint32_t below(uint32_t limit) {
    state ^= state << 13;
    state ^= state >> 7;
    state ^= state << 17;
    return (uint32_t)(state / 65536 % limit);
}

/* The number of an updated document: each as likely as any other, or one of 16 octaves. */
static uint32_t drawn(uint32_t most) {
    if (!is_zipf) return below(most);
    uint32_t octave = 1u << below(16);
    return (octave - 1 + below(octave)) % most;
}

/* One of as many values as there are documents, in no order. */
static uint64_t value(void) { return below(documents) * 0x9E3779B97F4A7C15u; }

static size_t put(char *line, uint32_t number) {
    size_t length = (size_t)sprintf(line, "{\"put\":\"id:n:t::%u\",\"fields\":{\"f\":", number + 1);
    if (is_array) {
        length += (size_t)sprintf(line + length, "[\"%020llu\",", (unsigned long long)value());
        length += (size_t)sprintf(line + length, "\"%020llu\",", (unsigned long long)value());
        length += (size_t)sprintf(line + length, "\"%020llu\"]", (unsigned long long)value());
    } else {
        length += (size_t)sprintf(line + length, "%lld", (long long)value());
    }
    return length + (size_t)sprintf(line + length, "}}\n");
}

/* Operation i: the documents one after another, half of the updates, the removes, and the other half. */
static size_t operation(char *line, uint32_t i) {
    if (i < documents) return put(line, i);
    uint32_t update = i - documents, half = updates / 2;
    if (update < half) return put(line, drawn(documents));
    uint32_t number = left + update - half;
    if (number < documents) return (size_t)sprintf(line, "{\"remove\":\"id:n:t::%u\"}\n", number + 1);
    return put(line, drawn(left));
}

static void step(void) {
    int32_t code = attr_compact(&engine, keys, &told);
    if (code == ATTR_FULL) stopped++; else must(code);
    finished += told.finished;
}

int main(int count, char **words) {
    if (count != 10) {
        fprintf(stderr, "use: compaction ATTRIBUTE DOCUMENTS UPDATES LEFT BATCH BUFFERS uniform|zipf|shrink APPLIES KEYS\n");
        return 2;
    }
    struct attr_sizes sizes = {(uint32_t)atoi(words[6]), 8192, 0, 0, 0};
    uint64_t place;
    is_array = strstr(words[1], "array") != NULL;
    documents = (uint32_t)atoi(words[2]);
    updates = (uint32_t)atoi(words[3]);
    left = (uint32_t)atoi(words[4]);
    commits_after = (uint32_t)atoi(words[5]);
    is_zipf = strcmp(words[7], "zipf") == 0;
    applies = atoi(words[8]);
    keys = (uint32_t)atoi(words[9]);
    must(attr_open((const uint8_t *)words[1], strlen(words[1]), &sizes, &engine.at, &place));
    uint32_t operations = documents + updates + documents - left;
    for (uint32_t i = 0; i < operations; i++) {
        char line[256];
        size_t length = operation(line, i);
        if (!applies) continue;
        must(attr_feed(&engine, (const uint8_t *)line, length, &told));
        if ((i + 1) % commits_after == 0) {
            must(attr_commit(&engine, &told));
            if (keys) step();
        }
    }
    struct attr_numbers numbers;
    attr_counts(&engine, &numbers);
    printf("operations %u held %llu live %llu finished %u stopped %u\n", operations,
           (unsigned long long)(numbers.active + numbers.held) * numbers.words,
           (unsigned long long)(numbers.used_words - numbers.dead_words), finished, stopped);
    attr_close(engine);
    return 0;
}
