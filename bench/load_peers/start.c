/* What a start of `attr` costs at least: the kit's table takes its words from a list and copies them into a block of its own, so a
 * table of n words touches 16 n bytes. This does that alone, for the memory that a run asks for by --buffers and --words, 64 of
 * 16,384 where they are not given. Both blocks ask for huge pages, as in dist/runtime.c. */
#define _DEFAULT_SOURCE
#include <stdint.h>
#include <stdio.h>
#include <stdlib.h>
#include <string.h>
#include <sys/mman.h>

static uint64_t *block_of(size_t size) {
    void *block;
    if (posix_memalign(&block, 2 << 20, size)) return NULL;
    madvise(block, size, MADV_HUGEPAGE);
    return block;
}

int main(int count, char **words) {
    size_t buffers = 64, size = 16384;
    for (int i = 1; i + 1 < count; i++) {
        if (!strcmp(words[i], "--buffers")) buffers = strtoull(words[i + 1], NULL, 10);
        if (!strcmp(words[i], "--words")) size = strtoull(words[i + 1], NULL, 10);
    }
    size_t all = 18 + buffers + buffers * size;
    uint64_t *list = block_of(all * sizeof *list), *table = block_of(all * sizeof *table);
    if (!list || !table) return 1;
    memset(list, count > 1000, all * sizeof *list); /* 0, which the compiler does not know */
    memcpy(table, list, all * sizeof *table);
    uint64_t seen = table[all / 2];
    free(list);
    free(table);
    return seen != 0;
}
