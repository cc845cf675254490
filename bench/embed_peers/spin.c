/* The same threads without an engine: what the machine itself allows. A batch and an ask are so many steps over words: of the thread's
 * own memory, or with -DSHARED of one array that the writer writes and the readers read. */
#include "job.h"

enum { WORDS = 4096, STEPS = 300 };

static _Atomic uint64_t words[WORDS];

#ifdef SHARED
static void *reader_new(void) { return words; }
#else
static void *reader_new(void) {
    void *own = calloc(WORDS, sizeof *words);
    if (!own) exit(1);
    return own;
}
#endif

static void store_open(int readers) { (void)readers; }

static void store_batch(uint64_t from, uint64_t to) {
    for (uint64_t i = from; i <= to; i++) for (uint64_t k = 0, r = mixed(i); k < STEPS; k++, r = mixed(r)) atomic_store_explicit(&words[r % WORDS], r, memory_order_relaxed);
}

static size_t reader_ask(void *reader, int64_t number, uint32_t *into, size_t room) {
    _Atomic uint64_t *from = reader;
    uint64_t sum = 0, r = mixed((uint64_t)number);
    for (uint64_t k = 0; k < STEPS; k++, r = mixed(r)) sum += atomic_load_explicit(&from[r % WORDS], memory_order_relaxed);
    into[sum % room] = (uint32_t)sum;
    return 1;
}
