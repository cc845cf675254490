/* Each access told to ThreadSanitizer. A locked instruction and an exchange are atomic. So is a read of one of the words that the threads
   share, which an instruction does not show: they are the first 18 of each block of words (word_arena's table: `opening_words`), and all
   other words are read and written plainly, ordered by these. */
#include <stdbool.h>
#include <stddef.h>
#include <stdint.h>

void __tsan_read1_pc(void *, void *);
void __tsan_read2_pc(void *, void *);
void __tsan_read4_pc(void *, void *);
void __tsan_read8_pc(void *, void *);
void __tsan_read16_pc(void *, void *);
void __tsan_write1_pc(void *, void *);
void __tsan_write2_pc(void *, void *);
void __tsan_write4_pc(void *, void *);
void __tsan_write8_pc(void *, void *);
void __tsan_write16_pc(void *, void *);
void __tsan_read_range(void *, unsigned long);
void __tsan_write_range(void *, unsigned long);
int64_t __tsan_atomic64_load(const volatile int64_t *, int);
int64_t __tsan_atomic64_fetch_add(volatile int64_t *, int64_t, int);

enum { SHARED_WORDS = 18, MOST_BLOCKS = 64, SEQUENTIALLY_CONSISTENT = 5 };
static uintptr_t block[MOST_BLOCKS];
static int blocks;

/* The functions for memory of dist/runtime.c, which is compiled with this name for its own. */
struct answer { bool ok; void *place; };
struct answer plain_alloc(size_t, size_t);

struct answer rattle_alloc(size_t size, size_t align) {
    struct answer made = plain_alloc(size, align);
    if (made.ok && size >= 1 << 18 && blocks < MOST_BLOCKS) block[blocks++] = (uintptr_t)made.place;
    return made;
}

static bool is_shared(uintptr_t at) {
    for (int i = 0; i < blocks; i++)
        if (at >= block[i] && at < block[i] + 8 * SHARED_WORDS) return true;
    return false;
}

void hook(void *place, size_t width, int kind, void *from) {
    static void (*const reads[])(void *, void *) = {
        [1] = __tsan_read1_pc, [2] = __tsan_read2_pc, [4] = __tsan_read4_pc, [8] = __tsan_read8_pc, [16] = __tsan_read16_pc};
    static void (*const writes[])(void *, void *) = {
        [1] = __tsan_write1_pc, [2] = __tsan_write2_pc, [4] = __tsan_write4_pc, [8] = __tsan_write8_pc, [16] = __tsan_write16_pc};
    uintptr_t at = (uintptr_t)place;
    if (kind == 2) __tsan_atomic64_fetch_add(place, 0, SEQUENTIALLY_CONSISTENT);
    else if (kind == 0 && width == 8 && is_shared(at)) __tsan_atomic64_load(place, SEQUENTIALLY_CONSISTENT);
    else if (at & (width - 1)) (kind ? __tsan_write_range : __tsan_read_range)(place, width);
    else (kind ? writes : reads)[width](place, from);
}
