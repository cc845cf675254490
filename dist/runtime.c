/* What the proved program asks of C beside the C library itself: memory, the error number, and the words of the command line.
   The contracts of these functions are the kit's, in its crates `libc` and `os`; nothing proves that this file keeps them. */
#define _DEFAULT_SOURCE
#include <errno.h>
#include <stdbool.h>
#include <stddef.h>
#include <stdint.h>
#include <stdlib.h>
#include <sys/mman.h>

/* The text needs a processor with x86-64-v2 (SSE4.2, POPCNT): this note has the system's loader refuse a program, or a library, where it is
   missing ("CPU ISA level is lower than required"), before an instruction of the text runs. */
__asm__(".pushsection .note.gnu.property, \"a\", @note\n"
        ".p2align 3\n"
        ".long 4, 16, 5\n"
        ".asciz \"GNU\"\n"
        ".long 0xc0008002, 4, 2, 0\n" /* GNU_PROPERTY_X86_ISA_1_NEEDED: 4 bytes, GNU_PROPERTY_X86_ISA_1_V2, and 4 to fill up */
        ".popsection");

/* An answer to a request for memory: whether there is any, and where. Without memory `place` is some address that is not null. */
struct answer { bool ok; void *place; };

static char nothing;

static struct answer answer_of(void *place) {
    return (struct answer){place != NULL, place != NULL ? place : &nothing};
}

/* The size of a huge page. */
static const size_t huge = 2 << 20;

/* A block of several huge pages, such as the words of an engine, begins at one and asks for them: so the first use of its memory stops once
   for 2 MiB and not for each 4 KiB. A system that has none ignores the advice. */
static void *large_block(size_t size) {
    void *block;
    if (posix_memalign(&block, huge, size) != 0) return NULL;
    int error = errno;
    madvise(block, size, MADV_HUGEPAGE);
    errno = error;
    return block;
}

/* `align` divides 16, and so malloc's blocks have it. A block of no bytes is made one of `align` bytes, since malloc(0) may answer null. */
struct answer rattle_alloc(size_t size, size_t align) {
    if (size >= 2 * huge) return answer_of(large_block(size));
    return answer_of(malloc(size != 0 ? size : align));
}

/* A block keeps its first `kept` bytes; where there is no memory it stays as it was. */
struct answer rattle_realloc(void *block, size_t kept, size_t size, size_t align) {
    (void)kept;
    return answer_of(realloc(block, size != 0 ? size : align));
}

void rattle_dealloc(void *block) { free(block); }

int rattle_errno(void) { return errno; }

void rattle_set_errno(int error) { errno = error; }

#ifndef RATTLE_LIBRARY  /* a library reads no command line */
static int count;
static char **words;

/* The C library calls a constructor with the arguments of `main`. */
__attribute__((constructor)) static void keep_words(int argc, char **argv) {
    count = argc;
    words = argv;
}

size_t rattle_arg_count(void) { return (size_t)count; }

/* Writes word `i` into `buffer` and returns its length: -1 if there is no such word, -2 if it is longer than `room`, and then the buffer
   is full. */
ptrdiff_t rattle_arg(size_t i, char *buffer, size_t room) {
    if (i >= (size_t)count || words[i] == NULL) return -1;
    size_t length = 0;
    for (const char *at = words[i]; at[length] != '\0'; length++) {
        if (length == room) return -2;
        buffer[length] = at[length];
    }
    return (ptrdiff_t)length;
}
#endif
