// Counts what a program asks of malloc and realloc, and refuses what REFUSE names by its number. The count is kept in the file that REFUSALS
// names, since a program may end without a word to its libraries.
#define _GNU_SOURCE
#include <dlfcn.h>
#include <errno.h>
#include <fcntl.h>
#include <stdlib.h>
#include <sys/mman.h>
#include <unistd.h>

static long own, *count = &own, refused = -1;

__attribute__((constructor)) static void begin(void) {
    const char *number = getenv("REFUSE"), *path = getenv("REFUSALS");
    int file = path ? open(path, O_RDWR | O_CREAT, 0600) : -1;
    if (file >= 0 && ftruncate(file, sizeof *count) == 0) {
        void *kept = mmap(NULL, sizeof *count, PROT_READ | PROT_WRITE, MAP_SHARED, file, 0);
        if (kept != MAP_FAILED) count = kept;
    }
    *count = 0;
    refused = number ? atol(number) : 0;
}

static int is_refused(void) {
    if (refused < 0 || __atomic_add_fetch(count, 1, __ATOMIC_RELAXED) != refused) return 0;
    errno = ENOMEM;
    return 1;
}

void *malloc(size_t bytes) {
    static void *(*next)(size_t);
    if (!next) next = dlsym(RTLD_NEXT, "malloc");
    return is_refused() ? NULL : next(bytes);
}

void *realloc(void *old, size_t bytes) {
    static void *(*next)(void *, size_t);
    if (!next) next = dlsym(RTLD_NEXT, "realloc");
    return is_refused() ? NULL : next(old, bytes);
}
