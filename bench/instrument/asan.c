/* An access whose first or last byte has a mark in the shadow memory: AddressSanitizer decides, and reports it. */
#include <stddef.h>

void __asan_loadN(void *, size_t);
void __asan_storeN(void *, size_t);

void hook(void *place, size_t width, int kind, void *from) {
    (void)from;
    if (kind == 0) __asan_loadN(place, width);
    else __asan_storeN(place, width);
}
