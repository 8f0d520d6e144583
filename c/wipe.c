/* wim_wipe and wim_same, which no compiler may shorten: a wipe that nobody reads, and a comparison
 * that has found a difference. */
#include "wimmostry.h"

/* c/memory.c's, whose writes are all made. */
__attribute__((visibility("hidden"))) void *wim_memset(void *to, int byte, size_t count);

void wim_wipe(void *memory, size_t count)
{
    wim_memset(memory, 0, count);
}

/* Each byte is read, since what is volatile is. From 0 to 255, only 0 less 1 has bits above 7. */
uint32_t wim_same(const void *a, const void *b, size_t count)
{
    const volatile uint8_t *x = a, *y = b;
    uint32_t differ = 0;

    for (size_t i = 0; i < count; i++)
        differ |= x[i] ^ y[i];
    return 1 & (differ - 1) >> 8;
}
