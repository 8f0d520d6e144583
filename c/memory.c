/*
 * The copies and fills of the proved code, for which the compiler calls memcpy, memmove and memset:
 * `native` gives these calls the names below, so that the archive needs no function from outside.
 *
 * The C library's own use whatever vector registers the processor has, and with AVX-512 they left a
 * whole key in registers that no code for plain x86-64 can clear. On x86-64 these use no vector
 * register. On Arm they use one, which wim_scrub clears.
 *
 * All are hidden: the linker finds them for the other object of the archive, and gives them to no
 * program or shared library that this one is loaded with. Within one program the prefix keeps them
 * apart from the program's own.
 */
#include <stddef.h>
#include <stdint.h>

#define HIDDEN __attribute__((visibility("hidden")))

#if defined(__x86_64__)

HIDDEN void *wim_memcpy(void *to, const void *from, size_t count)
{
    void *start = to;
    size_t words = count / 8, rest = count % 8;

    /* By bytes alone NewHope's Finish for x86-64-v3 takes 6.8 microseconds on an EPYC (family 25,
     * model 17), and so 4.8. */
    __asm__ volatile("rep movsq" : "+D"(to), "+S"(from), "+c"(words) : : "memory");
    __asm__ volatile("rep movsb" : "+D"(to), "+S"(from), "+c"(rest) : : "memory");
    return start;
}

/* From the last byte to the first. */
static void copy_back(uint8_t *to, const uint8_t *from, size_t count)
{
    to += count - 1;
    from += count - 1;
    __asm__ volatile("std\n\trep movsb\n\tcld" : "+D"(to), "+S"(from), "+c"(count) : : "memory");
}

HIDDEN void *wim_memset(void *to, int byte, size_t count)
{
    void *start = to;

    __asm__ volatile("rep stosb" : "+D"(to), "+c"(count) : "a"(byte) : "memory");
    return start;
}

#else

typedef uint8_t wide __attribute__((vector_size(16), aligned(1), may_alias));

/* Without it the compiler would make calls of memcpy, memmove and memset of the loops. */
#define KEEP_LOOP() __asm__ volatile("" : : : "memory")

HIDDEN void *wim_memcpy(void *to, const void *from, size_t count)
{
    uint8_t *d = to;
    const uint8_t *s = from;

    for (; count >= 16; count -= 16, d += 16, s += 16) {
        *(wide *)d = *(const wide *)s;
        KEEP_LOOP();
    }
    for (; count > 0; count--) {
        *d++ = *s++;
        KEEP_LOOP();
    }
    return to;
}

/* From the last byte to the first. */
static void copy_back(uint8_t *to, const uint8_t *from, size_t count)
{
    for (; count >= 16; count -= 16) {
        *(wide *)(to + count - 16) = *(const wide *)(from + count - 16);
        KEEP_LOOP();
    }
    for (; count > 0; count--) {
        to[count - 1] = from[count - 1];
        KEEP_LOOP();
    }
}

HIDDEN void *wim_memset(void *to, int byte, size_t count)
{
    uint8_t *d = to;
    const wide all = (wide){0} + (uint8_t)byte;

    for (; count >= 16; count -= 16, d += 16) {
        *(wide *)d = all;
        KEEP_LOOP();
    }
    for (; count > 0; count--) {
        *d++ = (uint8_t)byte;
        KEEP_LOOP();
    }
    return to;
}

#endif

HIDDEN void *wim_memmove(void *to, const void *from, size_t count)
{
    /* A copy from the first byte on reads none that it has written, unless to is among those that are
     * read. */
    if ((uintptr_t)to - (uintptr_t)from >= count)
        return wim_memcpy(to, from, count);
    copy_back(to, from, count);
    return to;
}
