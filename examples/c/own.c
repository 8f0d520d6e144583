/*
 * What the archive's functions of C do, beside those that other programs here look at: wim_wipe,
 * wim_same, wim_sizes and wim_bcns_table; and the copies of its proved code (c/memory.c), which a
 * program that is linked with the archive finds.
 *
 * Compiled with -O2, a memset of an array that is not read again is dropped, and the array stays on
 * the stack. Here such an array is wiped by wim_wipe, and looked for after its function has
 * returned. Without the wipe it must be found, which shows that the search can find.
 */
#include "wimmostry.h"

#include <stdio.h>
#include <stdlib.h>
#include <string.h>

#define COUNT 4096

void *wim_memcpy(void *to, const void *from, size_t count);
void *wim_memmove(void *to, const void *from, size_t count);

#if defined(__GNUC__)
#define OWN_FRAME __attribute__((noinline))
#else
#define OWN_FRAME
#endif

/* Lays numbers into an array of its own frame. */
static OWN_FRAME unsigned leave(int wipes)
{
    volatile uint8_t secret[COUNT];
    unsigned sum = 0;

    for (size_t i = 0; i < COUNT; i++)
        secret[i] = (uint8_t)(i % 251 + 1);
    for (size_t i = 0; i < COUNT; i++)
        sum += secret[i];
    if (wipes)
        wim_wipe((uint8_t *)secret, COUNT);
    return sum;
}

/* How many of them still stand on the stack, in an array that nobody filled. */
static OWN_FRAME size_t left(void)
{
    volatile uint8_t room[2 * COUNT];
    const volatile uint8_t *at = room;
    size_t found = 0;

    room[0] = 0;
    for (size_t i = 1; i + 1 < 2 * COUNT; i++)
        found += at[i] != 0 && at[i] % 251 + 1 == at[i + 1];
    return found;
}

static int wipes(void)
{
    uint8_t bytes[200];
    size_t before, after;

    for (size_t from = 0; from < 20; from++)
        for (size_t count = 0; count < 150; count++) {
            memset(bytes, 7, sizeof bytes);
            wim_wipe(bytes + from, count);
            for (size_t i = 0; i < sizeof bytes; i++)
                if (bytes[i] != (i >= from && i < from + count ? 0 : 7))
                    return 0;
        }
    wim_wipe(NULL, 0);
    leave(0);
    before = left();
    leave(1);
    after = left();
    printf("bytes of an array on the stack: %zu, and %zu after wim_wipe\n", before, after);
    return before > COUNT / 2 && after < 64;
}

/* Each length and distance, forward and backward, and what stands beside is left. */
static int copies(void)
{
    uint8_t was[120], bytes[120];

    for (size_t i = 0; i < sizeof was; i++)
        was[i] = (uint8_t)(i + 1);
    for (size_t from = 0; from < 50; from++)
        for (size_t to = 0; to < 50; to++)
            for (size_t count = 0; count < 70; count++) {
                int apart = to >= from + count || from >= to + count;

                for (int moves = apart ? 0 : 1; moves < 2; moves++) {
                    memcpy(bytes, was, sizeof was);
                    if ((moves ? wim_memmove : wim_memcpy)(bytes + to, bytes + from, count) !=
                        bytes + to)
                        return 0;
                    for (size_t i = 0; i < sizeof bytes; i++)
                        if (bytes[i] != was[i >= to && i < to + count ? i - to + from : i])
                            return 0;
                }
            }
    return 1;
}

/* Every length, and at each one every bit that differs. */
static int compares(void)
{
    uint8_t a[40], b[40];

    for (size_t i = 0; i < sizeof a; i++)
        a[i] = b[i] = (uint8_t)(37 * i);
    for (size_t count = 0; count <= sizeof a; count++) {
        if (wim_same(a, b, count) != 1)
            return 0;
        for (size_t bit = 0; bit < 8 * sizeof b; bit++) {
            b[bit / 8] ^= (uint8_t)(1u << bit % 8);
            if (wim_same(a, b, count) != (bit / 8 >= count))
                return 0;
            b[bit / 8] ^= (uint8_t)(1u << bit % 8);
        }
    }
    return wim_same(NULL, NULL, 0) == 1;
}

/* Each scheme's numbers are there under its number, and no others; BCNS's table is taken. */
static int tells(void)
{
    static const uint8_t bytes[WIM_BCNS_S_BYTES];
    static int32_t out[WIM_BCNS_S];
    uint64_t place, written;

    for (uint32_t k = 0; k < 6; k++)
        if (wim_sizes(k) == NULL || wim_sizes(k)->number != k)
            return 0;
    return wim_sizes(6) == NULL && wim_sizes(UINT32_MAX) == NULL &&
           wim_sizes(WIM_BCNS)->table == sizeof wim_bcns_table / sizeof *wim_bcns_table &&
           wim_noise(WIM_BCNS, bytes, sizeof bytes, wim_bcns_table, WIM_BCNS_TABLE, out, WIM_BCNS_S,
                     &place, &written) == WIM_DONE;
}

int main(void)
{
    return wipes() && copies() && compares() && tells() ? EXIT_SUCCESS : EXIT_FAILURE;
}
