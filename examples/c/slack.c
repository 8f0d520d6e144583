/*
 * slack SCHEME FIRST COUNT: records the slack of COUNT exchanges, numbered from FIRST on, as a
 * trace: the lines scheme=N and slack=N of each. Standard error has how many keys differed.
 *
 * Both ends run in wim_bench. All bytes are SHAKE-128's, of the scheme, the exchange's number and
 * the list's, so that an exchange is the same in every run. Secrets and noise come through
 * wim_noise, BCNS's by the table of document 000. In NewHope the public numbers grow from the seed,
 * elsewhere they are random and below q.
 */
#include "wimmostry.h"

#include <stdio.h>
#include <stdlib.h>

static uint32_t a[WIM_MAX_A];
static int32_t s[WIM_MAX_S], e[WIM_MAX_S], s1[WIM_MAX_S], e1[WIM_MAX_S], e2[WIM_MAX_E2];
static uint8_t seed[WIM_MAX_SEED], coins[WIM_MAX_COINS], bytes[4 * WIM_MAX_A];

/* Which exchange, and which of its lists was drawn last. */
static struct {
    const struct wim_sizes *scheme;
    uint64_t number;
    uint8_t list;
} at;

static uint32_t draw_bytes(uint8_t *out, size_t count)
{
    uint8_t input[10] = {(uint8_t)at.scheme->number, at.list++};
    uint64_t place, written;

    for (int i = 0; i < 8; i++)
        input[2 + i] = (uint8_t)(at.number >> 8 * i);
    return wim_shake128(input, sizeof input, out, count, &place, &written);
}

static uint32_t word(size_t i)
{
    const uint8_t *four = bytes + 4 * i;

    return four[0] | four[1] << 8 | four[2] << 16 | (uint32_t)four[3] << 24;
}

static uint32_t draw_public(void)
{
    const struct wim_sizes *x = at.scheme;
    uint64_t place, written;
    uint32_t refusal;

    if (x->number == WIM_NEWHOPE)
        return wim_grow(WIM_RULE_LOW_BITS, seed, x->seed, a, x->a, &place, &written);
    refusal = draw_bytes(bytes, 4 * x->a);
    for (size_t i = 0; i < x->a; i++)
        a[i] = word(i) % x->q;
    return refusal;
}

static uint32_t draw_secrets(int32_t *out, size_t count, size_t random)
{
    const struct wim_sizes *x = at.scheme;
    uint64_t place, written;
    uint32_t refusal = draw_bytes(bytes, random);

    return refusal != WIM_DONE ? refusal
                               : wim_noise(x->number, bytes, random, wim_bcns_table, x->table, out,
                                           count, &place, &written);
}

/* One exchange: its slack, and whether the keys differ. 0 or the refusal. */
static uint32_t exchange(uint64_t *slack, uint64_t *differ)
{
    const struct wim_sizes *x = at.scheme;
    uint64_t place, slack_index;
    uint32_t no;

    at.list = 0;
    if ((no = draw_bytes(seed, x->seed)) != WIM_DONE || (no = draw_public()) != WIM_DONE ||
        (no = draw_secrets(s, x->s, x->s_bytes)) != WIM_DONE ||
        (no = draw_secrets(e, x->s, x->s_bytes)) != WIM_DONE ||
        (no = draw_secrets(s1, x->s, x->s_bytes)) != WIM_DONE ||
        (no = draw_secrets(e1, x->s, x->s_bytes)) != WIM_DONE ||
        (no = draw_secrets(e2, x->e2, x->e2_bytes)) != WIM_DONE ||
        (no = draw_bytes(coins, x->coins)) != WIM_DONE)
        return no;
    return wim_bench(x->number, a, x->a, s, x->s, e, x->s, seed, x->seed, s1, x->s, e1, x->s, e2,
                     x->e2, coins, x->coins, &place, differ, slack, &slack_index);
}

int main(int count, char **words)
{
    uint64_t first, end, differed = 0;

    if (count != 4 || (at.scheme = wim_sizes((uint32_t)atoi(words[1]))) == NULL) {
        fputs("slack SCHEME FIRST COUNT\n", stderr);
        return 2;
    }
    first = strtoull(words[2], NULL, 10);
    end = first + strtoull(words[3], NULL, 10);
    for (at.number = first; at.number < end; at.number++) {
        uint64_t slack, differ;
        uint32_t refusal = exchange(&slack, &differ);
        if (refusal != WIM_DONE) {
            fprintf(stderr, "exchange %llu: %s\n", (unsigned long long)at.number,
                    wim_refusal_text(refusal));
            return 1;
        }
        differed += differ != 0;
        printf("scheme=%u\nslack=%llu\n", (unsigned)at.scheme->number, (unsigned long long)slack);
    }
    fprintf(stderr, "differed=%llu\n", (unsigned long long)differed);
    return 0;
}
