/*
 * Which branches of a call depend on a secret. Run under valgrind's memcheck, with the secrets
 * marked as undefined, each accepted call in each scheme: what memcheck then reports as a jump, a
 * move or an address that depends on an undefined value depends on a secret. runs/secrets reads
 * the lines.
 *
 * secrets FILE: the same calls without valgrind, each once with its secrets as they are and once
 * with other ones, beside the same public inputs. The lines of divisions.h, of the instructions in
 * FILE, come behind each: where a division depends on a secret, the two differ. At the end stands a
 * division of a secret, of which the lines have to differ.
 */
#include "calls.h"
#include "divisions.h"

#include <stdio.h>
#include <stdlib.h>
#include <string.h>
#if defined(NO_VALGRIND)
#define VALGRIND_MAKE_MEM_UNDEFINED(AT, BYTES) ((void)(AT))
#define VALGRIND_MAKE_MEM_DEFINED(AT, BYTES) ((void)(AT))
#define VALGRIND_COUNT_ERRORS 0
#define VALGRIND_PRINTF(...) ((void)0)
#else
#include <valgrind/memcheck.h>
#endif

static struct lent lent;
static int divides; /* whether FILE is given */

/* Marks a list as undefined; or makes it another one of the same entries, so that a call accepts
 * it: the first goes behind the others. */
static void hidden(void *list, size_t count, size_t width)
{
    uint8_t first[8], *bytes = list;

    if (!divides) {
        (void)VALGRIND_MAKE_MEM_UNDEFINED(list, count * width);
        return;
    }
    memcpy(first, bytes, width);
    memmove(bytes, bytes + width, (count - 1) * width);
    memcpy(bytes + (count - 1) * width, first, width);
}

#define HIDE(SLICE, COUNT)                                                                       \
    do {                                                                                         \
        if ((COUNT) > 0)                                                                         \
            hidden(SLICE, COUNT, sizeof *(SLICE));                                               \
    } while (0)

/* What the archive has besides its calls. */
static uint32_t same(struct lent *l)
{
    volatile uint32_t unused = wim_same(l->key, l->peer_key, l->scheme->key);

    (void)unused;
    return WIM_DONE;
}

static uint32_t wipe(struct lent *l)
{
    wim_wipe(l->key, l->scheme->key);
    return WIM_DONE;
}

static const struct call more[] = {{"wim_same", same}, {"wim_wipe", wipe}};

static void hide(size_t call)
{
    const struct wim_sizes *x = lent.scheme;
    int bench = call == BENCH;
    int offers = call == OFFER || call == SESSION_OFFER || call == RACK_OFFER || bench;
    int replies = call == REPLY || call == SESSION_REPLY || call == RACK_REPLY || bench;
    int finishes = call == FINISH || call == SESSION_FINISH || call == RACK_FINISH;

    if (offers || finishes)
        HIDE(lent.s, x->s);
    if (offers)
        HIDE(lent.e, x->s);
    if (replies) {
        HIDE(lent.s1, x->s);
        HIDE(lent.e1, x->s);
        HIDE(lent.e2, x->e2);
        HIDE(lent.coins, x->coins);
    }
    /* the seed in front is public */
    if (call == OPEN || call == SESSION_OPEN)
        HIDE(lent.open_random + x->seed, x->open_bytes - x->seed);
    if (call == ANSWER || call == SESSION_ANSWER)
        HIDE(lent.answer_random, x->answer_bytes);
    if (call == NOISE)
        HIDE(lent.bytes, x->s_bytes);
    if (call == SHAKE128 || call == SHA3_256)
        HIDE(lent.bytes, sizeof lent.bytes);
    if (call == PRODUCT) {
        HIDE(lent.factors[0], WIM_PRODUCT);
        HIDE(lent.factors[1], WIM_PRODUCT);
    }
    /* these lay it into the session, or into all of a rack; and those behind the calls */
    if (call == SESSION_CLOSE || call == RACK_CLOSE || call == RACK_CLEAR || call >= CALLS)
        HIDE(lent.key, x->key);
    if (call == ROWS_OFFER_BEGIN) {
        HIDE(lent.s, x->s);
        HIDE(lent.e, x->s);
    }
    if (call == ROWS_REPLY_BEGIN) {
        HIDE(lent.s1, x->s);
        HIDE(lent.e1, x->s);
        HIDE(lent.e2, x->e2);
    }
    /* secret and sums, and in Reply the values before them; the seed and the rows are public */
    if (call == ROWS_OFFER_PART)
        HIDE(lent.offer_fifteen + 67, x->s);
    if (call == ROWS_OFFER_END)
        HIDE(lent.offer_full + 67, x->s);
    if (call == ROWS_REPLY_PART) {
        HIDE(lent.reply_fifteen + 3, 64);
        HIDE(lent.reply_fifteen + 67, x->s);
    }
    if (call == ROWS_REPLY_END) {
        HIDE(lent.reply_full + 3, 64);
        HIDE(lent.reply_full + 67, x->s);
    }
}

static uint32_t divide_a_secret(struct lent *l)
{
    volatile uint32_t divisor = 7;
    uint32_t sum = 0;

    for (uint32_t i = 0; i < l->scheme->s; i++)
        sum += i * (uint32_t)l->s[i];
    l->place = sum / divisor;
    return WIM_DONE;
}

/* Makes a call twice; the name stands before the lines of each. */
static int divided(const struct call *call, size_t hides)
{
    static const char *const secrets[2] = {"as they are", "others"};

    for (int i = 0; i < 2; i++) {
        uint32_t refusal;

        printf("%s|%s|%s\n", lent.scheme->name, call->name, secrets[i]);
        if (i == 1)
            hide(hides);
        if (!divisions_watch(1))
            return 0;
        refusal = call->make(&lent);
        if (!divisions_watch(0) || refusal != WIM_DONE)
            return 0;
    }
    return 1;
}

int main(int count, char **words)
{
    divides = count == 2;
    if (divides && !divisions_read(words[1]))
        return EXIT_FAILURE;
    for (uint32_t k = 0; wim_sizes(k) != NULL; k++) {
        if (draw_all(&lent, wim_sizes(k)) != WIM_DONE)
            return EXIT_FAILURE;
        for (size_t i = 0; i < CALLS + sizeof more / sizeof *more; i++) {
            const struct call *call = i < CALLS ? &calls[i] : &more[i - CALLS];
            uint32_t refusal;
            unsigned before, after;
            /* a stream, a seed and their numbers are public, and so are settings */
            if (i == EXPAND || i == GROW || i == SETTINGS_WRITE || i == SETTINGS_READ)
                continue;
            if (i >= ROWS_OFFER_BEGIN && i < CALLS && lent.scheme->state == 0)
                continue;
            if (divides) {
                if (!divided(call, i))
                    return EXIT_FAILURE;
                continue;
            }
            VALGRIND_PRINTF("call %s, %s\n", lent.scheme->name, call->name);
            hide(i);
            before = VALGRIND_COUNT_ERRORS;
            refusal = call->make(&lent);
            after = VALGRIND_COUNT_ERRORS;
            /* answers, refusal and secrets are looked at here, and by the next call */
            VALGRIND_MAKE_MEM_DEFINED(&lent, sizeof lent);
            VALGRIND_MAKE_MEM_DEFINED(&refusal, sizeof refusal);
            printf("%s|%s|%u\n", lent.scheme->name, call->name, after - before);
            if (refusal != WIM_DONE)
                return EXIT_FAILURE;
        }
    }
    if (divides) {
        const struct call canary = {"divide_a_secret", divide_a_secret};

        return divided(&canary, OFFER) ? EXIT_SUCCESS : EXIT_FAILURE;
    }
    return EXIT_SUCCESS;
}
