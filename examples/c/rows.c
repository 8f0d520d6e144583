/*
 * An exchange in Frodo Recommended between two boxes that never hold A: each makes it row by row
 * from the seed, by SHAKE-128 of the seed and the row's number, and lends it to the calls by rows.
 * A has 565504 numbers, 2209 KiB; a row has 752.
 *
 * Both boxes run here one after the other, each on a stack of its own that was filled with a
 * pattern, so that it can be told how much memory each took: its own buffers, which are a struct,
 * and its stack. Then each begins again, and its state is made that of another build. Fails where
 * the keys differ, a box took more than MOST bytes or a call takes that state.
 */
#define _POSIX_C_SOURCE 200809L

#include "draw.h"

#include <pthread.h>
#include <stdio.h>
#include <stdlib.h>
#include <string.h>

#define ROW WIM_FRODO_RECOMMENDED_ROW
#define STATE WIM_FRODO_RECOMMENDED_STATE
#define S WIM_FRODO_RECOMMENDED_S
#define E2 WIM_FRODO_RECOMMENDED_E2
#define SEED WIM_FRODO_RECOMMENDED_SEED

#define STACK ((size_t)1 << 20)
#define PATTERN 0xA5
#define MOST ((size_t)256 << 10)

static const struct wim_sizes *scheme;

/* Row i of A: SHAKE-128 of the seed and i, two bytes a number, the lower byte first, of which 15
 * bits are taken. This is the boxes' own rule: any that both know will do. */
struct row {
    uint8_t input[SEED + 2], bytes[2 * ROW];
    uint32_t numbers[ROW];
};

static uint32_t make_row(struct row *row, const uint8_t *seed, size_t i)
{
    uint64_t place, written;
    uint32_t refusal;

    memcpy(row->input, seed, SEED);
    row->input[SEED] = (uint8_t)i;
    row->input[SEED + 1] = (uint8_t)(i >> 8);
    refusal = wim_shake128(row->input, sizeof row->input, row->bytes, sizeof row->bytes, &place,
                           &written);
    for (size_t j = 0; j < ROW; j++)
        row->numbers[j] =
            (row->bytes[2 * j] | (uint32_t)row->bytes[2 * j + 1] << 8) % WIM_FRODO_RECOMMENDED_Q;
    return refusal;
}

/* What passes between the boxes, and what is shown. */
static uint8_t opening[WIM_FRODO_RECOMMENDED_OPENING], reply[WIM_FRODO_RECOMMENDED_REPLY];

struct initiator {
    uint32_t state[STATE];
    int32_t s[S], e[S];
    uint8_t seed[SEED], key[WIM_FRODO_RECOMMENDED_KEY], digest[WIM_DIGEST];
    struct row row;
};

struct replier {
    uint32_t state[STATE];
    int32_t s1[S], e1[S], e2[E2];
    uint8_t key[WIM_FRODO_RECOMMENDED_KEY], digest[WIM_DIGEST];
    struct row row;
};

static struct initiator one;
static struct replier other;

/* Each gives 0 or the refusal. A box that gives up zeroes its state; this program just ends. */
static uint32_t initiate(void)
{
    uint64_t random = 1, place, written;
    uint32_t refusal;

    draw_bytes(&random, one.seed, SEED);
    refusal = draw_secrets(&random, scheme, one.s, S, scheme->s_bytes);
    if (refusal == WIM_DONE)
        refusal = draw_secrets(&random, scheme, one.e, S, scheme->s_bytes);
    if (refusal == WIM_DONE)
        refusal = wim_rows_offer_begin(scheme->number, one.s, S, one.e, S, one.seed, SEED,
                                       one.state, STATE, &place);
    for (size_t i = 0; i < ROW && refusal == WIM_DONE; i++) {
        refusal = make_row(&one.row, one.seed, i);
        if (refusal == WIM_DONE)
            refusal = wim_rows_offer_part(one.row.numbers, ROW, one.state, STATE, &place);
    }
    if (refusal == WIM_DONE)
        refusal = wim_rows_offer_end(one.state, STATE, opening, sizeof opening, &place, &written);
    return refusal;
}

/* The seed stands at the start of the opening. Row i comes in two parts, cut behind i numbers. */
static uint32_t answer(void)
{
    uint64_t random = 2, place, written, key_written, digest_written;
    uint32_t refusal = draw_secrets(&random, scheme, other.s1, S, scheme->s_bytes);

    if (refusal == WIM_DONE)
        refusal = draw_secrets(&random, scheme, other.e1, S, scheme->s_bytes);
    if (refusal == WIM_DONE)
        refusal = draw_secrets(&random, scheme, other.e2, E2, scheme->e2_bytes);
    if (refusal == WIM_DONE)
        refusal = wim_rows_reply_begin(scheme->number, opening, sizeof opening, other.s1, S,
                                       other.e1, S, other.e2, E2, other.state, STATE, &place);
    for (size_t i = 0; i < ROW && refusal == WIM_DONE; i++) {
        refusal = make_row(&other.row, opening, i);
        if (refusal == WIM_DONE)
            refusal = wim_rows_reply_part(other.row.numbers, i, other.state, STATE, &place);
        if (refusal == WIM_DONE)
            refusal = wim_rows_reply_part(other.row.numbers + i, ROW - i, other.state, STATE,
                                          &place);
    }
    if (refusal == WIM_DONE)
        refusal = wim_rows_reply_end(other.state, STATE, reply, sizeof reply, other.key,
                                     sizeof other.key, other.digest, sizeof other.digest, &place,
                                     &written, &key_written, &digest_written);
    return refusal;
}

static uint32_t finish(void)
{
    uint64_t place, key_written, digest_written, slack, slack_index;

    return wim_finish(scheme->number, reply, sizeof reply, one.s, S, one.key, sizeof one.key,
                      one.digest, sizeof one.digest, &place, &key_written, &digest_written, &slack,
                      &slack_index);
}

static uint32_t (*step)(void);
static uint32_t told;
static uint8_t *frame;

static void *box(void *unused)
{
    uint8_t here;

    (void)unused;
    frame = &here;
    told = step();
    return NULL;
}

/* Takes a box's step on a stack of its own, which is overwritten as a whole before the next; how
 * many bytes of it, or 0 where the step was refused or could not be taken. */
static size_t taken(uint8_t *stack, uint32_t (*own)(void))
{
    pthread_attr_t attributes;
    pthread_t thread;
    size_t i = 0;

    step = own;
    memset(stack, PATTERN, STACK);
    if (pthread_attr_init(&attributes) != 0 ||
        pthread_attr_setstack(&attributes, stack, STACK) != 0 ||
        pthread_create(&thread, &attributes, box, NULL) != 0)
        return 0;
    pthread_join(thread, NULL);
    pthread_attr_destroy(&attributes);
    if (told != WIM_DONE)
        return 0;
    while (stack[i] == PATTERN)
        i++;
    return (size_t)(frame - (stack + i));
}

static int show(const char *what, size_t buffers, size_t stack)
{
    printf("%-22s %6zu bytes of its own, of them %6zu the state and %4zu a row; %6zu of stack\n",
           what, buffers, STATE * sizeof *one.state, ROW * sizeof *one.row.numbers, stack);
    return stack != 0 && buffers + stack <= MOST;
}

static int zero(const uint32_t *state)
{
    for (size_t i = 0; i < STATE; i++)
        if (state[i] != 0)
            return 0;
    return 1;
}

static int zero_bytes(const uint8_t *bytes, size_t count)
{
    for (size_t i = 0; i < count; i++)
        if (bytes[i] != 0)
            return 0;
    return 1;
}

/* A state of another build counts as none, since its first number is another: in earlier layouts 1
 * for Offer and 2 for Reply. An empty part and an end are refused with 11, though all of A has come
 * by the state's count. They leave the state as it was, and the outputs zero. */
static uint32_t was[STATE];
static uint8_t message[sizeof opening + sizeof reply], key[sizeof other.key], digest[WIM_DIGEST];

static void another_build(uint32_t *state, uint32_t first)
{
    state[0] = first;
    state[2] = ROW * ROW;
    memcpy(was, state, sizeof was);
    memset(message, PATTERN, sizeof message);
    memset(key, PATTERN, sizeof key);
    memset(digest, PATTERN, sizeof digest);
}

static int counts_as_none(void)
{
    uint64_t place, written, key_written, digest_written;
    int fine = wim_rows_offer_begin(scheme->number, one.s, S, one.e, S, one.seed, SEED, one.state,
                                    STATE, &place) == WIM_DONE;

    another_build(one.state, 1);
    fine = fine && wim_rows_offer_part(NULL, 0, one.state, STATE, &place) == WIM_OUT_OF_TURN &&
           wim_rows_offer_end(one.state, STATE, message, sizeof message, &place, &written) ==
               WIM_OUT_OF_TURN &&
           memcmp(was, one.state, sizeof was) == 0 && zero_bytes(message, sizeof message) &&
           wim_rows_reply_begin(scheme->number, opening, sizeof opening, other.s1, S, other.e1, S,
                                other.e2, E2, other.state, STATE, &place) == WIM_DONE;
    another_build(other.state, 2);
    return fine &&
           wim_rows_reply_part(NULL, 0, other.state, STATE, &place) == WIM_OUT_OF_TURN &&
           wim_rows_reply_end(other.state, STATE, message, sizeof message, key, sizeof key, digest,
                              sizeof digest, &place, &written, &key_written, &digest_written) ==
               WIM_OUT_OF_TURN &&
           memcmp(was, other.state, sizeof was) == 0 && zero_bytes(message, sizeof message) &&
           zero_bytes(key, sizeof key) && zero_bytes(digest, sizeof digest);
}

int main(void)
{
    void *stack = NULL;
    int fine = posix_memalign(&stack, 65536, STACK) == 0;

    scheme = wim_sizes(WIM_FRODO_RECOMMENDED);
    fine = fine && show("the initiator's offer", sizeof one, taken(stack, initiate));
    fine = fine && show("the replier's reply", sizeof other, taken(stack, answer));
    fine = fine && show("the initiator's finish", sizeof one, taken(stack, finish));
    fine = fine && zero(one.state) && zero(other.state) &&
           memcmp(one.key, other.key, sizeof one.key) == 0 &&
           memcmp(one.digest, other.digest, WIM_DIGEST) == 0 && counts_as_none();
    printf("%s by rows: %s; A would have taken %zu bytes\n", scheme->name,
           fine ? "both boxes have one key" : "it failed",
           (size_t)WIM_FRODO_RECOMMENDED_A * sizeof(uint32_t));
    free(stack);
    return fine ? EXIT_SUCCESS : EXIT_FAILURE;
}
