/*
 * A null pointer with length 0 is an empty slice like any other: each input and output of each
 * call in turn, all of them at once, and the seed of BCNS, the coins of Frodo and the table of the
 * schemes other than BCNS, which are empty in accepted calls. Fails where a call gives another refusal than the header says.
 */
#include "calls.h"

#include <stdio.h>
#include <stdlib.h>
#include <string.h>

static struct lent lent;
static const struct wim_sizes *x;
static uint64_t place, written, key_written, digest_written, slack, slack_index;
static int failures;

/* Calls without a slack leave its two numbers at 0. */
static void held(const char *call, int nulls, uint32_t refusal, uint32_t expected)
{
    int zero = place == 0 && written == 0 && slack == 0 && slack_index == 0;

    slack = slack_index = 0;
    if (refusal == expected && (refusal == WIM_DONE || zero))
        return;
    printf("%s in %s, empty %x: %u in place of %u\n", call, x->name, (unsigned)nulls,
           (unsigned)refusal, (unsigned)expected);
    failures++;
}

/* A slice, or an empty one with a null pointer where its bit is set. */
#define LEND(BIT, SLICE, LENGTH) \
    (nulls >> (BIT) & 1 ? NULL : (SLICE)), (nulls >> (BIT) & 1 ? 0 : (size_t)(LENGTH))

/* What inputs of these fixed lengths, or else an output, give with some of them empty. */
static uint32_t expected(int nulls, const size_t *lengths, int inputs, int outputs)
{
    for (int i = 0; i < inputs; i++)
        if ((nulls >> i & 1) != 0 && lengths[i] != 0)
            return WIM_LENGTH;
    return nulls >> inputs & ((1 << outputs) - 1) ? WIM_ROOM : WIM_DONE;
}

static void offer(int nulls)
{
    const size_t lengths[] = {x->a, x->s, x->s, x->seed};
    uint32_t refusal = wim_offer(x->number, LEND(0, lent.a, x->a), LEND(1, lent.s, x->s),
                                 LEND(2, lent.e, x->s), LEND(3, lent.seed, x->seed),
                                 LEND(4, lent.opening, x->opening), &place, &written);

    held("wim_offer", nulls, refusal, expected(nulls, lengths, 4, 1));
}

static void reply(int nulls)
{
    const size_t lengths[] = {x->opening, x->a, x->s, x->s, x->e2, x->coins};
    uint32_t refusal =
        wim_reply(x->number, LEND(0, lent.opening, x->opening), LEND(1, lent.a, x->a),
                  LEND(2, lent.s1, x->s), LEND(3, lent.e1, x->s), LEND(4, lent.e2, x->e2),
                  LEND(5, lent.coins, x->coins), LEND(6, lent.reply, x->reply),
                  LEND(7, lent.key, x->key), LEND(8, lent.digest, WIM_DIGEST), &place, &written,
                  &key_written, &digest_written);

    held("wim_reply", nulls, refusal, expected(nulls, lengths, 6, 3));
}

static void finish(int nulls)
{
    const size_t lengths[] = {x->reply, x->s};
    uint32_t refusal;

    slack = slack_index = 9;
    refusal = wim_finish(x->number, LEND(0, lent.reply, x->reply), LEND(1, lent.s, x->s),
                         LEND(2, lent.key, x->key), LEND(3, lent.digest, WIM_DIGEST), &place,
                         &written, &digest_written, &slack, &slack_index);

    held("wim_finish", nulls, refusal, expected(nulls, lengths, 2, 2));
}

/* Both rules, and one that there is not. */
static const uint32_t rules[] = {WIM_RULE_LOW_BITS, WIM_RULE_WHOLE_WORD, 15};
static uint32_t rule;

/* NewHope's public numbers are empty in accepted calls, and the table but in BCNS. */
static uint32_t ruled(uint32_t known)
{
    return rule == rules[2] ? WIM_NO_RULE : known;
}

static void open_(int nulls)
{
    const size_t lengths[] = {x->lent_a, x->table, x->open_bytes};
    uint32_t refusal =
        wim_open(x->number, rule, LEND(0, lent.a, x->lent_a), LEND(1, wim_bcns_table, x->table),
                 LEND(2, lent.open_random, x->open_bytes), LEND(3, lent.opening, x->opening),
                 LEND(4, lent.values, x->s), &place, &written, &key_written);

    held("wim_open", nulls, refusal, ruled(expected(nulls, lengths, 3, 2)));
}

static void answer(int nulls)
{
    const size_t lengths[] = {x->opening, x->lent_a, x->table, x->answer_bytes};
    uint32_t refusal =
        wim_answer(x->number, rule, LEND(0, lent.opening, x->opening), LEND(1, lent.a, x->lent_a),
                   LEND(2, wim_bcns_table, x->table),
                   LEND(3, lent.answer_random, x->answer_bytes), LEND(4, lent.reply, x->reply),
                   LEND(5, lent.key, x->key), LEND(6, lent.digest, WIM_DIGEST), &place, &written,
                   &key_written, &digest_written);

    held("wim_answer", nulls, refusal, ruled(expected(nulls, lengths, 4, 3)));
}

static void noise(int nulls)
{
    const size_t lengths[] = {x->s_bytes, x->table};
    uint32_t refusal =
        wim_noise(x->number, LEND(0, lent.bytes, x->s_bytes), LEND(1, wim_bcns_table, x->table),
                  LEND(2, lent.values, x->s), &place, &written);

    held("wim_noise", nulls, refusal, expected(nulls, lengths, 2, 1));
}

/* An empty stream is no bad length: it runs out. */
static void expand(int nulls)
{
    uint32_t refusal = wim_expand(rule, LEND(0, lent.stream, sizeof lent.stream),
                                  LEND(1, lent.numbers, WIM_EXPAND_NUMBERS), &place, &written);
    uint32_t known = nulls >> 1 ? WIM_ROOM : nulls ? WIM_RAN_OUT : WIM_DONE;

    held("wim_expand", nulls, refusal, ruled(known));
}

static void grow(int nulls)
{
    const size_t lengths[] = {WIM_NEWHOPE_SEED};
    uint32_t refusal = wim_grow(rule, LEND(0, lent.seed, WIM_NEWHOPE_SEED),
                                LEND(1, lent.numbers, WIM_EXPAND_NUMBERS), &place, &written);

    held("wim_grow", nulls, refusal, ruled(expected(nulls, lengths, 1, 1)));
}

/* An empty input has a hash, and an empty output is full. */
static void shake128(int nulls)
{
    uint32_t refusal = wim_shake128(LEND(0, lent.bytes, sizeof lent.bytes),
                                    LEND(1, lent.shaken, sizeof lent.shaken), &place, &written);

    held("wim_shake128", nulls, refusal, WIM_DONE);
}

static void sha3_256(int nulls)
{
    uint32_t refusal = wim_sha3_256(LEND(0, lent.bytes, sizeof lent.bytes),
                                    LEND(1, lent.hashed, WIM_DIGEST), &place, &written);

    held("wim_sha3_256", nulls, refusal, nulls >> 1 ? WIM_ROOM : WIM_DONE);
}

/* The scratch is an output too. */
static void product(int nulls)
{
    const size_t lengths[] = {WIM_PRODUCT, WIM_PRODUCT};
    uint32_t refusal =
        wim_product(LEND(0, lent.factors[0], WIM_PRODUCT), LEND(1, lent.factors[1], WIM_PRODUCT),
                    LEND(2, lent.product, WIM_PRODUCT), LEND(3, lent.scratch, 6 * WIM_PRODUCT),
                    &place, &written);

    held("wim_product", nulls, refusal, expected(nulls, lengths, 2, 2));
}

static void bench(int nulls)
{
    const size_t lengths[] = {x->a, x->s, x->s, x->seed, x->s, x->s, x->e2, x->coins};
    uint32_t refusal;

    slack = slack_index = 9;
    refusal =
        wim_bench(x->number, LEND(0, lent.a, x->a), LEND(1, lent.s, x->s), LEND(2, lent.e, x->s),
                  LEND(3, lent.seed, x->seed), LEND(4, lent.s1, x->s), LEND(5, lent.e1, x->s),
                  LEND(6, lent.e2, x->e2), LEND(7, lent.coins, x->coins), &place, &written, &slack,
                  &slack_index);

    held("wim_bench", nulls, refusal, expected(nulls, lengths, 8, 0));
}

/* A session that is empty is in no stage, whatever else is; close has nothing to zero. */
static uint32_t in_stage(int nulls, const size_t *lengths, int inputs, int outputs)
{
    return nulls & 1 ? WIM_OUT_OF_STAGE : expected(nulls >> 1, lengths, inputs, outputs);
}

static void session_offer(int nulls)
{
    const size_t lengths[] = {x->a, x->s, x->s, x->seed};
    uint32_t refusal;

    stand(&lent, WIM_STAGE_IDLE);
    refusal = wim_session_offer(LEND(0, lent.session, WIM_SESSION), x->number,
                                LEND(1, lent.a, x->a), LEND(2, lent.s, x->s),
                                LEND(3, lent.e, x->s), LEND(4, lent.seed, x->seed),
                                LEND(5, lent.opening, x->opening), &place, &written);
    held("wim_session_offer", nulls, refusal, in_stage(nulls, lengths, 4, 1));
}

static void session_reply(int nulls)
{
    const size_t lengths[] = {x->opening, x->a, x->s, x->s, x->e2, x->coins};
    uint32_t refusal;

    stand(&lent, WIM_STAGE_IDLE);
    refusal = wim_session_reply(LEND(0, lent.session, WIM_SESSION), x->number,
                                LEND(1, lent.opening, x->opening), LEND(2, lent.a, x->a),
                                LEND(3, lent.s1, x->s), LEND(4, lent.e1, x->s),
                                LEND(5, lent.e2, x->e2), LEND(6, lent.coins, x->coins),
                                LEND(7, lent.reply, x->reply), LEND(8, lent.key, x->key),
                                LEND(9, lent.digest, WIM_DIGEST), &place, &written, &key_written,
                                &digest_written);
    held("wim_session_reply", nulls, refusal, in_stage(nulls, lengths, 6, 3));
}

static void session_finish(int nulls)
{
    const size_t lengths[] = {x->reply, x->s};
    uint32_t refusal;

    stand(&lent, WIM_STAGE_OFFERED);
    slack = slack_index = 9;
    refusal = wim_session_finish(LEND(0, lent.session, WIM_SESSION), x->number,
                                 LEND(1, lent.reply, x->reply), LEND(2, lent.s, x->s),
                                 LEND(3, lent.key, x->key), LEND(4, lent.digest, WIM_DIGEST),
                                 &place, &written, &digest_written, &slack, &slack_index);
    held("wim_session_finish", nulls, refusal, in_stage(nulls, lengths, 2, 2));
}

/* Refusal 10 comes before the rule's. */
static void session_open(int nulls)
{
    const size_t lengths[] = {x->lent_a, x->table, x->open_bytes};
    uint32_t refusal;

    stand(&lent, WIM_STAGE_IDLE);
    refusal = wim_session_open(LEND(0, lent.session, WIM_SESSION), x->number, rule,
                               LEND(1, lent.a, x->lent_a), LEND(2, wim_bcns_table, x->table),
                               LEND(3, lent.open_random, x->open_bytes),
                               LEND(4, lent.opening, x->opening), LEND(5, lent.values, x->s),
                               &place, &written, &key_written);
    held("wim_session_open", nulls, refusal,
         nulls & 1 ? WIM_OUT_OF_STAGE : ruled(expected(nulls >> 1, lengths, 3, 2)));
}

static void session_answer(int nulls)
{
    const size_t lengths[] = {x->opening, x->lent_a, x->table, x->answer_bytes};
    uint32_t refusal;

    stand(&lent, WIM_STAGE_IDLE);
    refusal = wim_session_answer(LEND(0, lent.session, WIM_SESSION), x->number, rule,
                                 LEND(1, lent.opening, x->opening), LEND(2, lent.a, x->lent_a),
                                 LEND(3, wim_bcns_table, x->table),
                                 LEND(4, lent.answer_random, x->answer_bytes),
                                 LEND(5, lent.reply, x->reply), LEND(6, lent.key, x->key),
                                 LEND(7, lent.digest, WIM_DIGEST), &place, &written, &key_written,
                                 &digest_written);
    held("wim_session_answer", nulls, refusal,
         nulls & 1 ? WIM_OUT_OF_STAGE : ruled(expected(nulls >> 1, lengths, 4, 3)));
}

static void session_close(int nulls)
{
    held("wim_session_close", nulls, wim_session_close(LEND(0, lent.session, WIM_SESSION)),
         WIM_DONE);
}

/* So it is with a rack. */
static void rack_offer(int nulls)
{
    const size_t lengths[] = {x->a, x->s, x->s, x->seed};
    uint32_t refusal;

    stand_all(&lent, WIM_STAGE_IDLE);
    refusal = wim_rack_offer(LEND(0, lent.rack, WIM_RACK), STUDIO, x->number,
                             LEND(1, lent.a, x->a), LEND(2, lent.s, x->s), LEND(3, lent.e, x->s),
                             LEND(4, lent.seed, x->seed), LEND(5, lent.opening, x->opening), &place,
                             &written);
    held("wim_rack_offer", nulls, refusal, in_stage(nulls, lengths, 4, 1));
}

static void rack_reply(int nulls)
{
    const size_t lengths[] = {x->opening, x->a, x->s, x->s, x->e2, x->coins};
    uint32_t refusal;

    stand_all(&lent, WIM_STAGE_IDLE);
    refusal = wim_rack_reply(LEND(0, lent.rack, WIM_RACK), STUDIO, x->number,
                             LEND(1, lent.opening, x->opening), LEND(2, lent.a, x->a),
                             LEND(3, lent.s1, x->s), LEND(4, lent.e1, x->s),
                             LEND(5, lent.e2, x->e2), LEND(6, lent.coins, x->coins),
                             LEND(7, lent.reply, x->reply), LEND(8, lent.key, x->key),
                             LEND(9, lent.digest, WIM_DIGEST), &place, &written, &key_written,
                             &digest_written);
    held("wim_rack_reply", nulls, refusal, in_stage(nulls, lengths, 6, 3));
}

static void rack_finish(int nulls)
{
    const size_t lengths[] = {x->reply, x->s};
    uint32_t refusal;

    stand_all(&lent, WIM_STAGE_OFFERED);
    slack = slack_index = 9;
    refusal = wim_rack_finish(LEND(0, lent.rack, WIM_RACK), STUDIO, x->number,
                              LEND(1, lent.reply, x->reply), LEND(2, lent.s, x->s),
                              LEND(3, lent.key, x->key), LEND(4, lent.digest, WIM_DIGEST), &place,
                              &written, &digest_written, &slack, &slack_index);
    held("wim_rack_finish", nulls, refusal, in_stage(nulls, lengths, 2, 2));
}

static void rack_close(int nulls)
{
    written = 0;
    held("wim_rack_close", nulls,
         wim_rack_close(LEND(0, lent.rack, WIM_RACK), STUDIO, &place),
         nulls ? WIM_OUT_OF_STAGE : WIM_DONE);
}

static void rack_clear(int nulls)
{
    written = 0;
    held("wim_rack_clear", nulls, wim_rack_clear(LEND(0, lent.rack, WIM_RACK), &place),
         nulls ? WIM_OUT_OF_STAGE : WIM_DONE);
}

/* No label is no bad length either, and an empty text is no settings. */
static void settings_write(int nulls)
{
    static const uint8_t label[] = "STUDIO7";
    uint32_t refusal = wim_settings_write(x->number, WIM_RULE_LOW_BITS, LEND(0, label, 7),
                                          LEND(1, lent.text, WIM_SETTINGS_TEXT), &place, &written);

    held("wim_settings_write", nulls, refusal, nulls >> 1 ? WIM_ROOM : WIM_DONE);
}

static void settings_read(int nulls)
{
    uint64_t format = 9, scheme = 9, number = 9;
    uint32_t refusal = wim_settings_read(WIM_SETTINGS_FORMAT, LEND(0, lent.text, 40),
                                         LEND(1, lent.label, WIM_SETTINGS_LABEL), &place, &written,
                                         &format, &scheme, &number);
    int zero = format == 0 && scheme == 0 && number == 0;

    held("wim_settings_read", nulls, refusal,
         nulls & 1 ? WIM_MISFIT : nulls >> 1 ? WIM_ROOM : WIM_DONE);
    failures += zero != (refusal != WIM_DONE);
}

/* By rows: other schemes than Frodo's have none, and an empty state is no begun one. */
static void rows_offer_begin(int nulls)
{
    const size_t lengths[] = {x->s, x->s, x->seed, x->state};
    uint32_t refusal = wim_rows_offer_begin(
        x->number, LEND(0, lent.s, x->s), LEND(1, lent.e, x->s), LEND(2, lent.seed, x->seed),
        LEND(3, lent.state, x->state), &place);

    written = 0;
    held("wim_rows_offer_begin", nulls, refusal,
         x->state == 0 ? WIM_NO_SCHEME : expected(nulls, lengths, 4, 0));
}

static void rows_reply_begin(int nulls)
{
    const size_t lengths[] = {x->opening, x->s, x->s, x->e2, x->state};
    uint32_t refusal = wim_rows_reply_begin(
        x->number, LEND(0, lent.opening, x->opening), LEND(1, lent.s1, x->s),
        LEND(2, lent.e1, x->s), LEND(3, lent.e2, x->e2), LEND(4, lent.state, x->state), &place);

    written = 0;
    held("wim_rows_reply_begin", nulls, refusal,
         x->state == 0 ? WIM_NO_SCHEME : expected(nulls, lengths, 5, 0));
}

/* An empty part is taken. */
static void rows_part(int nulls)
{
    uint32_t none = nulls >> 1 || x->state == 0 ? WIM_OUT_OF_TURN : WIM_DONE;
    uint32_t refusal;

    written = 0;
    memcpy(lent.state, lent.offer_fifteen, sizeof lent.state);
    refusal = wim_rows_offer_part(LEND(0, lent.a, x->row), LEND(1, lent.state, x->state), &place);
    held("wim_rows_offer_part", nulls, refusal, none);
    memcpy(lent.state, lent.reply_fifteen, sizeof lent.state);
    refusal = wim_rows_reply_part(LEND(0, lent.a, x->row), LEND(1, lent.state, x->state), &place);
    held("wim_rows_reply_part", nulls, refusal, none);
}

static void rows_offer_end(int nulls)
{
    uint32_t none = nulls & 1 || x->state == 0 ? WIM_OUT_OF_TURN : nulls ? WIM_ROOM : WIM_DONE;
    uint32_t refusal;

    memcpy(lent.state, lent.offer_full, sizeof lent.state);
    refusal = wim_rows_offer_end(LEND(0, lent.state, x->state), LEND(1, lent.opening, x->opening),
                                 &place, &written);
    held("wim_rows_offer_end", nulls, refusal, none);
}

static void rows_reply_end(int nulls)
{
    uint32_t none = nulls & 1 || x->state == 0 ? WIM_OUT_OF_TURN : nulls ? WIM_ROOM : WIM_DONE;
    uint32_t refusal;

    memcpy(lent.state, lent.reply_full, sizeof lent.state);
    refusal = wim_rows_reply_end(LEND(0, lent.state, x->state), LEND(1, lent.reply, x->reply),
                                 LEND(2, lent.key, x->key), LEND(3, lent.digest, WIM_DIGEST),
                                 &place, &written, &key_written, &digest_written);
    held("wim_rows_reply_end", nulls, refusal, none);
}

static int made;

/* None empty, each of the slices in turn, and all of them. */
static void each(void (*call)(int), int slices)
{
    call(0);
    for (int i = 0; i < slices; i++)
        call(1 << i);
    call((1 << slices) - 1);
    made += slices + 2;
}

int main(void)
{
    for (uint32_t k = 0; (x = wim_sizes(k)) != NULL; k++) {
        if (draw_all(&lent, x) != WIM_DONE)
            return EXIT_FAILURE;
        each(offer, 5);
        offer(0); /* the last offer was refused, and left no opening */
        each(reply, 9);
        reply(0);
        each(finish, 4);
        each(noise, 3);
        for (int i = 0; i < 3; i++) {
            rule = rules[i];
            each(expand, 2);
            each(grow, 2);
            offer(0); /* for the rule that there is not, under which no open leaves one */
            each(answer, 7);
            each(session_answer, 8);
            each(open_, 5);
            each(session_open, 6);
        }
        each(shake128, 2);
        each(sha3_256, 2);
        each(product, 4);
        each(bench, 8);
        each(session_offer, 6);
        session_offer(0);
        each(session_reply, 10);
        session_reply(0);
        each(session_finish, 5);
        each(session_close, 1);
        each(rack_offer, 6);
        rack_offer(0);
        each(rack_reply, 10);
        rack_reply(0);
        each(rack_finish, 5);
        each(rack_close, 1);
        each(rack_clear, 1);
        each(settings_write, 2);
        settings_write(0);
        each(settings_read, 2);
        each(rows_offer_begin, 4);
        each(rows_offer_end, 2);
        offer(0); /* that end was refused too, and so was it in other schemes */
        each(rows_reply_begin, 5);
        each(rows_part, 2);
        each(rows_reply_end, 4);
    }
    printf("null pointers at length 0: %d calls, %d wrong\n", made, failures);
    return failures == 0 ? EXIT_SUCCESS : EXIT_FAILURE;
}
