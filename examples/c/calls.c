#include "calls.h"

#include <string.h>

static uint32_t offer(struct lent *l)
{
    const struct wim_sizes *x = l->scheme;

    return wim_offer(x->number, l->a, x->a, l->s, x->s, l->e, x->s, l->seed, x->seed, l->opening,
                     sizeof l->opening, &l->place, &l->written);
}

static uint32_t reply(struct lent *l)
{
    const struct wim_sizes *x = l->scheme;

    return wim_reply(x->number, l->opening, x->opening, l->a, x->a, l->s1, x->s, l->e1, x->s, l->e2,
                     x->e2, l->coins, x->coins, l->reply, sizeof l->reply, l->key, sizeof l->key,
                     l->digest, sizeof l->digest, &l->place, &l->written, &l->key_written,
                     &l->digest_written);
}

static uint32_t finish(struct lent *l)
{
    const struct wim_sizes *x = l->scheme;

    return wim_finish(x->number, l->reply, x->reply, l->s, x->s, l->peer_key, sizeof l->peer_key,
                      l->peer_digest, sizeof l->peer_digest, &l->place, &l->key_written,
                      &l->digest_written, &l->slack, &l->slack_index);
}

static uint32_t open_(struct lent *l)
{
    const struct wim_sizes *x = l->scheme;

    return wim_open(x->number, WIM_RULE_LOW_BITS, l->a, x->lent_a, wim_bcns_table, x->table,
                    l->open_random, x->open_bytes, l->opening, sizeof l->opening, l->values,
                    WIM_MAX_S, &l->place, &l->written, &l->s_written);
}

static uint32_t answer(struct lent *l)
{
    const struct wim_sizes *x = l->scheme;

    return wim_answer(x->number, WIM_RULE_LOW_BITS, l->opening, x->opening, l->a, x->lent_a,
                      wim_bcns_table, x->table, l->answer_random, x->answer_bytes, l->reply,
                      sizeof l->reply, l->key, sizeof l->key, l->digest, sizeof l->digest,
                      &l->place, &l->written, &l->key_written, &l->digest_written);
}

static uint32_t noise(struct lent *l)
{
    const struct wim_sizes *x = l->scheme;

    return wim_noise(x->number, l->bytes, x->s_bytes, wim_bcns_table, x->table, l->values,
                     WIM_MAX_S, &l->place, &l->written);
}

/* By the one rule and then by the other. */
static uint32_t expand(struct lent *l)
{
    uint32_t refusal = wim_expand(WIM_RULE_LOW_BITS, l->stream, sizeof l->stream, l->numbers,
                                  WIM_EXPAND_NUMBERS, &l->place, &l->written);

    if (refusal != WIM_DONE)
        return refusal;
    return wim_expand(WIM_RULE_WHOLE_WORD, l->stream, sizeof l->stream, l->numbers,
                      WIM_EXPAND_NUMBERS, &l->place, &l->written);
}

/* By both rules, as above. */
static uint32_t grow(struct lent *l)
{
    uint32_t refusal = wim_grow(WIM_RULE_LOW_BITS, l->seed, WIM_NEWHOPE_SEED, l->numbers,
                                WIM_EXPAND_NUMBERS, &l->place, &l->written);

    if (refusal != WIM_DONE)
        return refusal;
    return wim_grow(WIM_RULE_WHOLE_WORD, l->seed, WIM_NEWHOPE_SEED, l->numbers, WIM_EXPAND_NUMBERS,
                    &l->place, &l->written);
}

static uint32_t shake128(struct lent *l)
{
    return wim_shake128(l->bytes, sizeof l->bytes, l->shaken, sizeof l->shaken, &l->place,
                        &l->written);
}

static uint32_t sha3_256(struct lent *l)
{
    return wim_sha3_256(l->bytes, sizeof l->bytes, l->hashed, sizeof l->hashed, &l->place,
                        &l->written);
}

static uint32_t product(struct lent *l)
{
    return wim_product(l->factors[0], WIM_PRODUCT, l->factors[1], WIM_PRODUCT, l->product,
                       WIM_PRODUCT, l->scratch, 6 * WIM_PRODUCT, &l->place, &l->written);
}

static uint32_t bench(struct lent *l)
{
    const struct wim_sizes *x = l->scheme;

    return wim_bench(x->number, l->a, x->a, l->s, x->s, l->e, x->s, l->seed, x->seed, l->s1, x->s,
                     l->e1, x->s, l->e2, x->e2, l->coins, x->coins, &l->place, &l->differ,
                     &l->slack, &l->slack_index);
}

/* Byte by byte: memcpy leaves some of what it copies in vector registers, where residue.c would
 * take it for what a call has left. */
static void lay(void *to, const void *from, size_t count)
{
    volatile uint8_t *d = to;
    const uint8_t *s = from;

    for (size_t i = 0; i < count; i++)
        d[i] = s[i];
}

void stand(struct lent *l, uint8_t stage)
{
    memset(l->session, 0, sizeof l->session);
    if (stage == WIM_STAGE_IDLE)
        return;
    l->session[WIM_SESSION_STAGE] = stage;
    l->session[WIM_SESSION_SCHEME] = (uint8_t)l->scheme->number;
    if (stage == WIM_STAGE_KEYED)
        lay(l->session + WIM_SESSION_KEY, l->key, l->scheme->key);
}

static uint32_t session_offer(struct lent *l)
{
    const struct wim_sizes *x = l->scheme;

    stand(l, WIM_STAGE_IDLE);
    return wim_session_offer(l->session, sizeof l->session, x->number, l->a, x->a, l->s, x->s, l->e,
                             x->s, l->seed, x->seed, l->opening, sizeof l->opening, &l->place,
                             &l->written);
}

static uint32_t session_reply(struct lent *l)
{
    const struct wim_sizes *x = l->scheme;

    stand(l, WIM_STAGE_IDLE);
    return wim_session_reply(l->session, sizeof l->session, x->number, l->opening, x->opening, l->a,
                             x->a, l->s1, x->s, l->e1, x->s, l->e2, x->e2, l->coins, x->coins,
                             l->reply, sizeof l->reply, l->key, sizeof l->key, l->digest,
                             sizeof l->digest, &l->place, &l->written, &l->key_written,
                             &l->digest_written);
}

static uint32_t session_finish(struct lent *l)
{
    const struct wim_sizes *x = l->scheme;

    stand(l, WIM_STAGE_OFFERED);
    return wim_session_finish(l->session, sizeof l->session, x->number, l->reply, x->reply, l->s,
                              x->s, l->peer_key, sizeof l->peer_key, l->peer_digest,
                              sizeof l->peer_digest, &l->place, &l->key_written,
                              &l->digest_written, &l->slack, &l->slack_index);
}

static uint32_t session_open(struct lent *l)
{
    const struct wim_sizes *x = l->scheme;

    stand(l, WIM_STAGE_IDLE);
    return wim_session_open(l->session, sizeof l->session, x->number, WIM_RULE_LOW_BITS, l->a,
                            x->lent_a, wim_bcns_table, x->table, l->open_random, x->open_bytes,
                            l->opening, sizeof l->opening, l->values, WIM_MAX_S, &l->place,
                            &l->written, &l->s_written);
}

static uint32_t session_answer(struct lent *l)
{
    const struct wim_sizes *x = l->scheme;

    stand(l, WIM_STAGE_IDLE);
    return wim_session_answer(l->session, sizeof l->session, x->number, WIM_RULE_LOW_BITS,
                              l->opening, x->opening, l->a, x->lent_a, wim_bcns_table, x->table,
                              l->answer_random, x->answer_bytes, l->reply, sizeof l->reply, l->key,
                              sizeof l->key, l->digest, sizeof l->digest, &l->place, &l->written,
                              &l->key_written, &l->digest_written);
}

static uint32_t session_close(struct lent *l)
{
    stand(l, WIM_STAGE_KEYED);
    return wim_session_close(l->session, sizeof l->session);
}

void stand_all(struct lent *l, uint8_t stage)
{
    stand(l, stage);
    for (size_t i = 0; i < WIM_STUDIOS; i++) {
        uint8_t *record = l->rack + WIM_RECORD * i;
        record[WIM_RECORD_STUDIO] = (uint8_t)i;
        lay(record + WIM_RECORD_SESSION, l->session, WIM_SESSION);
    }
}

static uint32_t rack_offer(struct lent *l)
{
    const struct wim_sizes *x = l->scheme;

    stand_all(l, WIM_STAGE_IDLE);
    return wim_rack_offer(l->rack, sizeof l->rack, STUDIO, x->number, l->a, x->a, l->s, x->s, l->e,
                          x->s, l->seed, x->seed, l->opening, sizeof l->opening, &l->place,
                          &l->written);
}

static uint32_t rack_reply(struct lent *l)
{
    const struct wim_sizes *x = l->scheme;

    stand_all(l, WIM_STAGE_IDLE);
    return wim_rack_reply(l->rack, sizeof l->rack, STUDIO, x->number, l->opening, x->opening, l->a,
                          x->a, l->s1, x->s, l->e1, x->s, l->e2, x->e2, l->coins, x->coins,
                          l->reply, sizeof l->reply, l->key, sizeof l->key, l->digest,
                          sizeof l->digest, &l->place, &l->written, &l->key_written,
                          &l->digest_written);
}

static uint32_t rack_finish(struct lent *l)
{
    const struct wim_sizes *x = l->scheme;

    stand_all(l, WIM_STAGE_OFFERED);
    return wim_rack_finish(l->rack, sizeof l->rack, STUDIO, x->number, l->reply, x->reply, l->s,
                           x->s, l->peer_key, sizeof l->peer_key, l->peer_digest,
                           sizeof l->peer_digest, &l->place, &l->key_written, &l->digest_written,
                           &l->slack, &l->slack_index);
}

static uint32_t rack_close(struct lent *l)
{
    stand_all(l, WIM_STAGE_KEYED);
    return wim_rack_close(l->rack, sizeof l->rack, STUDIO, &l->place);
}

static uint32_t rack_clear(struct lent *l)
{
    stand_all(l, WIM_STAGE_KEYED);
    return wim_rack_clear(l->rack, sizeof l->rack, &l->place);
}

static uint32_t settings_write(struct lent *l)
{
    static const uint8_t label[] = "ABCDEFGHIJKLM789";

    return wim_settings_write(l->scheme->number, WIM_RULE_WHOLE_WORD, label, sizeof label - 1,
                              l->text, sizeof l->text, &l->place, &l->text_written);
}

static uint32_t settings_read(struct lent *l)
{
    return wim_settings_read(WIM_SETTINGS_FORMAT, l->text, (size_t)l->text_written, l->label,
                             sizeof l->label, &l->place, &l->written, &l->format, &l->scheme_read,
                             &l->rule_read);
}

/* The state that a call by rows starts from; whether there are rows at all. */
static int ready(struct lent *l, const uint32_t *state)
{
    lay(l->state, state, sizeof l->state);
    return l->scheme->state != 0;
}

static uint32_t rows_offer_begin(struct lent *l)
{
    const struct wim_sizes *x = l->scheme;

    if (!ready(l, l->offer_full))
        return WIM_DONE;
    return wim_rows_offer_begin(x->number, l->s, x->s, l->e, x->s, l->seed, x->seed, l->state,
                                x->state, &l->place);
}

/* The sixteenth row. */
static uint32_t rows_offer_part(struct lent *l)
{
    const struct wim_sizes *x = l->scheme;

    if (!ready(l, l->offer_fifteen))
        return WIM_DONE;
    return wim_rows_offer_part(l->a + 15 * x->row, x->row, l->state, x->state, &l->place);
}

static uint32_t rows_offer_end(struct lent *l)
{
    if (!ready(l, l->offer_full))
        return WIM_DONE;
    return wim_rows_offer_end(l->state, l->scheme->state, l->opening, sizeof l->opening, &l->place,
                              &l->written);
}

static uint32_t rows_reply_begin(struct lent *l)
{
    const struct wim_sizes *x = l->scheme;

    if (!ready(l, l->reply_full))
        return WIM_DONE;
    return wim_rows_reply_begin(x->number, l->opening, x->opening, l->s1, x->s, l->e1, x->s, l->e2,
                                x->e2, l->state, x->state, &l->place);
}

static uint32_t rows_reply_part(struct lent *l)
{
    const struct wim_sizes *x = l->scheme;

    if (!ready(l, l->reply_fifteen))
        return WIM_DONE;
    return wim_rows_reply_part(l->a + 15 * x->row, x->row, l->state, x->state, &l->place);
}

static uint32_t rows_reply_end(struct lent *l)
{
    if (!ready(l, l->reply_full))
        return WIM_DONE;
    return wim_rows_reply_end(l->state, l->scheme->state, l->reply, sizeof l->reply, l->key,
                              sizeof l->key, l->digest, sizeof l->digest, &l->place, &l->written,
                              &l->key_written, &l->digest_written);
}

const struct call calls[CALLS] = {
    {"wim_offer", offer}, {"wim_reply", reply},   {"wim_finish", finish},
    {"wim_open", open_},  {"wim_answer", answer},
    {"wim_noise", noise}, {"wim_expand", expand}, {"wim_grow", grow},
    {"wim_shake128", shake128}, {"wim_sha3_256", sha3_256}, {"wim_product", product},
    {"wim_bench", bench},
    {"wim_session_offer", session_offer}, {"wim_session_reply", session_reply},
    {"wim_session_finish", session_finish}, {"wim_session_open", session_open},
    {"wim_session_answer", session_answer}, {"wim_session_close", session_close},
    {"wim_rack_offer", rack_offer}, {"wim_rack_reply", rack_reply},
    {"wim_rack_finish", rack_finish}, {"wim_rack_close", rack_close},
    {"wim_rack_clear", rack_clear},
    {"wim_settings_write", settings_write}, {"wim_settings_read", settings_read},
    {"wim_rows_offer_begin", rows_offer_begin}, {"wim_rows_offer_part", rows_offer_part},
    {"wim_rows_offer_end", rows_offer_end},     {"wim_rows_reply_begin", rows_reply_begin},
    {"wim_rows_reply_part", rows_reply_part},   {"wim_rows_reply_end", rows_reply_end},
};

typedef uint32_t (*part_call)(const uint32_t *, size_t, uint32_t *, size_t, uint64_t *);

/* All rows of A by one of the two calls, on the state that was begun, which is kept as it is after
 * fifteen and after all of them; 0 or the refusal. */
static uint32_t all_rows(struct lent *l, part_call part, uint32_t *fifteen, uint32_t *full)
{
    const struct wim_sizes *x = l->scheme;
    uint32_t refusal = WIM_DONE;

    for (size_t i = 0; i < x->row && refusal == WIM_DONE; i++) {
        if (i == 15)
            memcpy(fifteen, l->state, sizeof l->state);
        refusal = part(l->a + i * x->row, x->row, l->state, x->state, &l->place);
    }
    memcpy(full, l->state, sizeof l->state);
    return refusal;
}

/* An exchange by rows. */
static uint32_t draw_states(struct lent *l)
{
    uint32_t refusal = rows_offer_begin(l);

    if (refusal == WIM_DONE)
        refusal = all_rows(l, wim_rows_offer_part, l->offer_fifteen, l->offer_full);
    if (refusal == WIM_DONE)
        refusal = rows_offer_end(l);
    if (refusal == WIM_DONE)
        refusal = rows_reply_begin(l);
    if (refusal == WIM_DONE)
        refusal = all_rows(l, wim_rows_reply_part, l->reply_fifteen, l->reply_full);
    return refusal;
}

/* The values of random bytes, which it goes behind. */
static uint32_t cut(struct lent *l, const uint8_t **random, size_t bytes, int32_t *out, size_t count)
{
    const struct wim_sizes *x = l->scheme;
    uint32_t refusal = wim_noise(x->number, *random, bytes, wim_bcns_table, x->table, out, count,
                                 &l->place, &l->written);

    *random += bytes;
    return refusal;
}

uint32_t draw_all(struct lent *l, const struct wim_sizes *x)
{
    const uint8_t *first = l->open_random + x->seed, *second = l->answer_random;
    uint64_t state = 3;
    uint32_t refusal;

    l->scheme = x;
    draw_bytes(&state, l->open_random, x->open_bytes);
    draw_bytes(&state, l->answer_random, x->answer_bytes);
    draw_bytes(&state, l->seed, sizeof l->seed); /* Grow takes one in every scheme */
    memcpy(l->seed, l->open_random, x->seed);
    refusal = draw_public(x, l->seed, l->a);
    if (refusal != WIM_DONE ||
        (refusal = cut(l, &first, x->s_bytes, l->s, x->s)) != WIM_DONE ||
        (refusal = cut(l, &first, x->s_bytes, l->e, x->s)) != WIM_DONE ||
        (refusal = cut(l, &second, x->s_bytes, l->s1, x->s)) != WIM_DONE ||
        (refusal = cut(l, &second, x->s_bytes, l->e1, x->s)) != WIM_DONE ||
        (refusal = cut(l, &second, x->e2_bytes, l->e2, x->e2)) != WIM_DONE)
        return refusal;
    memcpy(l->coins, second, x->coins);
    draw_bytes(&state, l->bytes, sizeof l->bytes);
    draw_bytes(&state, l->stream, sizeof l->stream);
    for (size_t i = 0; i < 2; i++)
        for (size_t k = 0; k < WIM_PRODUCT; k++) { /* below 2^31, and so below q */
            uint8_t bytes[4];
            draw_bytes(&state, bytes, sizeof bytes);
            l->factors[i][k] = (uint32_t)bytes[0] | (uint32_t)bytes[1] << 8 |
                               (uint32_t)bytes[2] << 16 | (uint32_t)(bytes[3] >> 1) << 24;
        }
    return x->state != 0 ? draw_states(l) : WIM_DONE;
}
