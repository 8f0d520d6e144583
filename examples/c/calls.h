/* All that the calls take and give in one scheme, and the calls on it, for programs that make
 * each of them. */
#ifndef CALLS_H
#define CALLS_H

#include "draw.h"

struct lent {
    const struct wim_sizes *scheme;
    uint32_t a[WIM_MAX_A], numbers[WIM_EXPAND_NUMBERS];
    uint32_t factors[2][WIM_PRODUCT], product[WIM_PRODUCT], scratch[6 * WIM_PRODUCT];
    int32_t s[WIM_MAX_S], e[WIM_MAX_S], s1[WIM_MAX_S], e1[WIM_MAX_S], e2[WIM_MAX_E2];
    int32_t values[WIM_MAX_S];
    uint8_t seed[WIM_MAX_SEED], coins[WIM_MAX_COINS], bytes[WIM_MAX_S_BYTES], stream[4096];
    uint8_t open_random[WIM_MAX_OPEN_BYTES], answer_random[WIM_MAX_ANSWER_BYTES];
    uint8_t opening[WIM_MAX_OPENING], reply[WIM_MAX_REPLY];
    uint8_t key[WIM_MAX_KEY], peer_key[WIM_MAX_KEY];
    uint8_t digest[WIM_DIGEST], peer_digest[WIM_DIGEST];
    uint8_t shaken[500], hashed[WIM_DIGEST];
    uint8_t session[WIM_SESSION], rack[WIM_RACK];
    uint8_t text[WIM_SETTINGS_TEXT], label[WIM_SETTINGS_LABEL];
    uint64_t place, written, s_written, key_written, digest_written, differ, slack, slack_index;
    uint64_t text_written, format, scheme_read, rule_read;
    /* by rows: the state that a call is lent, and what it starts from: with fifteen rows, so that
     * a row more makes sixteen, which enter the sums, and with all rows */
    uint32_t state[WIM_MAX_STATE];
    uint32_t offer_fifteen[WIM_MAX_STATE], offer_full[WIM_MAX_STATE];
    uint32_t reply_fifteen[WIM_MAX_STATE], reply_full[WIM_MAX_STATE];
};

struct call {
    const char *name;
    uint32_t (*make)(struct lent *);
};

#define CALLS 31
enum {
    OFFER, REPLY, FINISH, OPEN, ANSWER, NOISE, EXPAND, GROW, SHAKE128, SHA3_256, PRODUCT, BENCH,
    SESSION_OFFER, SESSION_REPLY, SESSION_FINISH, SESSION_OPEN, SESSION_ANSWER, SESSION_CLOSE,
    RACK_OFFER, RACK_REPLY, RACK_FINISH, RACK_CLOSE, RACK_CLEAR,
    SETTINGS_WRITE, SETTINGS_READ,
    ROWS_OFFER_BEGIN, ROWS_OFFER_PART, ROWS_OFFER_END,
    ROWS_REPLY_BEGIN, ROWS_REPLY_PART, ROWS_REPLY_END
};

/* In this order, so that Reply finds an opening, Finish a reply and the settings' reader a text.
 * Those on a session or a rack put it into the stage that they need. Those by rows call nothing but
 * in Frodo. */
extern const struct call calls[CALLS];

/* A session in a stage, of the scheme; keyed, with the replier's key. And a rack of such. */
void stand(struct lent *lent, uint8_t stage);
void stand_all(struct lent *lent, uint8_t stage);

/* The studio that the calls on the rack are for. */
#define STUDIO 5

/* Draws every input of a scheme, and in Frodo makes an exchange by rows, for their states. The random
 * bytes of open and answer make the secrets, so that both give what Offer and Reply give. 0 or the
 * refusal. */
uint32_t draw_all(struct lent *lent, const struct wim_sizes *scheme);

#endif
