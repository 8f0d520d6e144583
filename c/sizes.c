/* wim_sizes: the header's fixed numbers, by the number of the scheme. */
#include "wimmostry.h"

#define SIZES(NAME, X)                                                                           \
    {                                                                                            \
        NAME, WIM_##X, WIM_##X##_Q, WIM_##X##_NOISE, WIM_##X##_A, WIM_##X##_S, WIM_##X##_E2,     \
            WIM_##X##_SEED, WIM_##X##_COINS, WIM_##X##_OPENING, WIM_##X##_REPLY, WIM_##X##_KEY,  \
            WIM_##X##_S_BYTES, WIM_##X##_E2_BYTES, WIM_##X##_TABLE, WIM_##X##_MARGIN,            \
            WIM_##X##_ROW, WIM_##X##_STATE, WIM_##X##_LENT_A, WIM_##X##_OPEN_BYTES,              \
            WIM_##X##_ANSWER_BYTES                                                               \
    }

static const struct wim_sizes six[] = {
    SIZES("BCNS", BCNS),
    SIZES("NewHope", NEWHOPE),
    SIZES("Frodo Challenge", FRODO_CHALLENGE),
    SIZES("Frodo Classical", FRODO_CLASSICAL),
    SIZES("Frodo Recommended", FRODO_RECOMMENDED),
    SIZES("Frodo Paranoid", FRODO_PARANOID),
};

const struct wim_sizes *wim_sizes(uint32_t scheme)
{
    return scheme < sizeof six / sizeof *six ? &six[scheme] : NULL;
}
