#include "draw.h"

uint8_t draw_byte(uint64_t *state)
{
    *state ^= *state << 13;
    *state ^= *state >> 7;
    *state ^= *state << 17;
    return (uint8_t)(*state >> 32);
}

void draw_bytes(uint64_t *state, uint8_t *out, size_t count)
{
    for (size_t i = 0; i < count; i++)
        out[i] = draw_byte(state);
}

uint32_t draw_secrets(uint64_t *state, const struct wim_sizes *scheme, int32_t *out, size_t count,
                      size_t bytes)
{
    uint8_t random[WIM_MAX_S_BYTES];
    uint64_t place, written;

    draw_bytes(state, random, bytes);
    return wim_noise(scheme->number, random, bytes, wim_bcns_table, scheme->table, out, count,
                     &place, &written);
}

uint32_t draw_public(const struct wim_sizes *scheme, const uint8_t *seed, uint32_t *a)
{
    uint64_t state = 0x5eed, place, written;

    if (scheme->number == WIM_NEWHOPE)
        return wim_grow(WIM_RULE_LOW_BITS, seed, scheme->seed, a, scheme->a, &place, &written);
    for (size_t i = 0; i < scheme->a; i++) {
        uint32_t word = 0;
        for (int k = 0; k < 4; k++)
            word = word << 8 | draw_byte(&state);
        a[i] = word % scheme->q;
    }
    return WIM_DONE;
}
