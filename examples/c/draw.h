/*
 * What the boxes draw, for the examples alone: fixed bytes stand in for the system's generator and,
 * but in NewHope, for how two boxes come to the same a.
 */
#ifndef DRAW_H
#define DRAW_H

#include "wimmostry.h"

/* The next byte of the generator that *state holds. */
uint8_t draw_byte(uint64_t *state);

void draw_bytes(uint64_t *state, uint8_t *out, size_t count);

/* s, e, s' or e', or e'': count values, from as many random bytes as wim_noise takes. 0 or the
 * refusal. */
uint32_t draw_secrets(uint64_t *state, const struct wim_sizes *scheme, int32_t *out, size_t count,
                      size_t bytes);

/* The public numbers: NewHope's grown from the seed by rule 14. 0 or the refusal. */
uint32_t draw_public(const struct wim_sizes *scheme, const uint8_t *seed, uint32_t *a);

#endif
