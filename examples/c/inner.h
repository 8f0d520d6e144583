/* The values that arise inside the calls, by 01's plain rules: what a stack must not show. */
#ifndef INNER_H
#define INNER_H

#include "calls.h"

/* In NewHope the products and b are transforms, as they travel; elsewhere the values themselves.
 * as, as1 and bs1 are the products alone, from which the noise could be told. */
struct inner {
    size_t count, mixed; /* entries of s, and of v and w */
    int64_t s[WIM_MAX_S], e[WIM_MAX_S], s1[WIM_MAX_S], e1[WIM_MAX_S]; /* NewHope's transforms */
    int64_t as[WIM_MAX_S], as1[WIM_MAX_S];
    int64_t bs1[WIM_MAX_E2], v[WIM_MAX_E2], w[WIM_MAX_E2];
};

void inner_values(const struct lent *lent, struct inner *inner);

#endif
