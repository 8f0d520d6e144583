#include "inner.h"

#include <stdlib.h>

#define N 1024

static int64_t reduced(int64_t x, int64_t q)
{
    return (x % q + q) % q;
}

/* a times s modulo X^1024 + 1 and q. The terms of q = 2^32 - 1 and 51 fit 64 bits with room. */
static void product(int64_t q, const int64_t *a, const int32_t *s, int64_t *out)
{
    for (int k = 0; k < N; k++) {
        int64_t sum = 0;
        for (int i = 0; i < N; i++)
            sum += i <= k ? a[i] * s[k - i] : -a[i] * s[N + k - i];
        out[k] = reduced(sum, q);
    }
}

static void bcns(const struct lent *l, struct inner *in)
{
    static int64_t a[N], b[N], u[N];
    const int64_t q = WIM_BCNS_Q;

    for (int i = 0; i < N; i++)
        a[i] = l->a[i];
    product(q, a, l->s, in->as);
    product(q, a, l->s1, in->as1);
    for (int i = 0; i < N; i++) {
        b[i] = reduced(in->as[i] + l->e[i], q);
        u[i] = reduced(in->as1[i] + l->e1[i], q);
    }
    product(q, b, l->s1, in->bs1);
    product(q, u, l->s, in->w);
    for (int i = 0; i < N; i++)
        in->v[i] = reduced(in->bs1[i] + l->e2[i], q);
}

/* Entry i of the transform of g is the sum over j of 7^j g_j 49^(ij). */
static int64_t power[2048];

static void transform(const int32_t *g, int64_t *out)
{
    for (int i = 0; i < N; i++) {
        int64_t sum = 0;
        for (int j = 0; j < N; j++)
            sum += g[j] * power[(j + 2 * i * j) % 2048];
        out[i] = reduced(sum, WIM_NEWHOPE_Q);
    }
}

/* The inverse of the product entry by entry. */
static void inverse(const int64_t *f, const int64_t *g, int64_t *out)
{
    for (int j = 0; j < N; j++) {
        int64_t sum = 0;
        for (int i = 0; i < N; i++)
            sum += f[i] * g[i] % WIM_NEWHOPE_Q * power[(2048 - (j + 2 * i * j) % 2048) % 2048];
        out[j] = reduced(sum % WIM_NEWHOPE_Q * 12277, WIM_NEWHOPE_Q);
    }
}

static void newhope(const struct lent *l, struct inner *in)
{
    static int64_t b[N], u[N];
    const int64_t q = WIM_NEWHOPE_Q;

    power[0] = 1;
    for (int k = 1; k < 2048; k++)
        power[k] = power[k - 1] * 7 % q;
    transform(l->s, in->s);
    transform(l->e, in->e);
    transform(l->s1, in->s1);
    transform(l->e1, in->e1);
    for (int i = 0; i < N; i++) {
        in->as[i] = l->a[i] * in->s[i] % q;
        in->as1[i] = l->a[i] * in->s1[i] % q;
        b[i] = (in->as[i] + in->e[i]) % q;
        u[i] = (in->as1[i] + in->e1[i]) % q;
    }
    inverse(b, in->s1, in->bs1);
    inverse(u, in->s, in->w);
    for (int i = 0; i < N; i++)
        in->v[i] = reduced(in->bs1[i] + l->e2[i], q);
}

static void frodo(const struct lent *l, struct inner *in)
{
    const size_t n = l->scheme->s / 8;
    const int64_t q = l->scheme->q;

    for (size_t i = 0; i < n; i++)
        for (size_t k = 0; k < 8; k++) {
            int64_t right = 0, left = 0;
            for (size_t j = 0; j < n; j++) {
                right += (int64_t)l->a[i * n + j] * l->s[8 * j + k];
                left += (int64_t)l->s1[k * n + j] * l->a[j * n + i];
            }
            in->as[8 * i + k] = reduced(right, q);
            in->as1[k * n + i] = reduced(left, q);
        }
    for (size_t i = 0; i < 8; i++)
        for (size_t k = 0; k < 8; k++) {
            int64_t v = 0, w = 0;
            for (size_t j = 0; j < n; j++) {
                v += l->s1[i * n + j] * (in->as[8 * j + k] + l->e[8 * j + k]);
                w += (in->as1[i * n + j] + l->e1[i * n + j]) * l->s[8 * j + k];
            }
            in->bs1[8 * i + k] = reduced(v, q);
            in->v[8 * i + k] = reduced(v + l->e2[8 * i + k], q);
            in->w[8 * i + k] = reduced(w, q);
        }
}

void inner_values(const struct lent *l, struct inner *in)
{
    in->count = l->scheme->s;
    in->mixed = l->scheme->e2;
    if (l->scheme->number == WIM_BCNS)
        bcns(l, in);
    else if (l->scheme->number == WIM_NEWHOPE)
        newhope(l, in);
    else
        frodo(l, in);
}
