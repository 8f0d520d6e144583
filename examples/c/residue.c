/*
 * What a call leaves on the stack below its caller and in registers, before and after wim_scrub.
 *
 * A thread makes one accepted call on a stack filled with a pattern, calls wim_scrub or does not,
 * and waits; the stack is then searched for every secret input, key and inner value: for any 16
 * entries in a row, as 8, 16, 32 or 64 bits, as they are, modulo q and as the residue nearest to
 * 0, and in Frodo by rows and by columns. Without the scrub it finds some, which shows that the
 * search can find; with it it must find none. `residue all` tells each that it finds.
 *
 * Not every inner value has a name that can be searched for. So after the scrub the touched stack
 * must besides be zero as a whole, but for NEAREST bytes next to the caller's frame, where the
 * caller's own registers and the scrub's return address stand.
 *
 * The vector registers are filled with a pattern before the call and looked at right after the
 * scrub: each byte of them must be zero or still the pattern, and no 8 bytes of a key or a digest
 * may stand there. Then a signal comes, for which the system lays all registers on the thread's
 * stack; 8 bytes of a key or a digest may not stand in that frame either.
 */
#define _POSIX_C_SOURCE 200809L

#include "inner.h"
#include "registers.h"

#include <pthread.h>
#include <signal.h>
#include <stdatomic.h>
#include <stdio.h>
#include <stdlib.h>
#include <string.h>

#define SIZE ((size_t)1 << 20)
#define PATTERN 0xA5
#define NEAREST 64

static struct lent lent;
static struct inner inner;
static const struct call *call;
static int scrubs;
static uint32_t refusal;
static uint8_t *frame;
static uint8_t left[SIZE + 1];  /* the stack as the call left it */
static uint8_t laid[SIZE];      /* the stack with a signal's frame on it */
static uint8_t kept[REGISTERS]; /* the vector registers as the call left them */
static size_t registers;        /* how many bytes they are */
static atomic_int waits, goes, stopped;

/* Stays on the stack while that is being copied. */
static void stop(int unused)
{
    (void)unused;
    atomic_store(&stopped, 1);
    while (!atomic_load(&goes))
        ;
}

static void *caller(void *unused)
{
    uint8_t here;

    (void)unused;
    frame = &here;
    registers_fill(PATTERN);
    refusal = call->make(&lent);
    if (scrubs)
        wim_scrub();
    registers = registers_keep(kept);
    /* No function is called while the stack is being copied, so that nothing of it changes. */
    atomic_store(&waits, 1);
    while (!atomic_load(&goes))
        ;
    return NULL;
}

/* Makes the call and keeps the bytes below its caller's frame, as they are and as they are after a
 * signal; how many, or 0 where it failed. */
static size_t run(uint8_t *stack)
{
    pthread_attr_t attributes;
    pthread_t thread;
    size_t depth;

    memset(stack, PATTERN, SIZE);
    atomic_store(&waits, 0);
    atomic_store(&goes, 0);
    atomic_store(&stopped, 0);
    if (pthread_attr_init(&attributes) != 0 ||
        pthread_attr_setstack(&attributes, stack, SIZE) != 0 ||
        pthread_create(&thread, &attributes, caller, NULL) != 0)
        return 0;
    while (!atomic_load(&waits))
        ;
    depth = (size_t)(frame - stack);
    memcpy(left, stack, depth);
    if (pthread_kill(thread, SIGUSR1) == 0)
        while (!atomic_load(&stopped))
            ;
    memcpy(laid, stack, depth);
    atomic_store(&goes, 1);
    pthread_join(thread, NULL);
    pthread_attr_destroy(&attributes);
    return refusal == WIM_DONE && atomic_load(&stopped) ? depth : 0;
}

/*
 * The search. All runs of a list in one form are laid into a table by a sum over their bytes, and
 * the same sum is kept of the bytes at each place of the stack.
 */
#define SLOTS 65536
#define BASE 0x9e3779b97f4a7c15u

static uint8_t form[8 * 8 * WIM_MAX_S_BYTES];
static uint64_t sums[SLOTS];
static int32_t slots[SLOTS];

static uint64_t sum(const uint8_t *bytes, size_t count)
{
    uint64_t sum = 0;

    for (size_t i = 0; i < count; i++)
        sum = sum * BASE + bytes[i];
    return sum;
}

static size_t slot(uint64_t sum)
{
    return (size_t)((sum ^ sum >> 32) % SLOTS);
}

/* Whether some `run` entries of `width` bytes in a row stand in what was left from `from` on. */
static int stands(size_t count, size_t width, size_t run, size_t from, size_t depth)
{
    const size_t bytes = run * width;
    uint64_t first = 1, here;

    memset(slots, -1, sizeof slots);
    for (size_t i = 0; i + run <= count; i++) {
        const uint8_t *at = form + i * width;
        uint64_t own = sum(at, bytes);
        size_t k = slot(own);
        /* a run of one and the same value says nothing */
        if (memcmp(at, at + width, bytes - width) == 0)
            continue;
        while (slots[k] >= 0 && sums[k] != own)
            k = (k + 1) % SLOTS;
        slots[k] = (int32_t)i;
        sums[k] = own;
    }
    for (size_t i = 1; i < bytes; i++)
        first *= BASE;
    here = sum(left + from, bytes);
    for (size_t at = from; at + bytes <= depth; at++) {
        for (size_t k = slot(here); slots[k] >= 0; k = (k + 1) % SLOTS)
            if (sums[k] == here && memcmp(left + at, form + (size_t)slots[k] * width, bytes) == 0)
                return 1;
        here = (here - left[at] * first) * BASE + left[at + bytes];
    }
    return 0;
}

static int found, tells;
static int in_registers; /* calls that left something of theirs in registers or a signal's frame */
static size_t from;      /* below it nothing was touched */
static size_t far;       /* the farthest after any call */
static size_t shortest;  /* the shortest frame of a signal */

/* One list in each form and width. */
static void look(const char *name, const int64_t *values, size_t count, size_t run, size_t depth)
{
    static const char *const forms[] = {"", " modulo q", " nearest to 0"};
    const int64_t q = lent.scheme->q;

    if (count < run)
        return;
    for (int f = 0; f < 3; f++)
        for (size_t width = 1; width <= 8; width *= 2) {
            int small = 1, other = f == 0;
            if (run * width < 8)
                continue;
            for (size_t i = 0; i < count; i++) {
                int64_t x = values[i];
                uint64_t bits;
                if (f > 0)
                    x = (x % q + q) % q;
                if (f == 2 && 2 * x >= q)
                    x -= q;
                small = small && x >= -128 && x <= 255;
                other = other || x != values[i];
                bits = (uint64_t)x;
                for (size_t k = 0; k < width; k++)
                    form[i * width + k] = (uint8_t)(bits >> 8 * k);
            }
            if (!other || (width == 1 && !small))
                continue;
            if (stands(count, width, run, from, depth)) {
                found++;
                if (tells || scrubs)
                    printf("%s, %s: %s%s in %zu bits\n", lent.scheme->name, call->name, name,
                           forms[f], 8 * width);
            }
        }
}

/* A list, and in Frodo the same by columns, where its rows have `row` entries. */
static void look_both(const char *name, const int64_t *values, size_t count, size_t row,
                      size_t depth)
{
    static int64_t turned[WIM_MAX_S];
    char by[64];

    look(name, values, count, 16, depth);
    if (lent.scheme->number < WIM_FRODO_CHALLENGE || row == 0)
        return;
    for (size_t i = 0; i < count; i++)
        turned[i % row * (count / row) + i / row] = values[i];
    snprintf(by, sizeof by, "%s by columns", name);
    look(by, turned, count, 16, depth);
}

static void look_values(const char *name, const int32_t *values, size_t count, size_t row,
                        size_t depth)
{
    static int64_t wide[WIM_MAX_S];

    for (size_t i = 0; i < count; i++)
        wide[i] = values[i];
    look_both(name, wide, count, row, depth);
}

/* Bytes, and the entries of `bits` bits that they pack, lowest first; 8 bytes are a whole key. */
static void look_bytes(const char *name, const uint8_t *bytes, size_t count, unsigned bits,
                       size_t depth)
{
    static int64_t entries[8 * WIM_MAX_S_BYTES];
    char unpacked[64];
    size_t total = bits == 0 ? 0 : 8 * count / bits;

    for (size_t i = 0; i < count; i++)
        entries[i] = bytes[i];
    look(name, entries, count, count < 16 ? 8 : 16, depth);
    for (size_t i = 0; i < total; i++)
        entries[i] = bytes[i * bits / 8] >> i * bits % 8 & ((1u << bits) - 1);
    snprintf(unpacked, sizeof unpacked, "entries of %s", name);
    look(unpacked, entries, total, 64, depth);
}

static void look_for_all(size_t depth)
{
    const struct wim_sizes *x = lent.scheme;
    const size_t n = x->s / 8;
    const unsigned key_bits = x->number < 2 ? 1 : (unsigned)(8 * x->key / 64);

    look_values("s", lent.s, x->s, 8, depth);
    look_values("e", lent.e, x->s, 8, depth);
    look_values("s'", lent.s1, x->s, n, depth);
    look_values("e'", lent.e1, x->s, n, depth);
    look_values("e''", lent.e2, x->e2, 8, depth);
    look_bytes("coins", lent.coins, x->coins, x->number == WIM_BCNS ? 2 : 1, depth);
    look_bytes("random bytes", lent.bytes, x->s_bytes, 0, depth);
    look_values("noise", lent.values, x->s, 8, depth);
    look_bytes("key", lent.key, x->key, key_bits, depth);
    look_bytes("the peer's key", lent.peer_key, x->key, key_bits, depth);
    look_bytes("the digest", lent.digest, WIM_DIGEST, 0, depth);
    look_bytes("SHAKE-128", lent.shaken, sizeof lent.shaken, 0, depth);
    look_bytes("SHA3-256", lent.hashed, sizeof lent.hashed, 0, depth);
    look_both("as", inner.as, inner.count, 8, depth);
    look_both("as'", inner.as1, inner.count, n, depth);
    look_both("bs'", inner.bs1, inner.mixed, 8, depth);
    look_both("v", inner.v, inner.mixed, 8, depth);
    look_both("w", inner.w, inner.mixed, 8, depth);
    if (x->number == WIM_NEWHOPE) {
        look_both("the transform of s", inner.s, inner.count, 0, depth);
        look_both("the transform of e", inner.e, inner.count, 0, depth);
        look_both("the transform of s'", inner.s1, inner.count, 0, depth);
        look_both("the transform of e'", inner.e1, inner.count, 0, depth);
    }
}

/* How far from the caller's frame the last byte lies that the scrub left other than zero. */
static size_t farthest(size_t depth)
{
    size_t at = from;

    while (at < depth && left[at] == 0)
        at++;
    return depth - at;
}

/* Whether 8 bytes in a row of a key or a digest stand in some bytes. */
static int has_key(const uint8_t *bytes, size_t count)
{
    const struct {
        const uint8_t *bytes;
        size_t count;
    } keys[] = {{lent.key, lent.scheme->key},
                {lent.peer_key, lent.scheme->key},
                {lent.digest, WIM_DIGEST},
                {lent.peer_digest, WIM_DIGEST}};

    for (size_t k = 0; k < sizeof keys / sizeof *keys; k++)
        for (size_t i = 0; i + 8 <= keys[k].count; i++) {
            const uint8_t *run = keys[k].bytes + i;
            if (memcmp(run, run + 1, 7) == 0)
                continue; /* a run of one and the same byte says nothing */
            for (size_t at = 0; at + 8 <= count; at++)
                if (memcmp(bytes + at, run, 8) == 0)
                    return 1;
        }
    return 0;
}

/* What the registers hold besides zeros and the pattern. On Arm the caller's part of v8 to v15 is
 * not the call's. */
static size_t changed(void)
{
    size_t count = 0;

    for (size_t i = 0; i < registers; i++) {
#if defined(__aarch64__)
        if (i / 16 >= 8 && i / 16 < 16)
            continue;
#endif
        count += kept[i] != 0 && kept[i] != PATTERN;
    }
    return count;
}

/* Looks at the registers, and at what a signal made of the scrubbed stack: it is zero but for the
 * signal's frame. */
static void look_at_registers(size_t depth)
{
    const int key = has_key(kept, registers);
    const size_t others = changed();
    int framed;

    for (from = 0; from < depth && (laid[from] == PATTERN || laid[from] == 0);)
        from++;
    framed = has_key(laid + from, depth - from);
    if (shortest == 0 || depth - from < shortest)
        shortest = depth - from;
    if (key || others > 0 || framed) {
        in_registers++;
        printf("%s, %s: in registers %zu bytes%s%s\n", lent.scheme->name, call->name, others,
               key ? ", a key's among them" : "", framed ? ", and a key's in a signal's frame" : "");
    }
}

/* Finds what there is after each call in each scheme; -1 where a call could not be made. */
static int count_all(uint8_t *stack)
{
    found = 0;
    for (uint32_t k = 0; wim_sizes(k) != NULL; k++) {
        if (draw_all(&lent, wim_sizes(k)) != WIM_DONE)
            return -1;
        /* all outputs first, so that they too are looked for after every call */
        for (size_t i = 0; i < CALLS; i++)
            if (calls[i].make(&lent) != WIM_DONE)
                return -1;
        inner_values(&lent, &inner);
        for (size_t i = 0; i < CALLS; i++) {
            size_t depth;
            call = &calls[i];
            depth = run(stack);
            if (depth == 0)
                return -1;
            for (from = 0; from < depth && left[from] == PATTERN;)
                from++;
            look_for_all(depth);
            if (scrubs && farthest(depth) > far)
                far = farthest(depth);
            if (scrubs)
                look_at_registers(depth);
        }
    }
    return found;
}

int main(int argc, char **argv)
{
    struct sigaction action = {.sa_handler = stop};
    const char *names = registers_found();
    void *stack = NULL;
    int before, after;

    tells = argc > 1 && strcmp(argv[1], "all") == 0;
    if (posix_memalign(&stack, 65536, SIZE) != 0 ||
        sigaction(SIGUSR1, &action, NULL) != 0)
        return EXIT_FAILURE;
    before = count_all(stack);
    scrubs = 1;
    after = count_all(stack);
    printf("secret lists on the stack: %d before wim_scrub, %d after it, and zeros but for the "
           "nearest %zu bytes\n",
           before, after, far);
    printf("calls that left something in %s, or in a signal's frame of %zu bytes or more: %d\n",
           names, shortest, in_registers);
    free(stack);
    return before > 0 && after == 0 && far <= NEAREST && in_registers == 0 &&
                   shortest > registers
               ? EXIT_SUCCESS
               : EXIT_FAILURE;
}
