/*
 * Two boxes agree on a key over a pair of sockets, a thread a box, in every scheme.
 *
 * It shows the calls and nothing else. In NewHope the replier grows the public numbers from the
 * seed that came in the opening. A real box draws its bytes from the system's generator, knows who
 * its peer is, hashes the raw key with both messages and wipes its buffers.
 */
#define _POSIX_C_SOURCE 200809L

#include "draw.h"

#include <pthread.h>
#include <stdio.h>
#include <stdlib.h>
#include <sys/socket.h>
#include <unistd.h>

struct box {
    const struct wim_sizes *scheme;
    int line;
    uint32_t *a;
    uint8_t key[WIM_MAX_KEY], digest[WIM_DIGEST];
    uint64_t slack; /* the initiator's */
    const char *failed;
};

static int send_all(int line, const uint8_t *bytes, size_t count)
{
    while (count > 0) {
        ssize_t n = write(line, bytes, count);
        if (n <= 0)
            return 0;
        bytes += n;
        count -= (size_t)n;
    }
    return 1;
}

static int receive_all(int line, uint8_t *bytes, size_t count)
{
    while (count > 0) {
        ssize_t n = read(line, bytes, count);
        if (n <= 0)
            return 0;
        bytes += n;
        count -= (size_t)n;
    }
    return 1;
}

/* Each end says what failed, or nothing. It scrubs the stack after each call that had secrets. */
static const char *initiate(struct box *box)
{
    const struct wim_sizes *x = box->scheme;
    uint64_t state = 1, place, written, key_written, slack_index;
    int32_t s[WIM_MAX_S], e[WIM_MAX_S];
    uint8_t seed[WIM_MAX_SEED], opening[WIM_MAX_OPENING], reply[WIM_MAX_REPLY];
    uint32_t refusal;

    draw_bytes(&state, seed, x->seed);
    if (draw_public(x, seed, box->a) != WIM_DONE ||
        draw_secrets(&state, x, s, x->s, x->s_bytes) != WIM_DONE ||
        draw_secrets(&state, x, e, x->s, x->s_bytes) != WIM_DONE)
        return "the initiator's draws";
    refusal = wim_offer(x->number, box->a, x->a, s, x->s, e, x->s, seed, x->seed, opening,
                        sizeof opening, &place, &written);
    wim_scrub();
    if (refusal != WIM_DONE)
        return wim_refusal_text(refusal);
    if (!send_all(box->line, opening, written) || !receive_all(box->line, reply, x->reply))
        return "the initiator's line";
    refusal = wim_finish(x->number, reply, x->reply, s, x->s, box->key, sizeof box->key,
                         box->digest, sizeof box->digest, &place, &key_written, &written,
                         &box->slack, &slack_index);
    wim_scrub();
    return refusal == WIM_DONE ? NULL : wim_refusal_text(refusal);
}

static const char *answer(struct box *box)
{
    const struct wim_sizes *x = box->scheme;
    uint64_t state = 2, place, written, key_written, digest_written;
    int32_t s1[WIM_MAX_S], e1[WIM_MAX_S], e2[WIM_MAX_E2];
    uint8_t coins[WIM_MAX_COINS], opening[WIM_MAX_OPENING], reply[WIM_MAX_REPLY];
    uint32_t refusal;

    if (draw_secrets(&state, x, s1, x->s, x->s_bytes) != WIM_DONE ||
        draw_secrets(&state, x, e1, x->s, x->s_bytes) != WIM_DONE ||
        draw_secrets(&state, x, e2, x->e2, x->e2_bytes) != WIM_DONE)
        return "the replier's draws";
    draw_bytes(&state, coins, x->coins);
    if (!receive_all(box->line, opening, x->opening))
        return "the replier's line";
    if (draw_public(x, opening + x->opening - x->seed, box->a) != WIM_DONE)
        return "the replier's public numbers";
    refusal = wim_reply(x->number, opening, x->opening, box->a, x->a, s1, x->s, e1, x->s, e2, x->e2,
                        coins, x->coins, reply, sizeof reply, box->key, sizeof box->key,
                        box->digest, sizeof box->digest, &place, &written, &key_written,
                        &digest_written);
    wim_scrub();
    if (refusal != WIM_DONE)
        return wim_refusal_text(refusal);
    return send_all(box->line, reply, written) ? NULL : "the replier's line";
}

/* Both ends close their line when they are through, so that the other does not wait for ever. */
static void *initiator(void *box)
{
    struct box *own = box;
    own->failed = initiate(own);
    close(own->line);
    return NULL;
}

static void *replier(void *box)
{
    struct box *own = box;
    own->failed = answer(own);
    close(own->line);
    return NULL;
}

static const char *run(struct box *one, struct box *other)
{
    pthread_t first, second;
    int lines[2];

    if (socketpair(AF_UNIX, SOCK_STREAM, 0, lines) != 0)
        return "socketpair";
    one->line = lines[0];
    other->line = lines[1];
    if (pthread_create(&first, NULL, initiator, one) != 0 ||
        pthread_create(&second, NULL, replier, other) != 0)
        return "pthread_create";
    pthread_join(first, NULL);
    pthread_join(second, NULL);
    if (one->failed != NULL || other->failed != NULL)
        return one->failed != NULL ? one->failed : other->failed;
    return wim_same(one->digest, other->digest, WIM_DIGEST) ? NULL : "the digests differ";
}

/* What both boxes can show of their key, and how near to failing the initiator saw it. */
static void show(const struct box *box)
{
    printf("%s: both boxes have a key of %zu bytes with the digest ", box->scheme->name,
           box->scheme->key);
    for (size_t i = 0; i < WIM_DIGEST; i++)
        printf("%02x", box->digest[i]);
    if (box->scheme->margin != 0)
        printf(", slack %llu of %llu", (unsigned long long)box->slack,
               (unsigned long long)box->scheme->margin);
    putchar('\n');
}

int main(void)
{
    struct box one = {0}, other = {0};
    const char *failed = NULL;

    one.a = malloc(WIM_MAX_A * sizeof *one.a);
    other.a = malloc(WIM_MAX_A * sizeof *other.a);
    if (one.a == NULL || other.a == NULL)
        failed = "malloc";
    for (uint32_t k = 0; wim_sizes(k) != NULL && failed == NULL; k++) {
        one.scheme = other.scheme = wim_sizes(k);
        failed = run(&one, &other);
        if (failed == NULL)
            show(&one);
        else
            printf("%s: %s\n", one.scheme->name, failed);
    }
    free(one.a);
    free(other.a);
    return failed == NULL ? EXIT_SUCCESS : EXIT_FAILURE;
}
