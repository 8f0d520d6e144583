/*
 * Eight threads serve eight studios of one rack at once, by the calls on a session, each on its own
 * slot as the header says, and in a scheme of its own. Then the same calls are made on another
 * rack, one studio after another, by the calls on a rack. The two must be the same bytes, and a
 * slot that was closed its number and zeros.
 */
#include "calls.h"

#include <pthread.h>
#include <stdio.h>
#include <stdlib.h>
#include <string.h>

static uint8_t racks[2][WIM_RACK];

struct studio {
    uint32_t number, refusal;
    struct lent lent;
};

/* Some studios reply, some offer and finish, and some close again. */
static int replies(const struct studio *studio)
{
    return studio->number % 2 == 0;
}

static int closes(const struct studio *studio)
{
    return studio->number % 4 > 1;
}

static void *serve(void *of)
{
    struct studio *studio = of;
    struct lent *l = &studio->lent;
    const struct wim_sizes *x = l->scheme;
    uint8_t *own = racks[0] + WIM_RECORD * studio->number + WIM_RECORD_SESSION;
    uint32_t no;

    if (replies(studio)) {
        no = wim_session_reply(own, WIM_SESSION, x->number, l->opening, x->opening, l->a, x->a,
                               l->s1, x->s, l->e1, x->s, l->e2, x->e2, l->coins, x->coins,
                               l->reply, sizeof l->reply, l->key, sizeof l->key, l->digest,
                               sizeof l->digest, &l->place, &l->written, &l->key_written,
                               &l->digest_written);
    } else {
        no = wim_session_offer(own, WIM_SESSION, x->number, l->a, x->a, l->s, x->s, l->e, x->s,
                               l->seed, x->seed, l->opening, sizeof l->opening, &l->place,
                               &l->written);
        if (no == WIM_DONE)
            no = wim_session_finish(own, WIM_SESSION, x->number, l->reply, x->reply, l->s, x->s,
                                    l->key, sizeof l->key, l->digest, sizeof l->digest, &l->place,
                                    &l->key_written, &l->digest_written, &l->slack,
                                    &l->slack_index);
    }
    wim_scrub();
    if (closes(studio))
        wim_session_close(own, WIM_SESSION);
    studio->refusal = no;
    return NULL;
}

static uint32_t on_rack(struct studio *studio)
{
    struct lent *l = &studio->lent;
    const struct wim_sizes *x = l->scheme;
    uint32_t no;

    if (replies(studio)) {
        no = wim_rack_reply(racks[1], WIM_RACK, studio->number, x->number, l->opening, x->opening,
                            l->a, x->a, l->s1, x->s, l->e1, x->s, l->e2, x->e2, l->coins, x->coins,
                            l->reply, sizeof l->reply, l->key, sizeof l->key, l->digest,
                            sizeof l->digest, &l->place, &l->written, &l->key_written,
                            &l->digest_written);
    } else {
        no = wim_rack_offer(racks[1], WIM_RACK, studio->number, x->number, l->a, x->a, l->s, x->s,
                            l->e, x->s, l->seed, x->seed, l->opening, sizeof l->opening, &l->place,
                            &l->written);
        if (no == WIM_DONE)
            no = wim_rack_finish(racks[1], WIM_RACK, studio->number, x->number, l->reply, x->reply,
                                 l->s, x->s, l->key, sizeof l->key, l->digest, sizeof l->digest,
                                 &l->place, &l->key_written, &l->digest_written, &l->slack,
                                 &l->slack_index);
    }
    wim_scrub();
    if (no == WIM_DONE && closes(studio))
        no = wim_rack_close(racks[1], WIM_RACK, studio->number, &l->place);
    return no;
}

/* A slot is its number, and zeros where it was closed; else it is keyed with the scheme. */
static int stands(const struct studio *studio)
{
    const uint8_t *record = racks[0] + WIM_RECORD * studio->number;
    const uint8_t *own = record + WIM_RECORD_SESSION;
    uint8_t other = 0;

    for (size_t i = 0; i < WIM_SESSION; i++)
        other |= own[i];
    if (record[WIM_RECORD_STUDIO] != studio->number)
        return 0;
    if (closes(studio))
        return other == 0;
    return own[WIM_SESSION_STAGE] == WIM_STAGE_KEYED &&
           own[WIM_SESSION_SCHEME] == studio->lent.scheme->number &&
           memcmp(own + WIM_SESSION_KEY, studio->lent.key, studio->lent.scheme->key) == 0;
}

int main(void)
{
    struct studio *studios = calloc(WIM_STUDIOS, sizeof *studios);
    pthread_t threads[WIM_STUDIOS];
    uint64_t place;
    int wrong = 0;

    if (studios == NULL || wim_rack_clear(racks[0], WIM_RACK, &place) != 0 ||
        wim_rack_clear(racks[1], WIM_RACK, &place) != 0)
        return EXIT_FAILURE;
    for (uint32_t i = 0; i < WIM_STUDIOS; i++) {
        struct lent *l = &studios[i].lent;
        studios[i].number = i;
        /* the messages of the peer */
        if (draw_all(l, wim_sizes(i % 6)) != WIM_DONE || calls[OFFER].make(l) != WIM_DONE ||
            calls[REPLY].make(l) != WIM_DONE)
            return EXIT_FAILURE;
    }
    for (size_t i = 0; i < WIM_STUDIOS; i++)
        if (pthread_create(&threads[i], NULL, serve, &studios[i]) != 0)
            return EXIT_FAILURE;
    for (size_t i = 0; i < WIM_STUDIOS; i++)
        pthread_join(threads[i], NULL);
    for (size_t i = 0; i < WIM_STUDIOS; i++)
        if (studios[i].refusal != WIM_DONE || on_rack(&studios[i]) != WIM_DONE ||
            !stands(&studios[i])) {
            printf("studio %u is wrong\n", (unsigned)i);
            wrong++;
        }
    wrong += memcmp(racks[0], racks[1], WIM_RACK) != 0;
    printf("eight studios of one rack in eight threads, and one after another: %d wrong\n", wrong);
    free(studios);
    return wrong == 0 ? EXIT_SUCCESS : EXIT_FAILURE;
}
