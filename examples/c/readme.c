/* One exchange by NewHope, from random bytes to two digests, with both boxes in one program. */
#include <stdio.h>
#include <wimmostry.h>
#define ROOM(X) X, sizeof X
#define NONE NULL, 0 /* NewHope grows its public numbers, and has no table */
enum { NEWHOPE = WIM_NEWHOPE, RULE = WIM_RULE_LOW_BITS, S = WIM_NEWHOPE_S };
int main(void)
{
    static uint8_t first[WIM_NEWHOPE_OPEN_BYTES], second[WIM_NEWHOPE_ANSWER_BYTES];
    static uint8_t opening[WIM_NEWHOPE_OPENING], reply[WIM_NEWHOPE_REPLY], key[WIM_NEWHOPE_KEY];
    static uint8_t digest[WIM_DIGEST], peer[WIM_DIGEST];
    static int32_t s[S];
    uint64_t place, n, m, k, slack, at; /* where a refusal is, how long answers are, the slack */
    FILE *random = fopen("/dev/urandom", "rb");
    if (!random || fread(ROOM(first), 1, random) != 1 || fread(ROOM(second), 1, random) != 1 ||
        wim_open(NEWHOPE, RULE, NONE, NONE, ROOM(first), ROOM(opening), s, S, &place, &n, &m) ||
        wim_answer(NEWHOPE, RULE, ROOM(opening), NONE, NONE, ROOM(second), ROOM(reply), ROOM(key),
                   ROOM(digest), &place, &n, &m, &k) ||
        wim_finish(NEWHOPE, ROOM(reply), s, S, ROOM(key), ROOM(peer), &place, &n, &m, &slack, &at))
        return 1; /* each call returns 0 or a refusal, of which wim_refusal_text tells */
    puts(wim_same(digest, peer, WIM_DIGEST) ? "the keys agree" : "the keys differ");
    wim_wipe(ROOM(s)); /* and so the random bytes, and the key once it was used */
    wim_scrub();       /* what the calls left of secrets on the stack */
    return 0;
}
