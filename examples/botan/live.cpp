/*
 * NewHope live between this library and Botan 2, both ways round.
 *
 * Both lay the messages out alike, to the byte, so that they go from one to the other as they are:
 * the opening is the packed transform and the seed, the reply the packed transform and the hints.
 * a is grown from the opening's seed by rule 14, and Botan's shared key is our digest, the SHA3-256
 * of the raw key.
 *
 * Secrets and keys are in Botan's secure vectors, which wipe themselves; after each call that had
 * some the stack is scrubbed. A real box confirms the key by tags, where this program compares both
 * ends' keys in the open.
 */
#include <botan/auto_rng.h>
#include <botan/newhope.h>
#include <botan/secmem.h>

#include <array>
#include <cstdio>
#include <exception>
#include <stdexcept>

#include "wimmostry.h"

using Random = Botan::RandomNumberGenerator;
using Numbers = std::array<uint32_t, WIM_NEWHOPE_A>;
using Opening = std::array<uint8_t, WIM_NEWHOPE_OPENING>;
using Reply = std::array<uint8_t, WIM_NEWHOPE_REPLY>;
using Secret = Botan::secure_vector<int32_t>;
using Bytes = Botan::secure_vector<uint8_t>;

constexpr size_t DIGEST = Botan::NEWHOPE_SHARED_KEY_BYTES;
constexpr size_t PACKED = Botan::NEWHOPE_POLY_BYTES;
constexpr int EXCHANGES = 50;

static_assert(size_t{Botan::NEWHOPE_OFFER_BYTES} == WIM_NEWHOPE_OPENING, "one opening");
static_assert(size_t{Botan::NEWHOPE_ACCEPT_BYTES} == WIM_NEWHOPE_REPLY, "one reply");

static void accept(uint32_t refusal)
{
    if (refusal != WIM_DONE)
        throw std::runtime_error(wim_refusal_text(refusal));
}

static Numbers grow(const uint8_t *seed)
{
    Numbers a;
    uint64_t place, written;

    accept(wim_grow(WIM_RULE_LOW_BITS, seed, WIM_NEWHOPE_SEED, a.data(), a.size(), &place,
                    &written));
    return a;
}

/* s, e, s', e' or e''. */
static Secret draw(Random &random)
{
    const Bytes bytes = random.random_vec(WIM_NEWHOPE_S_BYTES);
    Secret values(WIM_NEWHOPE_S);
    uint64_t place, written;

    uint32_t refusal = wim_noise(WIM_NEWHOPE, bytes.data(), bytes.size(), nullptr, 0, values.data(),
                                 values.size(), &place, &written);
    wim_scrub();
    accept(refusal);
    return values;
}

static Opening offer(Random &random, const Secret &s)
{
    const Bytes seed = random.random_vec(WIM_NEWHOPE_SEED);
    const Numbers a = grow(seed.data());
    const Secret e = draw(random);
    Opening opening;
    uint64_t place, written;

    uint32_t refusal = wim_offer(WIM_NEWHOPE, a.data(), a.size(), s.data(), s.size(), e.data(),
                                 e.size(), seed.data(), seed.size(), opening.data(),
                                 opening.size(), &place, &written);
    wim_scrub();
    accept(refusal);
    return opening;
}

/* Writes the reply message and gives the digest. */
static Bytes reply(Random &random, const Opening &opening, Reply &message)
{
    const Numbers a = grow(&opening[PACKED]);
    const Secret s1 = draw(random), e1 = draw(random), e2 = draw(random);
    const Bytes coins = random.random_vec(WIM_NEWHOPE_COINS);
    Bytes key(WIM_NEWHOPE_KEY), digest(DIGEST);
    uint64_t place, message_written, key_written, digest_written;

    uint32_t refusal = wim_reply(
        WIM_NEWHOPE, opening.data(), opening.size(), a.data(), a.size(), s1.data(), s1.size(),
        e1.data(), e1.size(), e2.data(), e2.size(), coins.data(), coins.size(), message.data(),
        message.size(), key.data(), key.size(), digest.data(), digest.size(), &place,
        &message_written, &key_written, &digest_written);
    wim_scrub();
    accept(refusal);
    return digest;
}

/* Gives the digest. */
static Bytes finish(const Reply &message, const Secret &s)
{
    Bytes key(WIM_NEWHOPE_KEY), digest(DIGEST);
    uint64_t place, key_written, digest_written, slack, slack_index;

    uint32_t refusal = wim_finish(WIM_NEWHOPE, message.data(), message.size(), s.data(), s.size(),
                                  key.data(), key.size(), digest.data(), digest.size(), &place,
                                  &key_written, &digest_written, &slack, &slack_index);
    wim_scrub();
    accept(refusal);
    return digest;
}

/* A byte of the opening's seed is altered on the way, so that the replier grows another a. */
static void alter(Opening &opening)
{
    opening[PACKED] ^= 1;
}

/* Whether Botan's shared key is our digest. */
static bool botan_opens(Random &random, bool altered)
{
    Botan::newhope_poly s; /* wiped by its destructor */
    Opening opening;
    Reply message;
    Bytes shared(DIGEST);

    Botan::newhope_keygen(opening.data(), &s, random);
    if (altered)
        alter(opening);
    const Bytes digest = reply(random, opening, message);
    Botan::newhope_shareda(shared.data(), &s, message.data());
    return digest == shared;
}

static bool we_open(Random &random, bool altered)
{
    const Secret s = draw(random);
    Opening opening = offer(random, s);
    Reply message;
    Bytes shared(DIGEST);

    if (altered)
        alter(opening);
    Botan::newhope_sharedb(shared.data(), message.data(), opening.data(), random);
    return finish(message, s) == shared;
}

/* All exchanges agree but the one with an altered seed: else the comparison would see nothing. */
static bool runs(const char *way, bool (*agrees)(Random &, bool), Random &random)
{
    int same = 0;

    for (int k = 0; k < EXCHANGES; k++)
        same += agrees(random, false);
    const bool altered = agrees(random, true);
    printf("%s: our digest is Botan's shared key in %d of %d exchanges, %s with an altered seed\n",
           way, same, EXCHANGES, altered ? "and" : "not");
    return same == EXCHANGES && !altered;
}

int main()
try {
    Botan::AutoSeeded_RNG random;
    const bool one = runs("Botan opens", botan_opens, random);
    const bool other = runs("we open", we_open, random);

    return one && other ? 0 : 1;
} catch (const std::exception &e) {
    fprintf(stderr, "%s\n", e.what());
    return 1;
}
