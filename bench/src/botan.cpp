// Botan's NewHope, SHAKE-128 and SHA3-256 for the measurement. Its NewHope calls make the public numbers and hash the key; the random bytes that they draw
// (the seed, then s and e; s', e', e'' and coins) are lent, so that drawing is a copy.
#include <algorithm>
#include <botan/hash.h>
#include <botan/newhope.h>
#include <botan/rng.h>
#include <botan/stream_cipher.h>
#include <memory>
#include <string>

namespace {

class Lent final : public Botan::RandomNumberGenerator {
public:
    explicit Lent(const uint8_t *bytes) : next(bytes) {}
    // The first draw is the seed, and the bytes are for those after it.
    Lent(const uint8_t *seed, const uint8_t *bytes) : seed(seed), next(bytes) {}
    void randomize(uint8_t out[], size_t n) override
    {
        if (seed != nullptr) {
            std::copy_n(seed, n, out);
            seed = nullptr;
            return;
        }
        std::copy_n(next, n, out);
        next += n;
    }
    bool accepts_input() const override { return false; }
    void add_entropy(const uint8_t[], size_t) override {}
    std::string name() const override { return "Lent"; }
    void clear() override {}
    bool is_seeded() const override { return true; }

private:
    const uint8_t *seed = nullptr;
    const uint8_t *next;
};

Botan::Newhope_Mode mode(bool boring)
{
    return boring ? Botan::Newhope_Mode::BoringSSL : Botan::Newhope_Mode::SHA3;
}

// Each is made once and used again, which costs less than a new one each time.
using Hash = std::unique_ptr<Botan::HashFunction>;
const Hash sha3 = Botan::HashFunction::create_or_throw("SHA-3(256)");
const Hash shake_to_32 = Botan::HashFunction::create_or_throw("SHAKE-128(256)");
const Hash shake_to_65536 = Botan::HashFunction::create_or_throw("SHAKE-128(524288)");
const std::unique_ptr<Botan::StreamCipher> stream = Botan::StreamCipher::create_or_throw("SHAKE-128");

} // namespace

extern "C" void *botan_secret() { return new Botan::newhope_poly; }

extern "C" void botan_offer(bool boring, const uint8_t *seed, const uint8_t *random, void *secret, uint8_t *message)
{
    Lent lent(seed, random);
    Botan::newhope_keygen(message, static_cast<Botan::newhope_poly *>(secret), lent, mode(boring));
}

extern "C" void botan_reply(bool boring, const uint8_t *random, const uint8_t *opening, uint8_t *message, uint8_t *key)
{
    Lent lent(random);
    Botan::newhope_sharedb(key, message, opening, lent, mode(boring));
}

extern "C" void botan_finish(bool boring, const void *secret, const uint8_t *reply, uint8_t *key)
{
    Botan::newhope_shareda(key, static_cast<const Botan::newhope_poly *>(secret), reply, mode(boring));
}

// 32 bytes.
extern "C" void botan_sha3_256(const uint8_t *input, size_t n, uint8_t *out)
{
    sha3->update(input, n);
    sha3->final(out);
}

// 32 or 65,536 bytes.
extern "C" void botan_shake128(const uint8_t *input, size_t n, uint8_t *out, bool many)
{
    const Hash &shake = many ? shake_to_65536 : shake_to_32;
    shake->update(input, n);
    shake->final(out);
}

// SHAKE-128 of a seed of 32 bytes, as a stream that goes on.
extern "C" void botan_stream(const uint8_t *seed) { stream->set_key(seed, 32); }

extern "C" void botan_more(uint8_t *out, size_t n) { stream->write_keystream(out, n); }
