/*
 * Schwaemm in plain C: what a user would write in place of the port's archive.
 * It is written for the benchmark `packets` alone and is no part of the port.
 * It follows docs/01-scope.md, "Down to the block" and "Down to the words", and
 * "Schwaemm and Esch" (the Sparkle submission, finalist edition).
 *
 * Each variant has one function that seals and one that opens. Everything is
 * inlined there, so that sizes and steps are constants and the state stays in
 * local variables from block to block. The slim permutation is unrolled, since
 * long messages spend their time there; the big one is a loop.
 */
#include <stddef.h>
#include <stdint.h>
#include <string.h>

#if __BYTE_ORDER__ != __ORDER_LITTLE_ENDIAN__
#error "words are read and written as they lie in memory: little-endian only"
#endif

#define INLINE static inline __attribute__((always_inline))
#ifdef __clang__
#define UNROLL _Pragma("unroll")
#else
#define UNROLL _Pragma("GCC unroll 16")
#endif

/* The most words of a state, and of a rate or a key. */
#define STATE 16
#define HALF 8

/* What the variants differ in: the bytes of the rate, which are also the
 * nonce's; the bytes of the key, which are also the tag's and the capacity's;
 * the steps of the two permutations. */
struct variant {
    size_t rate, key;
    unsigned slim, big;
};

static const uint32_t RCON[8] = {
    0xb7e15162, 0xbf715880, 0x38b4da56, 0x324e7738,
    0xbb1185eb, 0x4f7c7b57, 0xcfbfa1c8, 0xc2b3293d,
};

INLINE uint32_t rotr(uint32_t x, unsigned n)
{
    return x >> n | x << (32 - n);
}

INLINE uint32_t ell(uint32_t x)
{
    return rotr(x, 16) ^ (x & 0xffff);
}

/* The ARX box on the branch at w: x is w[0], y is w[1]. */
INLINE void arx_box(uint32_t *w, uint32_t c)
{
    uint32_t x = w[0], y = w[1];

    x += rotr(y, 31);
    y ^= rotr(x, 24);
    x ^= c;
    x += rotr(y, 17);
    y ^= rotr(x, 17);
    x ^= c;
    x += y;
    y ^= rotr(x, 31);
    x ^= c;
    x += rotr(y, 24);
    y ^= rotr(x, 16);
    x ^= c;
    w[0] = x;
    w[1] = y;
}

/* The linear layer on b branches: the right half after the Feistel round, moved
 * by one branch, becomes the left half, and the left half the right one. */
INLINE void linear_layer(uint32_t *w, size_t b)
{
    uint32_t tx = 0, ty = 0, r[HALF];

    UNROLL
    for (size_t i = 0; i < b; i += 2) {
        tx ^= w[i];
        ty ^= w[i + 1];
    }
    tx = ell(tx);
    ty = ell(ty);
    UNROLL
    for (size_t i = 0; i < b; i += 2) {
        r[i] = w[b + i] ^ w[i] ^ ty;
        r[i + 1] = w[b + i + 1] ^ w[i + 1] ^ tx;
    }
    UNROLL
    for (size_t i = 0; i < b; i++) {
        w[b + i] = w[i];
        w[i] = r[(i + 2) % b];
    }
}

INLINE void step(uint32_t *w, size_t b, uint32_t s)
{
    w[1] ^= RCON[s % 8];
    w[3] ^= s;
    UNROLL
    for (size_t i = 0; i < b; i++)
        arx_box(&w[2 * i], RCON[i]);
    linear_layer(w, b);
}

INLINE void permute_slim(struct variant v, uint32_t *w)
{
    UNROLL
    for (unsigned s = 0; s < v.slim; s++)
        step(w, (v.rate + v.key) / 8, s);
}

INLINE void permute_big(struct variant v, uint32_t *w)
{
    for (unsigned s = 0; s < v.big; s++)
        step(w, (v.rate + v.key) / 8, s);
}

/* Feedback and whitening: the rate takes up a block. */
INLINE void take_up(struct variant v, uint32_t *w, const uint32_t *block)
{
    const size_t rate = v.rate / 4, key = v.key / 4, half = rate / 2;
    const uint32_t *capacity = w + rate;

    UNROLL
    for (size_t i = 0, j = half; i < half; i++, j++) {
        uint32_t left = w[i], right = w[j];

        w[i] = right ^ block[i] ^ capacity[i % key];
        w[j] = right ^ left ^ block[j] ^ capacity[j % key];
    }
}

/* The last block is taken up. `part` is 0 for the header, 2 for the message. */
INLINE void take_up_last(struct variant v, uint32_t *w, const uint32_t *block,
                         size_t n, uint32_t part)
{
    uint32_t domain = part + (n == v.rate);

    w[(v.rate + v.key) / 4 - 1] ^= (domain ^ 1u << v.key / 8) << 24;
    take_up(v, w, block);
    permute_big(v, w);
}

/* A last block of n bytes; a short one gets byte 80 (hexadecimal) and zeros. */
INLINE void read_last(struct variant v, uint32_t *block, const uint8_t *from,
                      size_t n)
{
    uint8_t bytes[4 * HALF] = {0};

    memcpy(bytes, from, n);
    if (n < v.rate)
        bytes[n] = 0x80;
    memcpy(block, bytes, v.rate);
}

/* What a block becomes, sealed or opened. */
INLINE void crypt(struct variant v, uint32_t *to, const uint32_t *w,
                  const uint32_t *block)
{
    UNROLL
    for (size_t i = 0; i < v.rate / 4; i++)
        to[i] = w[i] ^ block[i];
}

/* Start and header. */
INLINE void start(struct variant v, uint32_t *w, const uint8_t *key,
                  const uint8_t *nonce, const uint8_t *header, size_t n)
{
    uint32_t block[HALF];

    memcpy(w, nonce, v.rate);
    memcpy(w + v.rate / 4, key, v.key);
    permute_big(v, w);
    if (n == 0)
        return;
    for (; n > v.rate; n -= v.rate, header += v.rate) {
        memcpy(block, header, v.rate);
        take_up(v, w, block);
        permute_slim(v, w);
    }
    read_last(v, block, header, n);
    take_up_last(v, w, block, n, 0);
}

/* The end: the key is xored into the capacity, which is the tag. */
INLINE void make_tag(struct variant v, const uint32_t *w, const uint8_t *key,
                     uint8_t *tag)
{
    uint32_t words[HALF];

    memcpy(words, key, v.key);
    UNROLL
    for (size_t i = 0; i < v.key / 4; i++)
        words[i] ^= w[v.rate / 4 + i];
    memcpy(tag, words, v.key);
}

/* Writes the n bytes of the ciphertext and the tag. */
INLINE void seal(struct variant v, uint8_t *out, const uint8_t *key,
                 const uint8_t *nonce, const uint8_t *header,
                 size_t header_bytes, const uint8_t *in, size_t n)
{
    uint32_t w[STATE], plain[HALF], sealed[HALF];

    start(v, w, key, nonce, header, header_bytes);
    if (n > 0) {
        for (; n > v.rate; n -= v.rate, in += v.rate, out += v.rate) {
            memcpy(plain, in, v.rate);
            crypt(v, sealed, w, plain);
            memcpy(out, sealed, v.rate);
            take_up(v, w, plain);
            permute_slim(v, w);
        }
        read_last(v, plain, in, n);
        crypt(v, sealed, w, plain);
        memcpy(out, sealed, n);
        take_up_last(v, w, plain, n, 2);
    }
    make_tag(v, w, key, out + n);
}

/* Reads n bytes of ciphertext and the tag behind them, writes the n bytes of
 * the message, and gives 1. Where the tag differs it gives 0, and the n bytes
 * are zeros. */
INLINE int open(struct variant v, uint8_t *out, const uint8_t *key,
                const uint8_t *nonce, const uint8_t *header,
                size_t header_bytes, const uint8_t *in, size_t n)
{
    uint32_t w[STATE], plain[HALF], sealed[HALF];
    uint8_t tag[4 * HALF], difference = 0;
    uint8_t *message = out;
    const size_t all = n;

    start(v, w, key, nonce, header, header_bytes);
    if (n > 0) {
        for (; n > v.rate; n -= v.rate, in += v.rate, out += v.rate) {
            memcpy(sealed, in, v.rate);
            crypt(v, plain, w, sealed);
            memcpy(out, plain, v.rate);
            take_up(v, w, plain);
            permute_slim(v, w);
        }
        read_last(v, sealed, in, n);
        crypt(v, plain, w, sealed);
        memcpy(out, plain, n);
        read_last(v, plain, out, n);
        take_up_last(v, w, plain, n, 2);
    }
    make_tag(v, w, key, tag);
    for (size_t i = 0; i < v.key; i++)
        difference |= tag[i] ^ in[n + i];
    if (difference == 0)
        return 1;
    memset(message, 0, all);
    return 0;
}

#define VARIANT(name, ...)                                                     \
    void c_seal_##name(uint8_t *out, const uint8_t *key, const uint8_t *nonce, \
                       const uint8_t *header, size_t header_bytes,             \
                       const uint8_t *in, size_t n)                            \
    {                                                                          \
        const struct variant v = {__VA_ARGS__};                                \
        seal(v, out, key, nonce, header, header_bytes, in, n);                 \
    }                                                                          \
    int c_open_##name(uint8_t *out, const uint8_t *key, const uint8_t *nonce,  \
                      const uint8_t *header, size_t header_bytes,              \
                      const uint8_t *in, size_t n)                             \
    {                                                                          \
        const struct variant v = {__VA_ARGS__};                                \
        return open(v, out, key, nonce, header, header_bytes, in, n);          \
    }

VARIANT(128_128, .rate = 16, .key = 16, .slim = 7, .big = 10)
VARIANT(256_128, .rate = 32, .key = 16, .slim = 7, .big = 11)
VARIANT(192_192, .rate = 24, .key = 24, .slim = 7, .big = 11)
VARIANT(256_256, .rate = 32, .key = 32, .slim = 8, .big = 12)
