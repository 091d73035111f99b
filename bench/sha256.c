// SHA-256 (FIPS 180-4) in portable C, to compare with: xor's Ch, and/or's Maj, sixty-four schedule words, whole blocks read where they
// stand, the end of the message copied into zeros. -DROUNDS=8 writes eight rounds to a turn; 1, the default, is the plain loop.
// -DNESTED takes the forms of Maj and the sums that the proved code has, in place of FIPS's.
#include "sha256.h"
#include <string.h>
#ifndef ROUNDS
#define ROUNDS 1
#endif

static const uint32_t K[64] = {
    0x428a2f98, 0x71374491, 0xb5c0fbcf, 0xe9b5dba5, 0x3956c25b, 0x59f111f1, 0x923f82a4, 0xab1c5ed5,
    0xd807aa98, 0x12835b01, 0x243185be, 0x550c7dc3, 0x72be5d74, 0x80deb1fe, 0x9bdc06a7, 0xc19bf174,
    0xe49b69c1, 0xefbe4786, 0x0fc19dc6, 0x240ca1cc, 0x2de92c6f, 0x4a7484aa, 0x5cb0a9dc, 0x76f988da,
    0x983e5152, 0xa831c66d, 0xb00327c8, 0xbf597fc7, 0xc6e00bf3, 0xd5a79147, 0x06ca6351, 0x14292967,
    0x27b70a85, 0x2e1b2138, 0x4d2c6dfc, 0x53380d13, 0x650a7354, 0x766a0abb, 0x81c2c92e, 0x92722c85,
    0xa2bfe8a1, 0xa81a664b, 0xc24b8b70, 0xc76c51a3, 0xd192e819, 0xd6990624, 0xf40e3585, 0x106aa070,
    0x19a4c116, 0x1e376c08, 0x2748774c, 0x34b0bcb5, 0x391c0cb3, 0x4ed8aa4a, 0x5b9cca4f, 0x682e6ff3,
    0x748f82ee, 0x78a5636f, 0x84c87814, 0x8cc70208, 0x90befffa, 0xa4506ceb, 0xbef9a3f7, 0xc67178f2};

static uint32_t rotr(uint32_t x, int n) { return x >> n | x << (32 - n); }
static uint32_t ch(uint32_t x, uint32_t y, uint32_t z) { return z ^ (x & (y ^ z)); }
#ifdef NESTED
static uint32_t maj(uint32_t x, uint32_t y, uint32_t z) { return y ^ ((x ^ y) & (y ^ z)); }
static uint32_t big0(uint32_t x) { return rotr(x ^ rotr(x ^ rotr(x, 9), 11), 2); }
static uint32_t big1(uint32_t x) { return rotr(x ^ rotr(x ^ rotr(x, 14), 5), 6); }
static uint32_t small0(uint32_t x) { return rotr(x ^ rotr(x, 11), 7) ^ x >> 3; }
static uint32_t small1(uint32_t x) { return rotr(x ^ rotr(x, 2), 17) ^ x >> 10; }
#else
static uint32_t maj(uint32_t x, uint32_t y, uint32_t z) { return (x & y) | (z & (x | y)); }
static uint32_t big0(uint32_t x) { return rotr(x, 2) ^ rotr(x, 13) ^ rotr(x, 22); }
static uint32_t big1(uint32_t x) { return rotr(x, 6) ^ rotr(x, 11) ^ rotr(x, 25); }
static uint32_t small0(uint32_t x) { return rotr(x, 7) ^ rotr(x, 18) ^ x >> 3; }
static uint32_t small1(uint32_t x) { return rotr(x, 17) ^ rotr(x, 19) ^ x >> 10; }
#endif
static uint32_t load(const uint8_t *b) { return (uint32_t)b[0] << 24 | b[1] << 16 | b[2] << 8 | b[3]; }
static void store(uint8_t *b, uint32_t x) { b[0] = x >> 24, b[1] = x >> 16, b[2] = x >> 8, b[3] = x; }

// One round; the eight words move by one name from round to round, so that eight rounds need no move.
#define ROUND(a, b, c, d, e, f, g, h, t)                          \
    do {                                                          \
        uint32_t x = h + big1(e) + ch(e, f, g) + K[t] + w[t];     \
        d += x;                                                   \
        h = x + big0(a) + maj(a, b, c);                           \
    } while (0)

static void compress(uint32_t s[8], const uint8_t *block) {
    uint32_t w[64], a = s[0], b = s[1], c = s[2], d = s[3], e = s[4], f = s[5], g = s[6], h = s[7];
    for (int t = 0; t < 16; t++) w[t] = load(block + 4 * t);
    for (int t = 16; t < 64; t++) w[t] = small1(w[t - 2]) + w[t - 7] + small0(w[t - 15]) + w[t - 16];
    for (int t = 0; t < 64; t += ROUNDS) {
#if ROUNDS == 8
        ROUND(a, b, c, d, e, f, g, h, t);
        ROUND(h, a, b, c, d, e, f, g, t + 1);
        ROUND(g, h, a, b, c, d, e, f, t + 2);
        ROUND(f, g, h, a, b, c, d, e, t + 3);
        ROUND(e, f, g, h, a, b, c, d, t + 4);
        ROUND(d, e, f, g, h, a, b, c, t + 5);
        ROUND(c, d, e, f, g, h, a, b, t + 6);
        ROUND(b, c, d, e, f, g, h, a, t + 7);
#else
        ROUND(a, b, c, d, e, f, g, h, t);
        uint32_t next = h;
        h = g, g = f, f = e, e = d, d = c, c = b, b = a, a = next;
#endif
    }
    s[0] += a, s[1] += b, s[2] += c, s[3] += d, s[4] += e, s[5] += f, s[6] += g, s[7] += h;
}

void sha256(uint8_t out[32], const uint8_t *m, size_t n) {
    uint32_t s[8] = {0x6a09e667, 0xbb67ae85, 0x3c6ef372, 0xa54ff53a, 0x510e527f, 0x9b05688c, 0x1f83d9ab, 0x5be0cd19};
    uint8_t end[128] = {0};
    size_t rest = n % 64, whole = n - rest, last = rest < 56 ? 64 : 128;
    for (size_t i = 0; i < whole; i += 64) compress(s, m + i);
    memcpy(end, m + whole, rest);
    end[rest] = 128;
    store(end + last - 8, (uint64_t)n >> 29);
    store(end + last - 4, (uint32_t)(n << 3));
    for (size_t i = 0; i < last; i += 64) compress(s, end + i);
    for (int i = 0; i < 8; i++) store(out + 4 * i, s[i]);
}
