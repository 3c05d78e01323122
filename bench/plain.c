#include "plain.h"

static const uint32_t K[64] = {
    0x428a2f98, 0x71374491, 0xb5c0fbcf, 0xe9b5dba5, 0x3956c25b, 0x59f111f1, 0x923f82a4, 0xab1c5ed5,
    0xd807aa98, 0x12835b01, 0x243185be, 0x550c7dc3, 0x72be5d74, 0x80deb1fe, 0x9bdc06a7, 0xc19bf174,
    0xe49b69c1, 0xefbe4786, 0x0fc19dc6, 0x240ca1cc, 0x2de92c6f, 0x4a7484aa, 0x5cb0a9dc, 0x76f988da,
    0x983e5152, 0xa831c66d, 0xb00327c8, 0xbf597fc7, 0xc6e00bf3, 0xd5a79147, 0x06ca6351, 0x14292967,
    0x27b70a85, 0x2e1b2138, 0x4d2c6dfc, 0x53380d13, 0x650a7354, 0x766a0abb, 0x81c2c92e, 0x92722c85,
    0xa2bfe8a1, 0xa81a664b, 0xc24b8b70, 0xc76c51a3, 0xd192e819, 0xd6990624, 0xf40e3585, 0x106aa070,
    0x19a4c116, 0x1e376c08, 0x2748774c, 0x34b0bcb5, 0x391c0cb3, 0x4ed8aa4a, 0x5b9cca4f, 0x682e6ff3,
    0x748f82ee, 0x78a5636f, 0x84c87814, 0x8cc70208, 0x90befffa, 0xa4506ceb, 0xbef9a3f7, 0xc67178f2,
};

static inline uint32_t right(uint32_t x, int n) { return (x >> n) | (x << (32 - n)); }

static void sha256_block(uint32_t s[8], const uint8_t *p) {
    uint32_t w[64];
    for (int i = 0; i < 16; i++)
        w[i] = (uint32_t)p[4 * i] << 24 | (uint32_t)p[4 * i + 1] << 16 | (uint32_t)p[4 * i + 2] << 8 | p[4 * i + 3];
    for (int t = 16; t < 64; t++) {
        uint32_t x = w[t - 15], y = w[t - 2];
        w[t] = (right(y, 17) ^ right(y, 19) ^ (y >> 10)) + w[t - 7] + (right(x, 7) ^ right(x, 18) ^ (x >> 3)) + w[t - 16];
    }
    uint32_t a = s[0], b = s[1], c = s[2], d = s[3], e = s[4], f = s[5], g = s[6], h = s[7];
    for (int t = 0; t < 64; t++) {
        uint32_t t1 = h + (right(e, 6) ^ right(e, 11) ^ right(e, 25)) + ((e & f) ^ (~e & g)) + K[t] + w[t];
        uint32_t t2 = (right(a, 2) ^ right(a, 13) ^ right(a, 22)) + ((a & b) ^ (a & c) ^ (b & c));
        h = g, g = f, f = e, e = d + t1, d = c, c = b, b = a, a = t1 + t2;
    }
    s[0] += a, s[1] += b, s[2] += c, s[3] += d, s[4] += e, s[5] += f, s[6] += g, s[7] += h;
}

void plain_sha256(const uint8_t *message, size_t length, uint8_t out[32]) {
    uint32_t s[8] = {0x6a09e667, 0xbb67ae85, 0x3c6ef372, 0xa54ff53a, 0x510e527f, 0x9b05688c, 0x1f83d9ab, 0x5be0cd19};
    size_t i = 0;
    for (; i + 64 <= length; i += 64) sha256_block(s, message + i);
    uint8_t last[128] = {0};
    size_t rest = length - i, end = rest < 56 ? 64 : 128;
    memcpy(last, message + i, rest);
    last[rest] = 0x80;
    for (int j = 0; j < 8; j++) last[end - 1 - j] = (uint8_t)((uint64_t)length * 8 >> (8 * j));
    sha256_block(s, last);
    if (end == 128) sha256_block(s, last + 64);
    for (int j = 0; j < 32; j++) out[j] = (uint8_t)(s[j / 4] >> (24 - 8 * (j % 4)));
}

static inline uint64_t left(uint64_t x, int n) { return (x << n) | (x >> (64 - n)); }

static inline uint64_t word(const uint8_t *p) {
    return (uint64_t)p[0] | (uint64_t)p[1] << 8 | (uint64_t)p[2] << 16 | (uint64_t)p[3] << 24 | (uint64_t)p[4] << 32 | (uint64_t)p[5] << 40 | (uint64_t)p[6] << 48 | (uint64_t)p[7] << 56;
}

struct sip { uint64_t v0, v1, v2, v3; };

static inline struct sip sip_round(struct sip s) {
    s.v0 += s.v1, s.v1 = left(s.v1, 13) ^ s.v0, s.v0 = left(s.v0, 32);
    s.v2 += s.v3, s.v3 = left(s.v3, 16) ^ s.v2;
    s.v0 += s.v3, s.v3 = left(s.v3, 21) ^ s.v0;
    s.v2 += s.v1, s.v1 = left(s.v1, 17) ^ s.v2, s.v2 = left(s.v2, 32);
    return s;
}

static inline struct sip sip_word(struct sip s, uint64_t m) {
    s.v3 ^= m;
    s = sip_round(sip_round(s));
    s.v0 ^= m;
    return s;
}

uint64_t plain_siphash_2_4(const uint8_t key[16], const uint8_t *message, size_t length) {
    uint64_t k0 = word(key), k1 = word(key + 8);
    struct sip s = {k0 ^ 0x736f6d6570736575, k1 ^ 0x646f72616e646f6d, k0 ^ 0x6c7967656e657261, k1 ^ 0x7465646279746573};
    size_t i = 0;
    for (; i + 8 <= length; i += 8) s = sip_word(s, word(message + i));
    uint8_t last[8] = {0};
    memcpy(last, message + i, length - i);
    last[7] = (uint8_t)length;
    s = sip_word(s, word(last));
    s.v2 ^= 0xff;
    s = sip_round(sip_round(sip_round(sip_round(s))));
    return s.v0 ^ s.v1 ^ s.v2 ^ s.v3;
}
