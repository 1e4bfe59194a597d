/* SHA-256 in plain C, no intrinsics, in the shape of crates/fiber_sha256/src/sha256.rt: eight turns to a loop's body, the
   working variables renamed and not moved, the schedule's words made beside the turns. The benchmark's baseline, compiled
   by gcc -O3; its digests are compared with OpenSSL's. */
#include <stddef.h>
#include <stdint.h>
#include <string.h>

static const uint32_t K[64] = {
    0x428a2f98, 0x71374491, 0xb5c0fbcf, 0xe9b5dba5, 0x3956c25b, 0x59f111f1, 0x923f82a4, 0xab1c5ed5,
    0xd807aa98, 0x12835b01, 0x243185be, 0x550c7dc3, 0x72be5d74, 0x80deb1fe, 0x9bdc06a7, 0xc19bf174,
    0xe49b69c1, 0xefbe4786, 0x0fc19dc6, 0x240ca1cc, 0x2de92c6f, 0x4a7484aa, 0x5cb0a9dc, 0x76f988da,
    0x983e5152, 0xa831c66d, 0xb00327c8, 0xbf597fc7, 0xc6e00bf3, 0xd5a79147, 0x06ca6351, 0x14292967,
    0x27b70a85, 0x2e1b2138, 0x4d2c6dfc, 0x53380d13, 0x650a7354, 0x766a0abb, 0x81c2c92e, 0x92722c85,
    0xa2bfe8a1, 0xa81a664b, 0xc24b8b70, 0xc76c51a3, 0xd192e819, 0xd6990624, 0xf40e3585, 0x106aa070,
    0x19a4c116, 0x1e376c08, 0x2748774c, 0x34b0bcb5, 0x391c0cb3, 0x4ed8aa4a, 0x5b9cca4f, 0x682e6ff3,
    0x748f82ee, 0x78a5636f, 0x84c87814, 0x8cc70208, 0x90befffa, 0xa4506ceb, 0xbef9a3f7, 0xc67178f2,
};

static uint32_t rotr(uint32_t x, int k) { return x >> k | x << (32 - k); }

#define SUM0(x) (rotr(x, 2) ^ rotr(x, 13) ^ rotr(x, 22))
#define SUM1(x) (rotr(x, 6) ^ rotr(x, 11) ^ rotr(x, 25))
#define SIG0(x) (rotr(x, 7) ^ rotr(x, 18) ^ (x) >> 3)
#define SIG1(x) (rotr(x, 17) ^ rotr(x, 19) ^ (x) >> 10)
#define CH(x, y, z) ((z) ^ ((x) & ((y) ^ (z))))
#define MAJ(x, y, z) ((y) ^ (((x) ^ (y)) & ((y) ^ (z))))

/* a turn, with the variables renamed and not moved; WORD makes word i + 16 of the schedule beside it */
#define WORD(i) w[(i) + 16] = SIG1(w[(i) + 14]) + w[(i) + 9] + SIG0(w[(i) + 1]) + w[i];
#define TURN(a, b, c, d, e, f, g, h, i)                                   \
    {                                                                     \
        uint32_t t = h + SUM1(e) + CH(e, f, g) + K[i] + w[i];             \
        d += t;                                                           \
        h = t + SUM0(a) + MAJ(a, b, c);                                   \
    }
#define EIGHT(STEP, i)                                                                          \
    STEP(i) TURN(a, b, c, d, e, f, g, h, i) STEP(i + 1) TURN(h, a, b, c, d, e, f, g, i + 1)     \
    STEP(i + 2) TURN(g, h, a, b, c, d, e, f, i + 2) STEP(i + 3) TURN(f, g, h, a, b, c, d, e, i + 3) \
    STEP(i + 4) TURN(e, f, g, h, a, b, c, d, i + 4) STEP(i + 5) TURN(d, e, f, g, h, a, b, c, i + 5) \
    STEP(i + 6) TURN(c, d, e, f, g, h, a, b, i + 6) STEP(i + 7) TURN(b, c, d, e, f, g, h, a, i + 7)
#define NONE(i)

static void compress(uint32_t s[8], const uint8_t *p) {
    uint32_t w[64] = {0};
    for (int i = 0; i < 16; i++)
        w[i] = (uint32_t)p[4 * i] << 24 | (uint32_t)p[4 * i + 1] << 16 | (uint32_t)p[4 * i + 2] << 8 | p[4 * i + 3];
    uint32_t a = s[0], b = s[1], c = s[2], d = s[3], e = s[4], f = s[5], g = s[6], h = s[7];
    for (int i = 0; i < 48; i += 8) {
        EIGHT(WORD, i)
    }
    EIGHT(NONE, 48)
    EIGHT(NONE, 56)
    s[0] += a, s[1] += b, s[2] += c, s[3] += d, s[4] += e, s[5] += f, s[6] += g, s[7] += h;
}

void plain_sha256(const uint8_t *s, size_t n, uint8_t out[32]) {
    uint32_t h[8] = {0x6a09e667, 0xbb67ae85, 0x3c6ef372, 0xa54ff53a, 0x510e527f, 0x9b05688c, 0x1f83d9ab, 0x5be0cd19};
    uint8_t t[128] = {0};
    size_t whole = n / 64 * 64, left = n % 64, end = left < 56 ? 64 : 128;
    for (size_t i = 0; i < whole; i += 64) compress(h, s + i);
    if (left) memcpy(t, s + whole, left);
    t[left] = 0x80;
    for (int i = 0; i < 8; i++) t[end - 1 - i] = (uint8_t)((uint64_t)n * 8 >> 8 * i);
    for (size_t i = 0; i < end; i += 64) compress(h, t + i);
    for (int i = 0; i < 32; i++) out[i] = (uint8_t)(h[i / 4] >> (24 - i % 4 * 8));
}
