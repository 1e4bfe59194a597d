/* How fast the hashes are, beside OpenSSL and plain C, in one run: the time of each is the least of many samples that are
   taken in turn. A ratio above 1 means that ours is faster. The digests are compared first. */
#include <openssl/evp.h>
#include <stdint.h>
#include <stdio.h>
#include <stdlib.h>
#include <string.h>
#include <time.h>

void fiber_settlement_ckb_hash(const uint8_t *s, size_t n, uint8_t *out);
void fiber_settlement_sha256(const uint8_t *s, size_t n, uint8_t *out);
void plain_sha256(const uint8_t *s, size_t n, uint8_t *out);

static uint8_t text[1 << 20], out[64];
static EVP_MD_CTX *ctx;

static void openssl(const EVP_MD *md, const uint8_t *s, size_t n, uint8_t *o) {
    unsigned len;
    EVP_DigestInit_ex(ctx, md, NULL);
    EVP_DigestUpdate(ctx, s, n);
    EVP_DigestFinal_ex(ctx, o, &len);
}
static void openssl_blake2b(const uint8_t *s, size_t n, uint8_t *o) { openssl(EVP_blake2b512(), s, n, o); }
static void openssl_sha256(const uint8_t *s, size_t n, uint8_t *o) { openssl(EVP_sha256(), s, n, o); }

typedef void hash(const uint8_t *, size_t, uint8_t *);

static double seconds(hash *f, size_t n, int times) {
    struct timespec a, b;
    clock_gettime(CLOCK_MONOTONIC, &a);
    for (int i = 0; i < times; i++) {
        text[0] = out[0]; /* each call waits for the one before */
        f(text, n, out);
    }
    clock_gettime(CLOCK_MONOTONIC, &b);
    return ((b.tv_sec - a.tv_sec) + (b.tv_nsec - a.tv_nsec) * 1e-9) / times;
}

static void compare(const char *what, hash *ours, const char *name, hash *other, size_t n) {
    int times = n > 4096 ? 1 : 2000;
    double a = 1, b = 1;
    for (int k = 0; k < 300; k++) {
        double x = seconds(ours, n, times), y = seconds(other, n, times);
        if (x < a) a = x;
        if (y < b) b = y;
    }
    printf("%-9s %8zu bytes: ours %10.0f ns, %s %10.0f ns, ratio %.2f\n", what, n, a * 1e9, name, b * 1e9, b / a);
}

int main(void) {
    ctx = EVP_MD_CTX_new();
    for (size_t i = 0; i < sizeof text; i++) text[i] = (uint8_t)(i * 7 + i / 251);
    for (size_t n = 0; n < 300; n++) {
        uint8_t a[32], b[32], c[32];
        fiber_settlement_sha256(text, n, a);
        plain_sha256(text, n, b);
        openssl_sha256(text, n, c);
        if (memcmp(a, c, 32) || memcmp(b, c, 32)) {
            printf("sha256 differs at %zu bytes\n", n);
            return 1;
        }
    }
    compare("ckb_hash", fiber_settlement_ckb_hash, "OpenSSL BLAKE2b-512", openssl_blake2b, 33);
    compare("ckb_hash", fiber_settlement_ckb_hash, "OpenSSL BLAKE2b-512", openssl_blake2b, sizeof text);
    compare("sha256", fiber_settlement_sha256, "plain C", plain_sha256, 32);
    compare("sha256", fiber_settlement_sha256, "plain C", plain_sha256, sizeof text);
    compare("sha256", fiber_settlement_sha256, "OpenSSL SHA-256 (with SHA instructions where the processor has them)", openssl_sha256, sizeof text);
    EVP_MD_CTX_free(ctx);
    return 0;
}
