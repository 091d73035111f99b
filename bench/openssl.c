// OpenSSL's digest in the shape of sha256.h, by its low-level calls: the one-call form looks the algorithm up each time.
#include "sha256.h"
#include <openssl/sha.h>
void sha256(uint8_t out[32], const uint8_t *m, size_t n) {
    SHA256_CTX c;
    SHA256_Init(&c);
    SHA256_Update(&c, m, n);
    SHA256_Final(out, &c);
}
