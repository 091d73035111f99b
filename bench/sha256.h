// The one shape in which every digest is measured.
#include <stddef.h>
#include <stdint.h>
void sha256(uint8_t out[32], const uint8_t *m, size_t n);
