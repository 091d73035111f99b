// digest LENGTH HOW TURNS: a digest of LENGTH bytes, by whatever `sha256` this program is linked with (sha256.h), or with -DPROVED by
// the proved library.
#include "measure.h"
#include "sha256.h"
#ifdef PROVED
#include "../include/quaythistle.h"
#endif
static uint8_t message[4096];
static size_t length;

static void turn(void *arg) {
    (void)arg;
#ifdef PROVED
    qt_digested d = qt_sha256_digest(message, length);
    kept = d.digest.bytes[0];
#else
    uint8_t out[32];
    sha256(out, message, length);
    kept = out[0];
#endif
}

// The digest of the first `length` bytes 0, 1, 2, .. is printed by HOW "show", to be compared with another's.
static int show(void) {
    uint8_t out[32];
#ifdef PROVED
    qt_digested d = qt_sha256_digest(message, length);
    memcpy(out, d.digest.bytes, 32);
#else
    sha256(out, message, length);
#endif
    for (int i = 0; i < 32; i++) printf("%02x", out[i]);
    return puts("") < 0;
}

int main(int n, char **v) {
    if (n != 4 || (length = atol(v[1])) > sizeof message) return 2;
    for (size_t i = 0; i < sizeof message; i++) message[i] = i;
    return strcmp(v[2], "show") ? measure(v[2], v[3], turn, 0) : show();
}
