/* What the tests of the C interface share: facts that are counted, answers compared, and things that calls are made of. */
#include "layout.h"
#include <stdio.h>
#include <string.h>

static int passed, failed;

#define CHECK(fact) check((fact), #fact, __LINE__)

static void check(bool held, const char *fact, int line) {
    if (held) {
        passed += 1;
        return;
    }
    failed += 1;
    printf("%s:%d: not so: %s\n", __BASE_FILE__, line, fact);
}

/* The last line of a test, and its status. */
static int finish(void) {
    printf("%d passed, %d failed\n", passed, failed);
    return failed != 0;
}

static const qt_digest ZERO;

static bool same(qt_digest a, qt_digest b) { return memcmp(a.bytes, b.bytes, sizeof a.bytes) == 0; }

static bool same_metadata(qt_metadata a, qt_metadata b) { return a.count == b.count && same(a.label, b.label); }

static bool is(qt_verdict v, uint32_t refusal, uint32_t proof) { return v.refusal == refusal && v.proof == proof; }

static bool done(qt_verdict v) { return is(v, QT_DONE, QT_NO_PROOF); }

/* A refused answer of the gateway: the refusal and the proof it speaks of, a zero tag, and the metadata given. */
static void check_refused(qt_answer a, qt_metadata held, uint32_t refusal, uint32_t which, int line) {
    check(is(a.verdict, refusal, which), "the refusal and the proof it speaks of", line);
    check(same(a.tag, ZERO), "a zero tag", line);
    check(same_metadata(a.metadata, held), "the metadata given", line);
}

static qt_command command(uint32_t operation, uint64_t position, uint32_t height, qt_digest tag) {
    return (qt_command){.operation = operation, .height = height, .position = position, .tag = tag};
}

/* Byte i is i modulo 251. */
static uint8_t pattern[QT_LONGEST_MESSAGE + 1];

static void fill_pattern(void) {
    for (size_t i = 0; i < sizeof pattern; i += 1) pattern[i] = (uint8_t)(i % 251);
}

/* The image of no block, and spare bytes. */
static void fill_empty(uint8_t *image, size_t length) {
    static const uint8_t none[7] = {1, 0, 0, 0, 2, 0, 0};
    memset(image, 0, length);
    memcpy(image, none, sizeof none);
}

/* The store's proof of a position; no byte where it refuses. */
typedef struct {
    uint8_t bytes[QT_LONGEST_PROOF];
    size_t length;
} proof;

static proof proof_of(const uint8_t *image, size_t length, uint64_t p) {
    proof s;
    s.length = qt_store_prove(image, length, p, s.bytes, sizeof s.bytes, 0).length;
    return s;
}
