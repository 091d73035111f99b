/* Calls every function of quaythistle.h but those of filing by time (filing.c), and provokes every refusal where a call can give it. The last
 * line is 'N passed, M failed'. */
#include "check.h"

static bool refused(qt_verdict v, uint32_t refusal) { return is(v, refusal, QT_NO_PROOF); }

static qt_digest hex(const char *digits) {
    qt_digest d;
    for (size_t i = 0; i < sizeof d.bytes; i += 1) {
        unsigned byte;
        sscanf(digits + 2 * i, "%2x", &byte);
        d.bytes[i] = (uint8_t)byte;
    }
    return d;
}

static qt_digest digest_of(const void *message, size_t length) { return qt_sha256_digest(message, length).digest; }

/* An archive of n blocks of height 0 and a zero tag, in a buffer of its own. */
static uint8_t flat[QT_LONGEST_IMAGE + 33];

static size_t fill_flat(size_t n) {
    size_t rest = 2 + 33 * n;
    memset(flat, 0, sizeof flat);
    flat[0] = 1;
    flat[1] = (uint8_t)(rest >> 24);
    flat[2] = (uint8_t)(rest >> 16);
    flat[3] = (uint8_t)(rest >> 8);
    flat[4] = (uint8_t)rest;
    flat[5] = (uint8_t)(n >> 8);
    flat[6] = (uint8_t)n;
    return QT_IMAGE_SIZE(n);
}

/* The row of five, blocks A to E with heights 0, 2, 0, 1, 2, made by five inserts, with room for one more block. */
#define FIVE_ROOM QT_IMAGE_SIZE(6)
static uint8_t five[FIVE_ROOM];
static const uint32_t five_heights[5] = {0, 2, 0, 1, 2};

static qt_digest letter(size_t i) { return digest_of(&"ABCDE"[i], 1); }

static void fill_five(void) {
    fill_empty(five, sizeof five);
    for (size_t i = 0; i < 5; i += 1) qt_store_apply(five, sizeof five, command(QT_INSERT, i, five_heights[i], letter(i)));
}

static const char *const empty_label = "85dd67783c67aa0ad02f06870ed745e0f8b7ae9eb94ab43c257bba9b2fd3390b";
static const char *const five_label = "58e3ab158035b449e489a22d72a95bf6550cbd259a688b36310ad6e485a06c23";

/* Digests. */
static const char *const abc_digest = "ba7816bf8f01cfea414140de5dae2223b00361a396177a9cb410ff61f20015ad";
static const char *const none_digest = "e3b0c44298fc1c149afbf4c8996fb92427ae41e4649b934ca495991b7852b855";
static const uint8_t abc[3] = {'a', 'b', 'c'};

static bool is_digest(qt_digested d, qt_digest wanted) { return done(d.verdict) && same(d.digest, wanted); }

static bool too_long(qt_digested d) { return refused(d.verdict, QT_LONG_MESSAGE) && same(d.digest, ZERO); }

static void digests(void) {
    CHECK(is_digest(qt_sha256_digest(abc, 3), hex(abc_digest)));
    CHECK(is_digest(qt_sha256_digest(NULL, 0), hex(none_digest)));
    CHECK(done(qt_sha256_digest(pattern, QT_LONGEST_MESSAGE).verdict));
    CHECK(too_long(qt_sha256_digest(pattern, QT_LONGEST_MESSAGE + 1)));
}

/* A first run of this length, joined with each second run of 0 to 200 bytes from elsewhere, has the digest of the same bytes in one run. */
static bool joins(size_t first) {
    const uint8_t *elsewhere = pattern + 1000;
    uint8_t one[130 + 200];
    memcpy(one, pattern, first);
    memcpy(one + first, elsewhere, 200);
    bool yes = true;
    for (size_t second = 0; second <= 200; second += 1)
        yes = yes && is_digest(qt_sha256_digest_joined(pattern, first, elsewhere, second), digest_of(one, first + second));
    return yes;
}

static void joined_digests(void) {
    for (size_t first = 0; first <= 130; first += 1) CHECK(joins(first));
    CHECK(is_digest(qt_sha256_digest_joined(abc, 1, abc + 1, 2), hex(abc_digest)));
    CHECK(is_digest(qt_sha256_digest_joined(NULL, 0, abc, 3), hex(abc_digest)));
    CHECK(is_digest(qt_sha256_digest_joined(abc, 3, NULL, 0), hex(abc_digest)));
    CHECK(is_digest(qt_sha256_digest_joined(NULL, 0, NULL, 0), hex(none_digest)));
}

static void long_joined(void) {
    static const size_t firsts[7] = {0, 1, 7, 63, 64, QT_LONGEST_MESSAGE - 1, QT_LONGEST_MESSAGE};
    qt_digest whole = digest_of(pattern, QT_LONGEST_MESSAGE);
    for (size_t i = 0; i < 7; i += 1) {
        size_t first = firsts[i], second = QT_LONGEST_MESSAGE - first;
        CHECK(is_digest(qt_sha256_digest_joined(pattern, first, pattern + first, second), whole));
        CHECK(too_long(qt_sha256_digest_joined(pattern, first, pattern + first, second + 1)));
    }
    CHECK(too_long(qt_sha256_digest_joined(pattern, sizeof pattern, NULL, 0)));
    CHECK(too_long(qt_sha256_digest_joined(NULL, 0, pattern, sizeof pattern)));
    CHECK(too_long(qt_sha256_digest_joined(pattern, sizeof pattern, pattern, sizeof pattern)));
}

/* Tags of readings that are the pattern's first bytes, as Python's hashlib makes them: the SHA-256 of 01, 4 + length in two bytes, time in
 * four, and the readings. With 57 bytes of readings that message is one whole block of SHA-256. */
static const struct {
    uint32_t time;
    size_t length;
    const char *tag;
} known[] = {
    {0, 0, "f27e053e2ec3b2768a5ab93c7882265a46530a2b079acbe5cd961a55312cc3b9"},
    {UINT32_MAX, 0, "66635f07bc06f32838251d96cda574905c918a310c3512017dfbc4780e52b769"},
    {1, 48, "6f3954ed3ea670e5a7e96858a8d233b7134c2820dc1bd3111a96c357e9c557f4"},
    {256, 49, "1d263aca544b012e9ec089c77c8e16fabc2e44f05c4deb7b0c1c051e415b6cab"},
    {65536, 56, "92f9c361dc549cdd7cc6d87a221f03b511e2feed644a633cb7ccafeb50048770"},
    {1700000000, 57, "e1afe311ed88df50cd07388773ec246394857c65659260ec40b9a3d67f43e76d"},
    {UINT32_MAX, 58, "ac01499a6539817fc77d54de9aeabad34c34204739af9a79cac1c406035d2023"},
    {16777216, 251, "115308e38c4314ea22912013b8fb5ff6f708ec47f3bf0f165dc3e8cc8d124d6b"},
    {0, 4089, "f8c6fe7424529d35ce3d2765687844ec7e1e1bd3fda18dbb3a66b45318ab115d"},
    {1700000000, 4089, "fcedd0a823d101e1b076e6138ff3c5f3753879451d4268230edc11c5ddbdcca3"},
};

static qt_digested spelled_out(uint32_t time, const uint8_t *readings, size_t length) {
    size_t rest = 4 + length;
    uint8_t front[7] = {1, (uint8_t)(rest >> 8), (uint8_t)rest};
    for (size_t i = 0; i < 4; i += 1) front[3 + i] = (uint8_t)(time >> (24 - 8 * i));
    return qt_sha256_digest_joined(front, sizeof front, readings, length);
}

static bool says(qt_matched m, bool yes) { return done(m.verdict) && m.yes == yes; }

static void known_tags(void) {
    for (size_t i = 0; i < sizeof known / sizeof *known; i += 1) {
        uint32_t time = known[i].time;
        size_t length = known[i].length;
        qt_digest tag = hex(known[i].tag);
        CHECK(is_digest(qt_labels_tag(time, pattern, length), tag));
        CHECK(is_digest(spelled_out(time, pattern, length), tag));
        CHECK(says(qt_labels_matches(tag, time, pattern, length), true));
    }
    CHECK(is_digest(qt_labels_tag(0, NULL, 0), hex(known[0].tag)));
    CHECK(says(qt_labels_matches(hex(known[0].tag), 0, NULL, 0), true));
}

/* A tag is of a time and readings together: neither another time nor other readings match it, and the readings' digest alone is no tag. */
static void matches(void) {
    const uint32_t time = 1700000000;
    qt_digest tag = qt_labels_tag(time, abc, 3).digest;
    CHECK(says(qt_labels_matches(tag, time, abc, 3), true));
    for (uint32_t bit = 1; bit != 0; bit <<= 1) CHECK(says(qt_labels_matches(tag, time ^ bit, abc, 3), false));
    CHECK(says(qt_labels_matches(tag, time, (const uint8_t *)"abd", 3), false));
    CHECK(says(qt_labels_matches(tag, time, abc, 2), false));
    CHECK(says(qt_labels_matches(tag, time, NULL, 0), false));
    CHECK(says(qt_labels_matches(digest_of(abc, 3), time, abc, 3), false));
    CHECK(says(qt_labels_matches(digest_of(abc, 3), 0, abc, 3), false));
}

static void long_readings(void) {
    static const size_t lengths[2] = {QT_LONGEST_READINGS + 1, QT_LONGEST_MESSAGE + 1};
    for (size_t i = 0; i < 2; i += 1) {
        CHECK(too_long(qt_labels_tag(0, pattern, lengths[i])));
        qt_matched m = qt_labels_matches(ZERO, 0, pattern, lengths[i]);
        CHECK(refused(m.verdict, QT_LONG_MESSAGE) && !m.yes);
    }
}

/* Heights. */
static void heights(void) {
    CHECK(qt_labels_height(1) == 0);
    CHECK(qt_labels_height(6) == 1);
    CHECK(qt_labels_height(8) == 3);
    CHECK(qt_labels_height(32768) == 15);
    CHECK(qt_labels_height(0) == 15);
}

/* The store's check. */
static void images(void) {
    size_t size = fill_flat(0);
    qt_metadata_answer a = qt_store_check(flat, size);
    CHECK(done(a.verdict) && a.metadata.count == 0 && same(a.metadata.label, hex(empty_label)));
    fill_five();
    a = qt_store_check(five, sizeof five);
    CHECK(done(a.verdict) && a.metadata.count == 5 && same(a.metadata.label, hex(five_label)));
    a = qt_store_check(five, QT_IMAGE_SIZE(5) - 1);
    CHECK(refused(a.verdict, QT_BAD_IMAGE) && a.metadata.count == 0 && same(a.metadata.label, ZERO));
    CHECK(refused(qt_store_check(NULL, 0).verdict, QT_BAD_IMAGE));
    five[7] = 16;
    CHECK(refused(qt_store_check(five, sizeof five).verdict, QT_BAD_IMAGE));
    fill_five();
    five[0] = 2;
    CHECK(refused(qt_store_check(five, sizeof five).verdict, QT_BAD_IMAGE));
}

static void shapes(void) {
    static const uint64_t wanted[5] = {2, 3, 4, 3, 2};
    uint64_t entries[6] = {0, 0, 0, 0, 0, 77};
    fill_five();
    qt_counted s = qt_shapes_shape(five, sizeof five, entries, 6);
    CHECK(done(s.verdict) && s.count == 5);
    CHECK(memcmp(entries, wanted, sizeof wanted) == 0 && entries[5] == 77);
    entries[0] = 78;
    s = qt_shapes_shape(five, sizeof five, entries, 4);
    CHECK(refused(s.verdict, QT_NO_ROOM) && s.count == 0 && entries[0] == 78);
    CHECK(refused(qt_shapes_shape(NULL, 0, NULL, 0).verdict, QT_BAD_IMAGE));
    CHECK(done(qt_shapes_shape(flat, fill_flat(0), NULL, 0).verdict));
}

/* The store's proofs. */
static void proofs(void) {
    static const uint64_t wanted[6] = {1, 2, 3, 4, 3, 2};
    uint8_t buffer[QT_LONGEST_PROOF + 2], before[sizeof buffer];
    fill_five();
    for (uint64_t p = 0; p <= 5; p += 1) {
        memset(buffer, 0xA5, sizeof buffer);
        memcpy(before, buffer, sizeof buffer);
        qt_proved r = qt_store_prove(five, sizeof five, p, buffer, sizeof buffer, 2);
        CHECK(done(r.verdict) && r.entries == wanted[p] && r.length == QT_PROOF_SIZE(wanted[p]));
        CHECK(memcmp(buffer, before, 2) == 0 && buffer[2] == 1);
        CHECK(memcmp(buffer + 2 + r.length, before + 2 + r.length, sizeof buffer - 2 - r.length) == 0);
    }
}

static bool proof_refused(qt_proved r, uint32_t refusal) { return refused(r.verdict, refusal) && r.length == 0 && r.entries == 0; }

static void refused_proofs(void) {
    uint8_t buffer[QT_LONGEST_PROOF], before[sizeof buffer];
    memset(buffer, 0xA5, sizeof buffer);
    memcpy(before, buffer, sizeof buffer);
    fill_five();
    CHECK(proof_refused(qt_store_prove(NULL, 0, 0, buffer, sizeof buffer, 0), QT_BAD_IMAGE));
    CHECK(proof_refused(qt_store_prove(five, sizeof five, 6, buffer, sizeof buffer, 0), QT_BAD_POSITION));
    CHECK(proof_refused(qt_store_prove(five, sizeof five, UINT64_MAX, buffer, sizeof buffer, 0), QT_BAD_POSITION));
    CHECK(proof_refused(qt_store_prove(five, sizeof five, 3, buffer, 228, 0), QT_NO_ROOM));
    CHECK(proof_refused(qt_store_prove(five, sizeof five, 3, buffer, 229, 1), QT_NO_ROOM));
    CHECK(proof_refused(qt_store_prove(five, sizeof five, 3, buffer, sizeof buffer, UINT64_MAX), QT_NO_ROOM));
    CHECK(proof_refused(qt_store_prove(five, sizeof five, 3, NULL, 0, 0), QT_NO_ROOM));
    size_t size = fill_flat(201);
    CHECK(proof_refused(qt_store_prove(flat, size, 201, buffer, sizeof buffer, 0), QT_TOO_DEEP));
    CHECK(memcmp(buffer, before, sizeof buffer) == 0);
    qt_proved r = qt_store_prove(flat, size, 200, buffer, sizeof buffer, 0);
    CHECK(done(r.verdict) && r.entries == QT_MOST_ENTRIES && r.length == QT_LONGEST_PROOF);
}

/* The store's edits: what they refuse, and that a refusal changes no byte. */
static bool edit_refused(size_t length, qt_command k, uint32_t refusal) {
    uint8_t before[FIVE_ROOM];
    memcpy(before, five, sizeof five);
    qt_counted r = qt_store_apply(five, length, k);
    return refused(r.verdict, refusal) && r.count == 0 && memcmp(before, five, sizeof five) == 0;
}

static void refused_edits(void) {
    static const uint32_t strange[3] = {4, 255, UINT32_MAX}, high[3] = {16, 256, UINT32_MAX};
    fill_five();
    CHECK(edit_refused(6, command(QT_READ, 1, 0, ZERO), QT_BAD_IMAGE));
    CHECK(edit_refused(sizeof five, command(QT_READ, 0, 0, ZERO), QT_BAD_POSITION));
    CHECK(edit_refused(sizeof five, command(QT_REPLACE, 6, 0, ZERO), QT_BAD_POSITION));
    CHECK(edit_refused(sizeof five, command(QT_INSERT, 6, 16, ZERO), QT_BAD_POSITION));
    CHECK(edit_refused(sizeof five, command(QT_DELETE, 0, 0, ZERO), QT_BAD_POSITION));
    CHECK(edit_refused(QT_IMAGE_SIZE(6) - 1, command(QT_INSERT, 5, 0, ZERO), QT_NO_ROOM));
    for (size_t i = 0; i < 3; i += 1) {
        CHECK(edit_refused(sizeof five, command(strange[i], 1, 0, ZERO), QT_BAD_POSITION));
        CHECK(edit_refused(6, command(strange[i], 1, 0, ZERO), QT_BAD_IMAGE));
        CHECK(edit_refused(sizeof five, command(QT_INSERT, 1, high[i], ZERO), QT_BAD_HEIGHT));
    }
    fill_flat(QT_MOST_BLOCKS);
    CHECK(refused(qt_store_apply(flat, sizeof flat, command(QT_INSERT, 0, 0, ZERO)).verdict, QT_FULL));
    fill_flat(QT_MOST_BLOCKS - 1);
    CHECK(qt_store_apply(flat, sizeof flat, command(QT_INSERT, 0, 0, ZERO)).count == QT_MOST_BLOCKS);
}

/* 14 is for the tag at p alone, and comes after 1, 2, 3, 4 and before 5. */
static void repeated_edits(void) {
    fill_five();
    for (uint64_t p = 1; p <= 5; p += 1) {
        qt_digest there = letter(p - 1);
        CHECK(edit_refused(sizeof five, command(QT_INSERT, p, 0, there), QT_REPEATED));
        CHECK(edit_refused(QT_IMAGE_SIZE(5), command(QT_INSERT, p, QT_MOST_HEIGHT, there), QT_REPEATED));
        CHECK(edit_refused(QT_IMAGE_SIZE(5), command(QT_INSERT, p - 1, 0, there), QT_NO_ROOM));
        CHECK(edit_refused(QT_IMAGE_SIZE(5) - 1, command(QT_INSERT, p, 0, there), QT_BAD_IMAGE));
        CHECK(edit_refused(sizeof five, command(QT_INSERT, p, 16, there), QT_BAD_HEIGHT));
        there.bytes[31] ^= 1;
        CHECK(edit_refused(QT_IMAGE_SIZE(5), command(QT_INSERT, p, 0, there), QT_NO_ROOM));
    }
    CHECK(edit_refused(sizeof five, command(QT_INSERT, 6, 0, letter(4)), QT_BAD_POSITION));
    fill_flat(QT_MOST_BLOCKS);
    CHECK(refused(qt_store_apply(flat, sizeof flat, command(QT_INSERT, 1, 0, ZERO)).verdict, QT_FULL));
    fill_flat(QT_MOST_BLOCKS - 1);
    CHECK(refused(qt_store_apply(flat, sizeof flat, command(QT_INSERT, 1, 0, ZERO)).verdict, QT_REPEATED));
    CHECK(refused(qt_store_apply(flat, sizeof flat, command(QT_INSERT, QT_MOST_BLOCKS - 1, 0, ZERO)).verdict, QT_REPEATED));
}

/* Saved metadata. */
static void saved_metadata(void) {
    qt_metadata m = {.count = 5, .label = hex(five_label)};
    qt_saved s = qt_gateway_save(m);
    static const uint8_t front[7] = {1, 0, 36, 0, 0, 0, 5};
    CHECK(done(s.verdict) && memcmp(s.bytes, front, 7) == 0 && memcmp(s.bytes + 7, m.label.bytes, 32) == 0);
    qt_metadata_answer l = qt_gateway_load(s.bytes, sizeof s.bytes);
    CHECK(done(l.verdict) && same_metadata(l.metadata, m));
    l = qt_gateway_load(s.bytes, sizeof s.bytes - 1);
    CHECK(refused(l.verdict, QT_BAD_METADATA) && l.metadata.count == 0 && same(l.metadata.label, ZERO));
    CHECK(refused(qt_gateway_load(NULL, 0).verdict, QT_BAD_METADATA));
    s.bytes[0] = 2;
    CHECK(refused(qt_gateway_load(s.bytes, sizeof s.bytes).verdict, QT_BAD_METADATA));
    m.count = QT_MOST_BLOCKS;
    CHECK(done(qt_gateway_save(m).verdict));
    m.count = QT_MOST_BLOCKS + 1;
    static const uint8_t zeros[QT_SAVED_SIZE];
    s = qt_gateway_save(m);
    CHECK(refused(s.verdict, QT_BAD_METADATA) && memcmp(s.bytes, zeros, sizeof zeros) == 0);
    m.count = (uint64_t)1 << 32;
    CHECK(refused(qt_gateway_save(m).verdict, QT_BAD_METADATA));
}

/* A command at the row of five with the store's own proofs: the gateway accepts it, reports the tag, and predicts what the store's check
 * answers after the store's edit. */
static proof proof_at(uint64_t p) { return proof_of(five, sizeof five, p); }

static qt_answer asked(qt_metadata held, qt_command k, const proof *first, const proof *second) {
    return qt_gateway_check(held, k, first->bytes, first->length, second->bytes, second->length);
}

static void accepted(qt_command k, qt_digest reported, uint64_t count) {
    fill_five();
    qt_metadata held = qt_store_check(five, sizeof five).metadata;
    proof first = proof_at(k.operation == QT_DELETE ? k.position - 1 : k.position), second = proof_at(k.position);
    qt_answer a = asked(held, k, &first, &second);
    CHECK(done(a.verdict) && same(a.tag, reported));
    qt_counted applied = qt_store_apply(five, sizeof five, k);
    CHECK(done(applied.verdict) && applied.count == count);
    CHECK(same_metadata(a.metadata, qt_store_check(five, sizeof five).metadata));
}

static void commands(void) {
    qt_digest x = digest_of("X", 1);
    for (uint64_t p = 0; p <= 5; p += 1) {
        qt_digest reported = p == 0 ? ZERO : letter(p - 1);
        if (p > 0) {
            accepted(command(QT_READ, p, UINT32_MAX, x), reported, 5);
            accepted(command(QT_REPLACE, p, 16, x), reported, 5);
            accepted(command(QT_DELETE, p, 16, x), reported, 4);
        }
        for (uint32_t h = 0; h <= QT_MOST_HEIGHT; h += 1) accepted(command(QT_INSERT, p, h, x), reported, 6);
    }
}

/* What the gateway refuses before it looks at a proof. */
#define REFUSED(held, k, first, second, refusal, which) check_refused(asked(held, k, first, second), held, refusal, which, __LINE__)

static void refused_openings(void) {
    fill_five();
    qt_metadata held = qt_store_check(five, sizeof five).metadata, over = held, full = held;
    over.count = QT_MOST_BLOCKS + 1;
    full.count = QT_MOST_BLOCKS;
    proof first = proof_at(1);
    REFUSED(over, command(7, 0, 16, ZERO), &first, &first, QT_BAD_METADATA, QT_NO_PROOF);
    REFUSED(held, command(QT_READ, 0, 0, ZERO), &first, &first, QT_BAD_POSITION, QT_NO_PROOF);
    REFUSED(held, command(QT_INSERT, 6, 16, ZERO), &first, &first, QT_BAD_POSITION, QT_NO_PROOF);
    REFUSED(held, command(4, 1, 0, ZERO), &first, &first, QT_BAD_POSITION, QT_NO_PROOF);
    REFUSED(held, command(UINT32_MAX, 1, 0, ZERO), &first, &first, QT_BAD_POSITION, QT_NO_PROOF);
    REFUSED(held, command(QT_INSERT, 1, 16, ZERO), &first, &first, QT_BAD_HEIGHT, QT_NO_PROOF);
    REFUSED(held, command(QT_INSERT, 1, 256, ZERO), &first, &first, QT_BAD_HEIGHT, QT_NO_PROOF);
    REFUSED(full, command(QT_INSERT, 1, 15, ZERO), &first, &first, QT_FULL, QT_NO_PROOF);
}

/* What it refuses of a proof: 7, 8 and 9, on the first and on the second. */
static void refused_checks(void) {
    fill_five();
    qt_metadata held = qt_store_check(five, sizeof five).metadata;
    proof before = proof_at(2), at = proof_at(3), none = {.length = 0}, false_tag = at;
    false_tag.bytes[at.length - 74 + 6] ^= 1; /* in the stop record, after kind, level and own */
    qt_command read = command(QT_READ, 3, 0, ZERO), del = command(QT_DELETE, 3, 0, ZERO);
    REFUSED(held, read, &none, &at, QT_BAD_PROOF, QT_FIRST);
    REFUSED(held, read, &before, &at, QT_WRONG_POSITION, QT_FIRST);
    REFUSED(held, read, &false_tag, &at, QT_WRONG_LABEL, QT_FIRST);
    REFUSED(held, del, &none, &none, QT_BAD_PROOF, QT_FIRST);
    REFUSED(held, del, &at, &none, QT_WRONG_POSITION, QT_FIRST);
    REFUSED(held, del, &before, &none, QT_BAD_PROOF, QT_SECOND);
    REFUSED(held, del, &before, &before, QT_WRONG_POSITION, QT_SECOND);
    REFUSED(held, del, &before, &false_tag, QT_WRONG_LABEL, QT_SECOND);
    qt_answer a = qt_gateway_check(held, read, NULL, 0, NULL, 0);
    CHECK(is(a.verdict, QT_BAD_PROOF, QT_FIRST));
    a = qt_gateway_check(held, read, at.bytes, at.length, NULL, 0);
    CHECK(done(a.verdict) && same(a.tag, letter(2)));
}

/* 14 speaks of no proof and comes after 7, 8 and 9: a proof that only claims the new tag at p is refused for itself. */
static void repeated_blocks(void) {
    fill_five();
    qt_metadata held = qt_store_check(five, sizeof five).metadata, another = held;
    another.label = ZERO;
    qt_digest x = digest_of("X", 1);
    proof none = {.length = 0};
    for (uint64_t p = 1; p <= 5; p += 1) {
        proof at = proof_at(p), before = proof_at(p - 1), claimed = at;
        memcpy(claimed.bytes + at.length - 74 + 6, x.bytes, 32); /* in the stop record, after kind, level and own */
        qt_command again = command(QT_INSERT, p, 0, letter(p - 1)), high = again;
        high.height = 16;
        REFUSED(held, again, &at, &none, QT_REPEATED, QT_NO_PROOF);
        REFUSED(held, again, &at, &at, QT_REPEATED, QT_NO_PROOF);
        REFUSED(another, again, &at, &none, QT_WRONG_LABEL, QT_FIRST);
        REFUSED(held, command(QT_INSERT, p, 0, x), &claimed, &none, QT_WRONG_LABEL, QT_FIRST);
        REFUSED(held, again, &before, &none, QT_WRONG_POSITION, QT_FIRST);
        REFUSED(held, again, &none, &at, QT_BAD_PROOF, QT_FIRST);
        REFUSED(held, high, &at, &none, QT_BAD_HEIGHT, QT_NO_PROOF);
    }
}

/* What is no repeat: a tag that stands at p + 1, as it does when Insert comes again word for word; anything at position 0; and another
 * command than Insert. */
static void no_repeats(void) {
    accepted(command(QT_INSERT, 0, 0, ZERO), ZERO, 6);
    for (uint64_t p = 1; p <= 5; p += 1) {
        qt_digest before = p == 1 ? ZERO : letter(p - 2), there = letter(p - 1);
        accepted(command(QT_INSERT, p - 1, 0, there), before, 6);
        accepted(command(QT_READ, p, 0, there), there, 5);
        accepted(command(QT_REPLACE, p, 0, there), there, 5);
        accepted(command(QT_REPLACE, p, 0, before), there, 5);
        accepted(command(QT_DELETE, p, 0, there), there, 4);
    }
}

/* A zero tag repeats a block's zero tag, and nothing at position 0, which reports one. */
static void zero_tags(void) {
    fill_five();
    qt_store_apply(five, sizeof five, command(QT_REPLACE, 1, 0, ZERO));
    qt_metadata held = qt_store_check(five, sizeof five).metadata;
    proof head = proof_at(0), first = proof_at(1), none = {.length = 0};
    REFUSED(held, command(QT_INSERT, 1, 0, ZERO), &first, &none, QT_REPEATED, QT_NO_PROOF);
    CHECK(edit_refused(sizeof five, command(QT_INSERT, 1, 0, ZERO), QT_REPEATED));
    qt_answer a = asked(held, command(QT_INSERT, 0, 0, ZERO), &head, &none);
    CHECK(done(a.verdict) && same(a.tag, ZERO));
    qt_counted applied = qt_store_apply(five, sizeof five, command(QT_INSERT, 0, 0, ZERO));
    CHECK(done(applied.verdict) && applied.count == 6);
    CHECK(same_metadata(a.metadata, qt_store_check(five, sizeof five).metadata));
}

/* 10 comes where no archive has the metadata held: here a head, at its right a second head, at its right a block. The first proof stops at
 * the first head, and the second goes right twice. */
static qt_digest leaf_label(const void *third, size_t third_length, const void *right, size_t right_length) {
    static const uint8_t level[1] = {0}, rank[4] = {0, 0, 0, 1};
    qt_digest four[4] = {digest_of(level, 1), digest_of(rank, 4), digest_of(third, third_length), digest_of(right, right_length)};
    return digest_of(four, sizeof four);
}

static void put_entry(proof *s, uint8_t kind, uint8_t number, qt_digest bytes) {
    uint8_t entry[6] = {kind, 0, 0, 0, 0, number};
    memcpy(s->bytes + s->length, entry, 6);
    memcpy(s->bytes + s->length + 6, bytes.bytes, 32);
    s->length += 38;
}

static void put_stop(proof *s, uint8_t own, qt_digest tag, uint8_t rank, qt_digest label) {
    uint8_t right_rank[4] = {0, 0, 0, rank};
    put_entry(s, 2, own, tag);
    memcpy(s->bytes + s->length, right_rank, 4);
    memcpy(s->bytes + s->length + 4, label.bytes, 32);
    s->length += 36;
    s->bytes[0] = 1;
    s->bytes[1] = (uint8_t)((s->length - 3) >> 8);
    s->bytes[2] = (uint8_t)(s->length - 3);
}

static void refused_neighbours(void) {
    static const uint8_t nothing[1] = {0};
    qt_digest tag = letter(0);
    qt_digest block = leaf_label(tag.bytes, 32, nothing, 1);
    qt_digest inner = leaf_label(nothing, 1, block.bytes, 32);
    qt_metadata held = {.count = 1, .label = leaf_label(nothing, 1, inner.bytes, 32)};
    proof first = {.length = 3}, second = {.length = 3};
    put_stop(&first, 0, ZERO, 1, inner);
    put_entry(&second, 1, 0, ZERO);
    put_entry(&second, 1, 0, ZERO);
    put_stop(&second, 1, tag, 0, ZERO);
    REFUSED(held, command(QT_DELETE, 1, 0, ZERO), &first, &second, QT_NOT_NEIGHBOURS, QT_NO_PROOF);
    qt_answer a = asked(held, command(QT_READ, 1, 0, ZERO), &second, &first);
    CHECK(done(a.verdict) && same(a.tag, tag) && same_metadata(a.metadata, held));
}

/* Joint proofs. Positions of the row of five, and a joint proof of them. */
#define FIVE_JOINT QT_JOINT_SIZE(5, 5 * 4)

typedef struct {
    uint8_t bytes[FIVE_JOINT];
    size_t length;
} joint;

static const uint64_t all_five[5] = {1, 2, 3, 4, 5};

static joint joint_at(const uint64_t *positions, size_t number) {
    joint s = {.length = 0};
    s.length = qt_jointstore_prove(five, sizeof five, positions, number, s.bytes, sizeof s.bytes, 0).length;
    return s;
}

static qt_joint_answer joint_asked(qt_metadata held, const uint64_t *positions, size_t number, const joint *s) {
    return qt_jointgateway_check(held, positions, number, s->bytes, s->length);
}

static void put(joint *s, const uint8_t *bytes, size_t length) {
    memcpy(s->bytes + s->length, bytes, length);
    s->length += length;
}

/* The leading entries that two proofs share, each of 38 bytes after a header of 3. */
static size_t shared(const proof *a, const proof *b) {
    size_t k = 0, most = ((a->length < b->length ? a->length : b->length) - 77) / 38;
    while (k < most && memcmp(a->bytes + 3 + 38 * k, b->bytes + 3 + 38 * k, 38) == 0) k += 1;
    return k;
}

/* The joint proof put together from the store's single proofs; at one place, if any, with an entry that is not shared though it could be. */
static joint put_together(const uint64_t *positions, size_t number, size_t unshared) {
    joint s = {.length = 6};
    proof before = {.length = 77};
    for (size_t i = 0; i < number; i += 1) {
        proof at = proof_at(positions[i]);
        size_t k = i == 0 ? 0 : shared(&before, &at) - (i + 1 == unshared);
        uint8_t two[2] = {(uint8_t)(k >> 8), (uint8_t)k};
        if (i > 0) put(&s, two, 2);
        put(&s, at.bytes + 3 + 38 * k, at.length - 3 - 38 * k);
        before = at;
    }
    uint8_t head[6] = {1, 0, 0, (uint8_t)((s.length - 5) >> 8), (uint8_t)(s.length - 5), (uint8_t)number};
    memcpy(s.bytes, head, 6);
    return s;
}

/* The set of positions that the bits of a number name. */
static size_t set_of(unsigned bits, uint64_t positions[5]) {
    size_t number = 0;
    for (unsigned p = 1; p <= 5; p += 1)
        if (bits >> (p - 1) & 1) positions[number++] = p;
    return number;
}

/* Every set of positions of the row of five: the store writes its joint proof and nothing else, and the gateway reports its tags. */
static void joint_proofs(void) {
    fill_five();
    qt_metadata held = qt_store_check(five, sizeof five).metadata;
    uint8_t buffer[FIVE_JOINT + 4];
    uint64_t positions[5];
    for (unsigned bits = 1; bits < 32; bits += 1) {
        size_t number = set_of(bits, positions);
        joint wanted = put_together(positions, number, 0);
        memset(buffer, 0xA5, sizeof buffer);
        qt_proved r = qt_jointstore_prove(five, sizeof five, positions, number, buffer, sizeof buffer, 2);
        CHECK(done(r.verdict) && r.length == wanted.length && r.entries == 0);
        CHECK(memcmp(buffer + 2, wanted.bytes, wanted.length) == 0);
        bool stay = buffer[0] == 0xA5 && buffer[1] == 0xA5;
        for (size_t i = 2 + wanted.length; i < sizeof buffer; i += 1) stay = stay && buffer[i] == 0xA5;
        CHECK(stay);
        qt_joint_answer a = joint_asked(held, positions, number, &wanted);
        bool tags = done(a.verdict) && a.number == number && same_metadata(a.metadata, held);
        for (size_t i = 0; i < QT_MOST_POSITIONS; i += 1) tags = tags && same(a.tags[i], i < number ? letter(positions[i] - 1) : ZERO);
        CHECK(tags);
    }
}

static uint8_t long_joint[QT_LONGEST_JOINT];

/* Rising positions; the last but one is the one given. */
static void fill_last(uint64_t positions[QT_MOST_POSITIONS + 1], uint64_t last) {
    for (uint64_t i = 0; i <= QT_MOST_POSITIONS; i += 1) positions[i] = last + 1 - QT_MOST_POSITIONS + i;
}

/* As many positions as there can be, with paths as long as they can be: the last 32 of 200 columns of height 0 share all but one entry. */
static void most_positions(void) {
    uint64_t positions[QT_MOST_POSITIONS + 1];
    size_t size = fill_flat(200);
    fill_last(positions, 200);
    qt_metadata held = qt_store_check(flat, size).metadata;
    qt_proved r = qt_jointstore_prove(flat, size, positions, QT_MOST_POSITIONS, long_joint, sizeof long_joint, 0);
    CHECK(done(r.verdict) && r.length == QT_JOINT_SIZE(32, 200));
    qt_joint_answer a = qt_jointgateway_check(held, positions, QT_MOST_POSITIONS, long_joint, r.length);
    CHECK(done(a.verdict) && a.number == QT_MOST_POSITIONS && same_metadata(a.metadata, held));
    long_joint[r.length - 1] ^= 1;
    a = qt_jointgateway_check(held, positions, QT_MOST_POSITIONS, long_joint, r.length);
    CHECK(is(a.verdict, QT_BAD_PROOF, QT_MOST_POSITIONS));
}

/* The proof of column 201 after that of column 200 has an entry too many: the store refuses to write it, and the gateway to take it. */
static void one_entry_too_many(void) {
    static const uint64_t positions[2] = {200, 201};
    size_t size = fill_flat(201);
    qt_metadata held = qt_store_check(flat, size).metadata;
    size_t length = qt_jointstore_prove(flat, size, positions, 1, long_joint, sizeof long_joint, 0).length;
    CHECK(length == QT_JOINT_SIZE(1, 200));
    uint8_t more[2 + 38 + 74] = {0, 200, [2] = 1, [2 + 5] = 1, [2 + 38] = 2, [2 + 38 + 5] = 1};
    memcpy(long_joint + length, more, sizeof more);
    length += sizeof more;
    long_joint[3] = (uint8_t)((length - 5) >> 8);
    long_joint[4] = (uint8_t)(length - 5);
    long_joint[5] = 2;
    qt_joint_answer a = qt_jointgateway_check(held, positions, 2, long_joint, length);
    CHECK(is(a.verdict, QT_BAD_PROOF, 2));
}

/* What the store refuses of a set, in its order: an earlier reason is given though later ones are there too. */
static const uint64_t twice[2] = {2, 2}, falling[2] = {4, 2}, from_zero[2] = {0, 3}, past[2] = {3, 6}, far[2] = {3, UINT64_MAX};
static const uint64_t falling_past[3] = {0, 9, 6};

static bool joint_refused(const uint64_t *positions, size_t number, uint8_t *buffer, size_t room, uint64_t place, uint32_t refusal) {
    return proof_refused(qt_jointstore_prove(five, sizeof five, positions, number, buffer, room, place), refusal);
}

static void refused_sets(void) {
    uint8_t buffer[FIVE_JOINT], before[sizeof buffer];
    uint64_t many[QT_MOST_POSITIONS + 1];
    memset(buffer, 0xA5, sizeof buffer);
    memcpy(before, buffer, sizeof buffer);
    fill_five();
    fill_last(many, 33);
    CHECK(proof_refused(qt_jointstore_prove(NULL, 0, NULL, 0, buffer, sizeof buffer, 0), QT_BAD_IMAGE));
    CHECK(proof_refused(qt_jointstore_prove(five, 6, falling, 2, buffer, sizeof buffer, 0), QT_BAD_IMAGE));
    CHECK(joint_refused(NULL, 0, buffer, sizeof buffer, 0, QT_BAD_SET));
    CHECK(joint_refused(many, QT_MOST_POSITIONS + 1, buffer, sizeof buffer, 0, QT_BAD_SET));
    CHECK(joint_refused(twice, 2, buffer, sizeof buffer, 0, QT_BAD_SET));
    CHECK(joint_refused(falling, 2, buffer, sizeof buffer, 0, QT_BAD_SET));
    CHECK(joint_refused(falling_past, 3, buffer, sizeof buffer, 0, QT_BAD_SET));
    CHECK(joint_refused(many, QT_MOST_POSITIONS, buffer, 0, 0, QT_BAD_POSITION));
    CHECK(joint_refused(from_zero, 2, buffer, sizeof buffer, 0, QT_BAD_POSITION));
    CHECK(joint_refused(past, 2, buffer, sizeof buffer, 0, QT_BAD_POSITION));
    CHECK(joint_refused(far, 2, NULL, 0, 0, QT_BAD_POSITION));
    size_t fits = joint_at(all_five, 5).length;
    CHECK(joint_refused(all_five, 5, buffer, fits - 1, 0, QT_NO_ROOM));
    CHECK(joint_refused(all_five, 5, buffer, fits, 1, QT_NO_ROOM));
    CHECK(joint_refused(all_five, 5, buffer, sizeof buffer, UINT64_MAX, QT_NO_ROOM));
    CHECK(joint_refused(all_five, 5, NULL, 0, 0, QT_NO_ROOM));
    static const uint64_t deep[2] = {200, 201}, deeper[2] = {201, 202};
    size_t size = fill_flat(201);
    CHECK(proof_refused(qt_jointstore_prove(flat, size, deep, 2, buffer, 0, 0), QT_TOO_DEEP));
    CHECK(proof_refused(qt_jointstore_prove(flat, size, deeper, 2, buffer, 0, 0), QT_BAD_POSITION));
    CHECK(memcmp(buffer, before, sizeof buffer) == 0);
    CHECK(done(qt_jointstore_prove(five, sizeof five, all_five, 5, buffer, fits, 0).verdict));
}

/* What the gateway refuses of a joint proof: no tag, and the metadata given. */
static void joint_answer_refused(qt_metadata held, const uint64_t *positions, size_t number, const joint *s, uint32_t refusal,
                                 uint32_t place, int line) {
    qt_joint_answer a = joint_asked(held, positions, number, s);
    bool none = a.number == 0;
    for (size_t i = 0; i < QT_MOST_POSITIONS; i += 1) none = none && same(a.tags[i], ZERO);
    check(is(a.verdict, refusal, place), "the refusal and the place it speaks of", line);
    check(none, "no tag", line);
    check(same_metadata(a.metadata, held), "the metadata given", line);
}

#define JOINT_REFUSED(held, positions, number, s, refusal, place) joint_answer_refused(held, positions, number, s, refusal, place, __LINE__)

static void refused_joint_openings(void) {
    fill_five();
    qt_metadata held = qt_store_check(five, sizeof five).metadata, over = held;
    over.count = QT_MOST_BLOCKS + 1;
    uint64_t many[QT_MOST_POSITIONS + 1];
    fill_last(many, 33);
    joint s = joint_at(all_five, 5), none = {.length = 0};
    JOINT_REFUSED(over, all_five, 5, &s, QT_BAD_METADATA, 0);
    JOINT_REFUSED(over, falling, 2, &none, QT_BAD_METADATA, 0);
    JOINT_REFUSED(held, NULL, 0, &none, QT_BAD_SET, 0);
    JOINT_REFUSED(held, many, QT_MOST_POSITIONS + 1, &s, QT_BAD_SET, 0);
    JOINT_REFUSED(held, twice, 2, &s, QT_BAD_SET, 0);
    JOINT_REFUSED(held, falling_past, 3, &none, QT_BAD_SET, 0);
    JOINT_REFUSED(held, from_zero, 2, &none, QT_BAD_POSITION, 0);
    JOINT_REFUSED(held, past, 2, &s, QT_BAD_POSITION, 0);
    JOINT_REFUSED(held, far, 2, &s, QT_BAD_POSITION, 0);
    qt_joint_answer a = qt_jointgateway_check(held, all_five, 5, NULL, 0);
    CHECK(is(a.verdict, QT_BAD_PROOF, 0) && a.number == 0);
}

/* A byte of a joint proof changed. */
static joint changed(joint s, size_t at, uint8_t by) {
    s.bytes[at] ^= by;
    return s;
}

/* Where the stop of the proof at a place begins: the joint proof of the positions up to there ends with it. */
static size_t stop_of(const uint64_t *positions, size_t place) { return joint_at(positions, place).length - 74; }

static void refused_forms(void) {
    fill_five();
    qt_metadata held = qt_store_check(five, sizeof five).metadata;
    joint s = joint_at(all_five, 5);
    for (size_t at = 0; at < 6; at += 1) {
        joint head = changed(s, at, 1);
        JOINT_REFUSED(held, all_five, 5, &head, QT_BAD_PROOF, 0);
    }
    for (size_t length = 0; length <= sizeof s.bytes; length += 1) {
        joint other = s;
        if (length == s.length) continue;
        other.length = length;
        if (length >= 6) other.bytes[3] = (uint8_t)((length - 5) >> 8), other.bytes[4] = (uint8_t)(length - 5);
        JOINT_REFUSED(held, all_five, 5, &other, QT_BAD_PROOF, 0);
    }
    for (size_t place = 1; place <= 5; place += 1) {
        joint kind = changed(s, stop_of(all_five, place), 1);
        JOINT_REFUSED(held, all_five, 5, &kind, QT_BAD_PROOF, 0);
        if (place == 1) continue;
        joint over = changed(s, stop_of(all_five, place - 1) + 74, 1);
        JOINT_REFUSED(held, all_five, 5, &over, QT_BAD_PROOF, 0);
        if (place == 2) continue; /* the proofs of 1 and 2 share nothing */
        joint under = put_together(all_five, 5, place);
        JOINT_REFUSED(held, all_five, 5, &under, QT_BAD_PROOF, 0);
    }
    joint four = joint_at(all_five, 4);
    JOINT_REFUSED(held, all_five, 5, &four, QT_BAD_PROOF, 0);
    JOINT_REFUSED(held, all_five, 4, &s, QT_BAD_PROOF, 0);
}

/* 7, 8 and 9 of one of its proofs, with its place; what is wrong with a later one is not told. */
static void refused_places(void) {
    static const uint64_t others[4][5] = {{2, 3, 4, 5}, {1, 3, 4, 5}, {1, 2, 4, 5}, {1, 2, 3, 5}};
    fill_five();
    qt_metadata held = qt_store_check(five, sizeof five).metadata;
    joint s = joint_at(all_five, 5);
    for (uint32_t place = 1; place <= 5; place += 1) {
        size_t stop = stop_of(all_five, place);
        joint own = changed(s, stop + 5, 2), tag = changed(s, stop + 6, 1);
        JOINT_REFUSED(held, all_five, 5, &own, QT_BAD_PROOF, place);
        JOINT_REFUSED(held, all_five, 5, &tag, QT_WRONG_LABEL, place);
        if (place == 5) continue;
        joint both = changed(tag, stop_of(all_five, 5) + 5, 2), other = joint_at(others[place - 1], 4);
        JOINT_REFUSED(held, all_five, 5, &both, QT_WRONG_LABEL, place);
        JOINT_REFUSED(held, all_five, 4, &other, QT_WRONG_POSITION, place);
    }
    qt_metadata another = held;
    another.label = ZERO;
    JOINT_REFUSED(another, all_five, 5, &s, QT_WRONG_LABEL, 1);
}

int main(void) {
    fill_pattern();
    digests();
    joined_digests();
    long_joined();
    known_tags();
    matches();
    long_readings();
    heights();
    images();
    shapes();
    proofs();
    refused_proofs();
    refused_edits();
    repeated_edits();
    saved_metadata();
    commands();
    refused_openings();
    refused_checks();
    repeated_blocks();
    no_repeats();
    zero_tags();
    refused_neighbours();
    joint_proofs();
    most_positions();
    one_entry_too_many();
    refused_sets();
    refused_joint_openings();
    refused_forms();
    refused_places();
    return finish();
}
