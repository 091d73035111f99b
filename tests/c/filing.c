/* Filing by time: the place that the store proposes, and the gateway's filing of a block there, with every refusal. The last line is
 * 'N passed, M failed'. */
#include "check.h"

/* Places. */
static uint64_t place_of(const uint32_t *times, size_t number, uint32_t time) {
    size_t before = 0;
    while (before < number && times[before] <= time) before += 1;
    return before;
}

/* Lists that rise, stay and fall: every one of up to six times out of four. */
static void places_of_lists(void) {
    static const uint32_t some[4] = {0, 1, 1700000000, UINT32_MAX};
    uint32_t times[6];
    for (size_t number = 0; number <= 6; number += 1) {
        bool right = true;
        for (uint32_t list = 0; list < (uint32_t)1 << 2 * number; list += 1) {
            for (size_t i = 0; i < number; i += 1) times[i] = some[list >> 2 * i & 3];
            for (size_t i = 0; i < 4; i += 1)
                right = right && qt_times_place(times, number, some[i]) == place_of(times, number, some[i]);
        }
        CHECK(right);
    }
}

static const uint32_t rising[5] = {10, 20, 30, 40, 50}, equal[4] = {20, 20, 20, 20}, falling[4] = {50, 40, 60, 10};

static const struct {
    const uint32_t *times;
    size_t number;
    uint32_t time;
    uint64_t place;
} known[] = {{NULL, 0, 0, 0},    {NULL, 0, UINT32_MAX, 0}, {rising, 5, 9, 0},           {rising, 5, 10, 1}, {rising, 5, 39, 3},
             {rising, 5, 40, 4}, {rising, 3, 40, 3},       {rising, 5, UINT32_MAX, 5}, {equal, 4, 19, 0},  {equal, 4, 20, 4},
             {equal, 4, 21, 4},  {falling, 4, 45, 0},      {falling, 4, 55, 2},         {falling, 4, 60, 4}};

static void places(void) {
    static uint32_t many[QT_MOST_BLOCKS];
    for (size_t i = 0; i < sizeof known / sizeof *known; i += 1)
        CHECK(qt_times_place(known[i].times, known[i].number, known[i].time) == known[i].place);
    for (uint32_t i = 0; i < QT_MOST_BLOCKS; i += 1) many[i] = 2 * i;
    for (uint32_t i = 0; i < QT_MOST_BLOCKS; i += 1) CHECK(qt_times_place(many, QT_MOST_BLOCKS, 2 * i + 1) == i + 1);
    places_of_lists();
}

/* A block, and the archive that the store keeps: its image, and its blocks and their times in their order. */
typedef struct {
    uint32_t time;
    const uint8_t *readings;
    size_t length;
} block;

#define ROOM 64
static uint8_t image[QT_IMAGE_SIZE(ROOM)];
static block blocks[ROOM];
static uint32_t times[ROOM];
static size_t count;

static qt_digest tag_of(block b) { return qt_labels_tag(b.time, b.readings, b.length).digest; }

static qt_metadata metadata(void) { return qt_store_check(image, sizeof image).metadata; }

/* The block at a position; none before the first and after the last. */
static block stored(uint64_t p) {
    static const block none = {.length = 0};
    return p >= 1 && p <= count ? blocks[p - 1] : none;
}

/* What the store does after an accepted filing. */
static void insert(uint64_t p, uint32_t height, block b) {
    qt_counted applied = qt_store_apply(image, sizeof image, command(QT_INSERT, p, height, tag_of(b)));
    memmove(times + p + 1, times + p, (count - p) * sizeof *times);
    memmove(blocks + p + 1, blocks + p, (count - p) * sizeof *blocks);
    times[p] = b.time;
    blocks[p] = b;
    count += 1;
    CHECK(done(applied.verdict) && applied.count == count);
}

/* Five blocks whose times never fall and are once the same; the first has no readings, two as many as there can be. */
static void fill_five(void) {
    static const uint32_t heights[5] = {0, 2, 0, 1, 2};
    static const block five[5] = {{100, NULL, 0},
                                  {200, pattern + 1, 1},
                                  {200, pattern + 2, QT_LONGEST_READINGS},
                                  {300, pattern + 3, 57},
                                  {UINT32_MAX - 1, pattern + 4, QT_LONGEST_READINGS}};
    fill_empty(image, sizeof image);
    count = 0;
    for (size_t i = 0; i < 5; i += 1) insert(i, heights[i], five[i]);
}

/* All that a filing takes. */
typedef struct {
    qt_metadata held;
    uint64_t position;
    uint32_t height;
    block sent, left, right;
    proof first, second;
} request;

static qt_answer filed(const request *r) {
    qt_filing filing = {.position = r->position,
                        .height = r->height,
                        .time = r->sent.time,
                        .left_time = r->left.time,
                        .right_time = r->right.time};
    return qt_filer_file(r->held, filing, r->sent.readings, r->sent.length, r->left.readings, r->left.length, r->right.readings,
                         r->right.length, r->first.bytes, r->first.length, r->second.bytes, r->second.length);
}

/* A block at a place, with the blocks and the proofs that the store has there. */
static request at(uint64_t p, uint32_t height, block sent) {
    request r = {.held = metadata(), .position = p, .height = height, .sent = sent, .left = stored(p), .right = stored(p + 1)};
    r.first = proof_of(image, sizeof image, p);
    r.second = proof_of(image, sizeof image, p + 1);
    return r;
}

/* The gateway's check of the Insert that the filing is. */
static qt_answer inserted(const request *r) {
    qt_command k = command(QT_INSERT, r->position, r->height, tag_of(r->sent));
    return qt_gateway_check(r->held, k, r->first.bytes, r->first.length, NULL, 0);
}

static bool same_answer(qt_answer a, qt_answer b) {
    return is(a.verdict, b.verdict.refusal, b.verdict.proof) && same(a.tag, b.tag) && same_metadata(a.metadata, b.metadata);
}

/* Accepted as Insert is, with the tag at p and the metadata of the store's archive after the same Insert. */
static void check_accepted(const request *r, int line) {
    qt_answer a = filed(r);
    qt_digest reported = r->position == 0 ? ZERO : tag_of(stored(r->position));
    check(done(a.verdict) && same(a.tag, reported), "accepted, with the tag at p", line);
    check(same_answer(a, inserted(r)), "Insert's answer", line);
    insert(r->position, r->height, r->sent);
    check(same_metadata(a.metadata, metadata()), "the metadata of the archive after", line);
}

#define ACCEPTED(r) check_accepted(r, __LINE__)
#define REFUSED(r, refusal, which) check_refused(filed(r), (r)->held, refusal, which, __LINE__)

/* A block of any time is filed at its place, and with the store's own blocks and proofs nowhere else. */
static void filings(void) {
    static const uint32_t moments[12] = {0, 99, 100, 101, 199, 200, 201, 299, 300, 301, UINT32_MAX - 1, UINT32_MAX};
    for (size_t i = 0; i < 12; i += 1)
        for (uint64_t p = 0; p <= 5; p += 1) {
            fill_five();
            request r = at(p, (uint32_t)(i + p) % (QT_MOST_HEIGHT + 1), (block){moments[i], pattern + 100, 10 * i});
            if (p == qt_times_place(times, count, moments[i]))
                ACCEPTED(&r);
            else
                REFUSED(&r, QT_OUT_OF_TIME, QT_NO_PROOF);
        }
}

/* A block for each place where one can be filed: all but that between the two of one time. */
static const struct {
    uint64_t place;
    uint32_t time;
} open[5] = {{0, 50}, {1, 150}, {3, 250}, {4, 350}, {5, UINT32_MAX}};

static void every_height(void) {
    for (size_t i = 0; i < 5; i += 1)
        for (uint32_t height = 0; height <= QT_MOST_HEIGHT; height += 1) {
            fill_five();
            request r = at(open[i].place, height, (block){open[i].time, pattern, 3});
            ACCEPTED(&r);
        }
}

/* Blocks that come in any order: from the empty archive on each one is filed, and the times never fall. */
static void late_blocks(void) {
    fill_empty(image, sizeof image);
    count = 0;
    qt_metadata held = metadata();
    for (uint32_t i = 0; i < ROOM; i += 1) {
        block sent = {1700000000 + 600 * (37 * i % 50), pattern + i, 200};
        request r = at(qt_times_place(times, count, sent.time), qt_labels_height((uint16_t)(i * i + 1)), sent);
        CHECK(same_metadata(held, r.held));
        held = filed(&r).metadata;
        ACCEPTED(&r);
    }
    bool rising = true;
    for (size_t i = 1; i < count; i += 1) rising = rising && times[i - 1] <= times[i];
    CHECK(rising && count == ROOM);
}

/* A block that comes again is placed after its copy and refused with 14, but where another block of its time has come in after the copy. */
static void sent_twice(void) {
    for (uint64_t p = 1; p <= 5; p += 1) {
        fill_five();
        uint64_t place = qt_times_place(times, count, stored(p).time);
        request r = at(place, 3, stored(p));
        if (p == 2) {
            CHECK(place == 3);
            ACCEPTED(&r);
            continue;
        }
        CHECK(place == p);
        REFUSED(&r, QT_REPEATED, QT_NO_PROOF);
        CHECK(same_answer(filed(&r), inserted(&r)));
    }
}

/* Reasons to refuse, in their order. Where two of them are due, the one that is earlier here is given. */
#define LONG (QT_LONGEST_READINGS + 1)
static void long_sent(request *r) { r->sent.readings = pattern, r->sent.length = LONG; }
static void long_left(request *r) { r->left.readings = pattern, r->left.length = LONG; }
static void long_right(request *r) { r->right.readings = pattern, r->right.length = LONG; }
static void over_count(request *r) { r->held.count = QT_MOST_BLOCKS + 1; }
static void past_the_end(request *r) { r->position = UINT64_MAX; }
static void too_high(request *r) { r->height = QT_MOST_HEIGHT + 1; }
static void far_too_high(request *r) { r->height = 256; }
static void full(request *r) { r->held.count = QT_MOST_BLOCKS; }
static void flip(proof *s) { s->bytes[s->length - 74 + 6] ^= 1; } /* in the stop record, after kind, level and own */
static void first_short(request *r) { r->first.length = 0; }
static void first_elsewhere(request *r) { r->first = proof_of(image, sizeof image, 4); }
static void first_false(request *r) { r->first = proof_of(image, sizeof image, 3), flip(&r->first); }
static void again(request *r) { r->sent = stored(3); }
static void second_short(request *r) { r->second.length -= 1; }
static void second_elsewhere(request *r) { r->second = proof_of(image, sizeof image, 3); }
static void second_false(request *r) { r->second = proof_of(image, sizeof image, 4), flip(&r->second); }
static void left_changed(request *r) { r->left.length -= 1; }
static void right_changed(request *r) { r->right.time += 1; }
static void before_left(request *r) { r->sent.time = stored(3).time - 1; }
static void as_late_as_right(request *r) { r->sent.time = stored(4).time; }

static const struct {
    void (*spoil)(request *);
    uint32_t refusal, which;
} reasons[] = {{long_sent, QT_LONG_MESSAGE, QT_NO_PROOF},
               {long_left, QT_LONG_MESSAGE, QT_NO_PROOF},
               {long_right, QT_LONG_MESSAGE, QT_NO_PROOF},
               {over_count, QT_BAD_METADATA, QT_NO_PROOF},
               {past_the_end, QT_BAD_POSITION, QT_NO_PROOF},
               {too_high, QT_BAD_HEIGHT, QT_NO_PROOF},
               {far_too_high, QT_BAD_HEIGHT, QT_NO_PROOF},
               {full, QT_FULL, QT_NO_PROOF},
               {first_short, QT_BAD_PROOF, QT_FIRST},
               {first_elsewhere, QT_WRONG_POSITION, QT_FIRST},
               {first_false, QT_WRONG_LABEL, QT_FIRST},
               {again, QT_REPEATED, QT_NO_PROOF},
               {second_short, QT_BAD_PROOF, QT_SECOND},
               {second_elsewhere, QT_WRONG_POSITION, QT_SECOND},
               {second_false, QT_WRONG_LABEL, QT_SECOND},
               {left_changed, QT_WRONG_BLOCK, QT_NO_PROOF},
               {right_changed, QT_WRONG_BLOCK, QT_NO_PROOF},
               {before_left, QT_OUT_OF_TIME, QT_NO_PROOF},
               {as_late_as_right, QT_OUT_OF_TIME, QT_NO_PROOF}};

static void refusals(void) {
    size_t all = sizeof reasons / sizeof *reasons;
    fill_five();
    for (size_t i = 0; i < all; i += 1)
        for (size_t j = i; j < all; j += 1) {
            request r = at(3, 1, (block){250, pattern, 9});
            reasons[j].spoil(&r);
            reasons[i].spoil(&r);
            /* past the end no right block is needed, so a long one is not refused */
            bool unneeded = reasons[i].spoil == long_right && reasons[j].spoil == past_the_end;
            REFUSED(&r, reasons[unneeded ? j : i].refusal, reasons[i].which);
        }
    request r = at(3, 1, (block){250, pattern, 9});
    ACCEPTED(&r);
}

/* 11 is for more than 4,089 bytes of any block that is needed, and for no other. */
static void long_blocks(void) {
    for (size_t i = 0; i < 5; i += 1) {
        fill_five();
        request r = at(open[i].place, 0, (block){open[i].time, pattern, QT_LONGEST_READINGS}), sent = r, left = r, right = r;
        long_sent(&sent);
        long_left(&left);
        long_right(&right);
        REFUSED(&sent, QT_LONG_MESSAGE, QT_NO_PROOF);
        CHECK(is(filed(&left).verdict, r.position == 0 ? QT_DONE : QT_LONG_MESSAGE, QT_NO_PROOF));
        CHECK(is(filed(&right).verdict, r.position == 5 ? QT_DONE : QT_LONG_MESSAGE, QT_NO_PROOF));
        ACCEPTED(&r);
    }
}

/* 16 is for a block that is not the one filed, in its time or its readings, whatever the times are. */
static void later(block *b) { b->time += 1; }
static void earlier(block *b) { b->time -= 1; }
static void other_length(block *b) { *b = (block){b->time, pattern + 1, b->length == 0 ? 1 : b->length - 1}; }
static void other_bytes(block *b) { *b = (block){b->time, pattern + 7, b->length == 0 ? 2 : b->length}; }
static void (*const changes[4])(block *) = {later, earlier, other_length, other_bytes};

static void wrong_neighbours(void) {
    fill_five();
    for (uint64_t p = 0; p <= 5; p += 1) {
        request r = at(p, 0, (block){250, pattern, 9});
        for (size_t i = 0; i < 4; i += 1) {
            request left = r, right = r;
            changes[i](&left.left);
            changes[i](&right.right);
            if (p > 0) REFUSED(&left, QT_WRONG_BLOCK, QT_NO_PROOF);
            if (p < 5) REFUSED(&right, QT_WRONG_BLOCK, QT_NO_PROOF);
        }
        request swapped = r;
        swapped.left = r.right;
        swapped.right = r.left;
        REFUSED(&swapped, QT_WRONG_BLOCK, QT_NO_PROOF);
    }
}

/* What is not needed is not looked at: a left neighbour at p = 0, a right one and the second proof at p = n. */
static void spoil_left(request *r) { r->left = (block){UINT32_MAX, pattern, sizeof pattern}; }

static void spoil_right(request *r) {
    r->right = (block){0, pattern, sizeof pattern};
    memset(r->second.bytes, 0xA5, sizeof r->second.bytes);
    r->second.length = sizeof r->second.bytes;
}

static void unneeded(void) {
    request r;
    fill_five();
    r = at(0, 2, (block){1, pattern, 5});
    CHECK(r.left.readings == NULL && r.left.length == 0);
    spoil_left(&r);
    ACCEPTED(&r);
    fill_five();
    r = at(5, 2, (block){UINT32_MAX, pattern, 5});
    CHECK(r.right.readings == NULL && r.second.length == 0);
    spoil_right(&r);
    ACCEPTED(&r);
    fill_empty(image, sizeof image);
    count = 0;
    r = at(0, 2, (block){7, pattern, 5});
    qt_filing filing = {.height = 2, .time = 7, .left_time = 9, .right_time = 3};
    qt_answer a = qt_filer_file(r.held, filing, pattern, 5, NULL, 0, NULL, 0, r.first.bytes, r.first.length, NULL, 0);
    CHECK(done(a.verdict) && same_answer(a, inserted(&r)));
    spoil_left(&r);
    spoil_right(&r);
    ACCEPTED(&r);
}

/* A position past the end needs a left block and no right one. */
static void past_positions(void) {
    static const uint64_t past[3] = {6, (uint64_t)1 << 32, UINT64_MAX};
    fill_five();
    for (size_t i = 0; i < 3; i += 1) {
        request r = at(5, 1, (block){UINT32_MAX, NULL, 0});
        r.position = past[i];
        spoil_right(&r);
        REFUSED(&r, QT_BAD_POSITION, QT_NO_PROOF);
        spoil_left(&r);
        REFUSED(&r, QT_LONG_MESSAGE, QT_NO_PROOF);
    }
    request r = at(0, 1, (block){1, NULL, 0});
    r.held.count = 0;
    r.second.length = 0;
    REFUSED(&r, QT_WRONG_LABEL, QT_FIRST);
}

int main(void) {
    fill_pattern();
    places();
    filings();
    every_height();
    late_blocks();
    sent_twice();
    refusals();
    long_blocks();
    wrong_neighbours();
    unneeded();
    past_positions();
    return finish();
}
