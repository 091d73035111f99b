// calls CALL IMAGE POSITION HEIGHT ENTRIES HOW TURNS: one call of the proved library on an archive image in a file. The proofs that the
// gateway's calls take are made before the turns begin, and every answer is looked at once: a refusal, a proof that has not ENTRIES
// entries, or metadata other than that of the edited image, ends the program with status 3.
// Of a set of 32 positions POSITION is the first, HEIGHT the step to the next, and ENTRIES "LENGTH/SUM": the bytes of its joint proof and
// of its single proofs. HOW "write" makes these proofs, has the gateway read both, and keeps them in the file IMAGE.proofs; the gateway's
// turns take them from there, so that a counter does not see them made. So it is of a block filed by its time after POSITION, with ENTRIES
// "K/L" of the proofs of POSITION and of the next: "write" puts two blocks there, and has the late one filed between them.
#include "../include/quaythistle.h"
#include "measure.h"
enum { COPIES = 4, TIME = 1700000000, HOUR = 3600, BLOCK = 1000 };
static uint8_t images[COPIES][QT_IMAGE_SIZE(QT_MOST_BLOCKS + 1)], first[QT_LONGEST_PROOF], second[QT_LONGEST_PROOF];
static uint8_t message[QT_LONGEST_MESSAGE], front[QT_LONGEST_MESSAGE - QT_LONGEST_READINGS], readings[QT_LONGEST_READINGS];
static uint8_t saved[QT_SAVED_SIZE];
static uint64_t shape[QT_MOST_BLOCKS];
static size_t size, first_size, second_size;
static qt_metadata held;
static qt_command command;
static int copy;
static uint64_t set[QT_MOST_POSITIONS], joint_size, sum;
static uint8_t joint[QT_LONGEST_JOINT], single[QT_MOST_POSITIONS][QT_LONGEST_PROOF];
static qt_filing filing;
static uint32_t times[QT_MOST_BLOCKS], due;

// One turn for each export.
static void nothing(void *a) { kept = 0, (void)a; }
static void digest(void *a) { kept = qt_sha256_digest(message, sizeof message).verdict.refusal, (void)a; }
static void joined(void *a) { kept = qt_sha256_digest_joined(front, sizeof front, readings, sizeof readings).verdict.refusal, (void)a; }
static void tag(void *a) { kept = qt_labels_tag(TIME, readings, sizeof readings).verdict.refusal, (void)a; }
static void matches(void *a) { kept = qt_labels_matches(held.label, TIME, readings, sizeof readings).verdict.refusal, (void)a; }
static void height(void *a) { kept = qt_labels_height(32) == QT_MOST_HEIGHT, (void)a; }
static void check(void *a) { kept = qt_store_check(images[0], size).verdict.refusal, (void)a; }
static void prove(void *a) { kept = qt_store_prove(images[0], size, command.position, first, sizeof first, 0).verdict.refusal, (void)a; }
static void gate(void *a) { kept = qt_gateway_check(held, command, first, first_size, second, second_size).verdict.refusal, (void)a; }
static void save(void *a) { kept = qt_gateway_save(held).verdict.refusal, (void)a; }
static void load(void *a) { kept = qt_gateway_load(saved, sizeof saved).verdict.refusal, (void)a; }
static void shapes(void *a) { kept = qt_shapes_shape(images[0], size, shape, QT_MOST_BLOCKS).verdict.refusal, (void)a; }
// An edit finds the image as it was: each turn has a copy of its own.
static void apply(void *a) { kept = qt_store_apply(images[copy++ % COPIES], sizeof images[0], command).verdict.refusal, (void)a; }

// A set in one call, and position by position.
static void prove_jointly(void *a) {
    qt_proved p = qt_jointstore_prove(images[0], size, set, QT_MOST_POSITIONS, joint, sizeof joint, 0);
    kept = p.verdict.refusal || p.length != joint_size, (void)a;
}
static void prove_singly(void *a) {
    uint64_t length = 0;
    for (int i = 0; i < QT_MOST_POSITIONS; i++) length += qt_store_prove(images[0], size, set[i], single[i], sizeof *single, 0).length;
    kept = length != sum, (void)a;
}
static void check_jointly(void *a) {
    kept = qt_jointgateway_check(held, set, QT_MOST_POSITIONS, joint, joint_size).verdict.refusal, (void)a;
}
static size_t length_of(const uint8_t *proof) { return 3 + 256 * proof[1] + proof[2]; }
static void check_singly(void *a) {
    uint32_t refused = 0;
    for (int i = 0; i < QT_MOST_POSITIONS; i++) {
        command.position = set[i];
        refused |= qt_gateway_check(held, command, single[i], length_of(single[i]), 0, 0).verdict.refusal;
    }
    kept = refused, (void)a;
}

// A block filed by its time, and what that has in it: Insert's check, Read's check of the block after, and the tags of three blocks.
static void file(void *a) {
    qt_answer f = qt_filer_file(held, filing, readings, BLOCK, readings, BLOCK, readings, BLOCK, first, first_size, second, second_size);
    kept = f.verdict.refusal != due, (void)a;
}
static void file_insert(void *a) { kept = qt_gateway_check(held, command, first, first_size, 0, 0).verdict.refusal, (void)a; }
static void file_read(void *a) {
    qt_command after = {.operation = QT_READ, .position = command.position + 1};
    kept = qt_gateway_check(held, after, second, second_size, 0, 0).verdict.refusal, (void)a;
}
static void file_tags(void *a) {
    uint32_t refused = qt_labels_tag(filing.time, readings, BLOCK).verdict.refusal;
    refused |= qt_labels_matches(held.label, filing.left_time, readings, BLOCK).verdict.refusal;
    kept = refused | qt_labels_matches(held.label, filing.right_time, readings, BLOCK).verdict.refusal, (void)a;
}
// The times are all before this one, so that each is looked at.
static void place(void *a) { kept = qt_times_place(times, QT_MOST_BLOCKS, TIME) != QT_MOST_BLOCKS, (void)a; }

static const struct { const char *name; void (*turn)(void *); int operation; } calls[] = {
    {"nothing", nothing, 0}, {"digest", digest, 0}, {"joined", joined, 0}, {"tag", tag, 0}, {"matches", matches, 0},
    {"height", height, 0}, {"check", check, 0}, {"prove", prove, 0}, {"shape", shapes, 0}, {"save", save, 0}, {"load", load, 0},
    {"prove-jointly", prove_jointly, 0}, {"prove-singly", prove_singly, 0},
    {"check-jointly", check_jointly, QT_READ}, {"check-singly", check_singly, QT_READ},
    {"file", file, QT_INSERT}, {"file-refused", file, QT_INSERT}, {"file-insert", file_insert, QT_INSERT}, {"file-read", file_read, QT_INSERT},
    {"file-tags", file_tags, QT_INSERT}, {"place", place, 0},
    {"read", gate, QT_READ}, {"replace", gate, QT_REPLACE}, {"insert", gate, QT_INSERT}, {"delete", gate, QT_DELETE},
    {"apply-read", apply, QT_READ}, {"apply-replace", apply, QT_REPLACE}, {"apply-insert", apply, QT_INSERT}, {"apply-delete", apply, QT_DELETE}};

static void expect(bool yes) { if (!yes) exit(3); }

static size_t proof(uint64_t position, uint8_t *to, uint64_t entries) {
    qt_proved p = qt_store_prove(images[0], size, position, to, QT_LONGEST_PROOF, 0);
    expect(!p.verdict.refusal && p.entries == entries);
    return p.length;
}

// What the gateway holds, its proofs ("K" entries, for Delete "K/L"), and its answer against the metadata of the edited image.
static void ready_gateway(const char *entries) {
    char *next;
    uint64_t k = strtoul(entries, &next, 10);
    int deletes = command.operation == QT_DELETE;
    held = qt_store_check(images[0], size).metadata;
    first_size = proof(command.position - deletes, first, k);
    if (deletes) second_size = proof(command.position, second, strtoul(next + 1, 0, 10));
    qt_answer a = qt_gateway_check(held, command, first, first_size, second, second_size);
    expect(!a.verdict.refusal && !qt_store_apply(images[1], sizeof images[1], command).verdict.refusal);
    qt_metadata edited = qt_store_check(images[1], sizeof images[1]).metadata;
    expect(!memcmp(&a.metadata, &edited, sizeof edited));
}

// Both kinds of proof of the set are made and read, with the same tags, and kept.
static void write_proofs(FILE *f) {
    prove_jointly(0);
    expect(!kept);
    prove_singly(0);
    expect(!kept);
    qt_joint_answer all = qt_jointgateway_check(held, set, QT_MOST_POSITIONS, joint, joint_size);
    expect(f && !all.verdict.refusal && all.number == QT_MOST_POSITIONS);
    for (int i = 0; i < QT_MOST_POSITIONS; i++) {
        command.position = set[i];
        qt_answer one = qt_gateway_check(held, command, single[i], length_of(single[i]), 0, 0);
        expect(!one.verdict.refusal && !memcmp(&one.tag, &all.tags[i], sizeof one.tag));
    }
    expect(fwrite(&held, sizeof held, 1, f) && fwrite(joint, sizeof joint, 1, f) && fwrite(single, sizeof single, 1, f) && !fclose(f));
}

static bool of_set(void (*turn)(void *)) {
    return turn == prove_jointly || turn == prove_singly || turn == check_jointly || turn == check_singly;
}

static void ready_set(const char *image, const char *bytes, const char *how, void (*turn)(void *)) {
    char *next, path[4096];
    for (uint64_t i = 0; i < QT_MOST_POSITIONS; i++) set[i] = command.position + i * command.height;
    joint_size = strtoul(bytes, &next, 10), sum = strtoul(next + 1, 0, 10);
    snprintf(path, sizeof path, "%s.proofs", image);
    if (!strcmp(how, "write")) {
        held = qt_store_check(images[0], size).metadata;
        write_proofs(fopen(path, "wb"));
        exit(0);
    }
    if (turn == prove_jointly || turn == prove_singly) return;
    FILE *f = fopen(path, "rb");
    expect(f && fread(&held, sizeof held, 1, f) && fread(joint, sizeof joint, 1, f) && fread(single, sizeof single, 1, f));
}

// The image gets the two neighbours. What the gateway answers is held against its check of Insert and the metadata of the edited image.
static void write_filing(const char *entries, FILE *f) {
    char *next;
    uint64_t k = strtoul(entries, &next, 10), p = command.position;
    qt_command neighbours[2] = {{.operation = QT_REPLACE, .position = p}, {.operation = QT_REPLACE, .position = p + 1}};
    for (int i = 0; i < 2; i++) {
        neighbours[i].tag = qt_labels_tag(i ? filing.right_time : filing.left_time, readings, BLOCK).digest;
        expect(!qt_store_apply(images[0], sizeof images[0], neighbours[i]).verdict.refusal);
    }
    held = qt_store_check(images[0], size).metadata;
    first_size = proof(p, first, k), second_size = proof(p + 1, second, strtoul(next + 1, 0, 10));
    qt_answer one = qt_gateway_check(held, command, first, first_size, 0, 0);
    qt_answer a = qt_filer_file(held, filing, readings, BLOCK, readings, BLOCK, readings, BLOCK, first, first_size, second, second_size);
    expect(!a.verdict.refusal && !memcmp(&a, &one, sizeof a) && !qt_store_apply(images[0], sizeof images[0], command).verdict.refusal);
    qt_metadata edited = qt_store_check(images[0], sizeof images[0]).metadata;
    expect(f && !memcmp(&a.metadata, &edited, sizeof edited));
    expect(fwrite(&held, sizeof held, 1, f) && fwrite(first, sizeof first, 1, f) && fwrite(second, sizeof second, 1, f) && !fclose(f));
}

static bool of_filing(void (*turn)(void *)) { return turn == file || turn == file_insert || turn == file_read || turn == file_tags; }

// One block an hour; refused with 15 it has the time of the next.
static void ready_filing(const char *name, const char *image, const char *entries, const char *how) {
    char path[4096];
    filing = (qt_filing){command.position, command.height, TIME, TIME - HOUR, TIME + HOUR};
    command.tag = qt_labels_tag(filing.time, readings, BLOCK).digest;
    snprintf(path, sizeof path, "%s.proofs", image);
    if (!strcmp(how, "write")) {
        write_filing(entries, fopen(path, "wb"));
        exit(0);
    }
    FILE *f = fopen(path, "rb");
    expect(f && fread(&held, sizeof held, 1, f) && fread(first, sizeof first, 1, f) && fread(second, sizeof second, 1, f));
    first_size = length_of(first), second_size = length_of(second);
    if (!strcmp(name, "file-refused")) filing.time = filing.right_time, due = QT_OUT_OF_TIME;
}

int main(int n, char **v) {
    FILE *f = n == 8 ? fopen(v[2], "rb") : 0;
    if (!f || !(size = fread(images[0], 1, sizeof images[0], f))) return 2;
    for (int i = 1; i < COPIES; i++) memcpy(images[i], images[0], size);
    command.position = atol(v[3]), command.height = atol(v[4]);
    memset(command.tag.bytes, 7, sizeof command.tag.bytes);
    for (size_t i = 0; i < sizeof calls / sizeof *calls; i++) {
        if (strcmp(calls[i].name, v[1])) continue;
        command.operation = calls[i].operation;
        if (calls[i].turn == gate) ready_gateway(v[5]);
        if (calls[i].turn == prove) proof(command.position, first, atol(v[5]));
        if (of_set(calls[i].turn)) ready_set(v[2], v[5], v[6], calls[i].turn);
        if (of_filing(calls[i].turn)) ready_filing(v[1], v[2], v[5], v[6]);
        if (calls[i].turn == load) memcpy(saved, qt_gateway_save(held).bytes, sizeof saved);
        int status = measure(v[6], v[7], calls[i].turn, 0);
        return status ? status : kept ? 3 : 0;
    }
    return 2;
}
