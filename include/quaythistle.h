/*
 * Quaythistle: the gateway and the store of an archive, for C and C++.
 *
 * Link with libquaythistle.a (`rt lib` in crates/quaythistle writes it into the folder out/ there, for x86-64 Linux). It needs memcpy,
 * memmove and memset of the C library and nothing else: no call allocates, keeps anything between calls, reads or writes a file, or fails
 * in a way that its answer does not tell. Calls on different buffers may run at once.
 *
 * No call recurses. For a task with a small stack: a digest, a tag, a match, a height and a place by time take less than 1 KiB of it, the
 * gateway's calls, the filing of a block by its time among them, less than 2 KiB, the store's and the shape less than 9 KiB, beside the
 * arguments that the caller passes by value and the answer that it gets. The gateway's check of a joint proof takes more, since it spells
 * each proof out in a buffer of 7,677 bytes on the stack: less than 12 KiB, beside an answer of 1,080 bytes.
 *
 * Every call takes whatever C can pass and answers or refuses it by number. A refusal changes no lent byte.
 *
 * What a caller owes, as in C at large: a pointer points to as many elements as the length after it says, and may be null only where that
 * length is 0; what is lent to be written overlaps nothing else that the same call is lent, and nobody else reads or writes it until the
 * call returns; a bool holds 0 or 1.
 */
#ifndef QUAYTHISTLE_H
#define QUAYTHISTLE_H

#include <stdbool.h>
#include <stddef.h>
#include <stdint.h>

#ifdef __cplusplus
#define QT_ALONE
extern "C" {
#else
/* what this pointer is lent overlaps nothing else that the call is lent */
#define QT_ALONE restrict
#endif

/* Numbers that bound the work. */
#define QT_MOST_BLOCKS 4096      /* blocks in an archive */
#define QT_MOST_HEIGHT 15        /* a column's height */
#define QT_MOST_ENTRIES 200      /* entries in a path that is proved */
#define QT_LONGEST_MESSAGE 4096  /* bytes of a message to digest */
#define QT_LONGEST_READINGS 4089 /* bytes of a block's readings, before which 7 more are digested */
#define QT_MOST_POSITIONS 32     /* positions in a joint proof */

/* Sizes in bytes. */
#define QT_DIGEST_SIZE 32 /* a digest, a tag, a label */
#define QT_SAVED_SIZE 39  /* saved metadata */
#define QT_IMAGE_SIZE(n) (7 + 33 * (size_t)(n))  /* the image of an archive of n blocks */
#define QT_PROOF_SIZE(k) (77 + 38 * (size_t)(k)) /* a proof with k entries */
#define QT_LONGEST_IMAGE QT_IMAGE_SIZE(QT_MOST_BLOCKS)
#define QT_LONGEST_PROOF QT_PROOF_SIZE(QT_MOST_ENTRIES)
/* the joint proof of m positions, at least one, with k entries in all that are not shared */
#define QT_JOINT_SIZE(m, k) (4 + 76 * (size_t)(m) + 38 * (size_t)(k))
#define QT_LONGEST_JOINT QT_JOINT_SIZE(QT_MOST_POSITIONS, QT_MOST_POSITIONS * QT_MOST_ENTRIES) /* none is longer */

/* What comes back when a call will not: `refusal` of a qt_verdict. */
enum {
    QT_DONE = 0,            /* nothing was refused */
    QT_BAD_IMAGE = 1,       /* buffer under 7 bytes, version not 1, length not 2 + 33n, n over 4,096, buffer shorter than the image, or
                               a height over 15 */
    QT_BAD_POSITION = 2,    /* outside the command's range, for a joint proof outside 1 to n; an operation over 3 names no command, so no
                               position is in its range */
    QT_BAD_HEIGHT = 3,      /* Insert with height over 15 */
    QT_FULL = 4,            /* Insert with n = 4,096 */
    QT_NO_ROOM = 5,         /* proof, joint proof, grown image or numbers of entries do not fit their buffer */
    QT_TOO_DEEP = 6,        /* path of more than 200 entries */
    QT_BAD_PROOF = 7,       /* bytes break a rule of the proof's form, or the lent bytes are not exactly 77 + 38k for some k from 0 to
                               200 with that length stated; for place 0 of a joint proof: version not 1, length not stated, number not
                               that of the positions asked, a kind over 2, bytes short or over, or a shared number not the largest */
    QT_WRONG_POSITION = 8,  /* proved position is not the one wanted, or stop's own is not 1 (0 for position 0) */
    QT_WRONG_LABEL = 9,     /* proved rank is not the count, or recomputed root label is not the one held */
    QT_NOT_NEIGHBOURS = 10, /* Delete's proofs do not meet */
    QT_LONG_MESSAGE = 11,   /* over 4,096 bytes to digest; so for a block, readings over 4,089 bytes */
    QT_BAD_METADATA = 12,   /* count over 4,096, or saved bytes not of the stated form */
    QT_BAD_SET = 13,        /* positions of a joint proof: none, over 32, or one not above the one before */
    QT_REPEATED = 14,       /* Insert after p, p at least 1, of the tag at p: a block that comes again and is filed where it belongs, right
                               after its first copy. No other tag is looked at: the same command sent again, word for word, names the
                               place before the copy, which stands at p + 1 by then, and is not refused. Filed by its time, a block that
                               comes again is placed anew, right after the copy, and is refused; unless another block of the same time
                               has come in after the copy */
    QT_OUT_OF_TIME = 15,    /* a filing by time: the block at p is later than the new one, or the block at p + 1 is not */
    QT_WRONG_BLOCK = 16     /* a filing by time: the block lent as that at p, or as that at p + 1, does not match the tag that the proof
                               shows there */
};

/* Which proof 7, 8 and 9 speak of: `proof` of a qt_verdict. Of a joint proof it is the place instead: 0 the joint proof's own form (7 alone),
 * 1 to 32 the proof spelled out for the first, second, .. of the positions. */
enum {
    QT_NO_PROOF = 0, /* the call is done, or its refusal speaks of no proof */
    QT_FIRST = 1,    /* the first proof, or the only one */
    QT_SECOND = 2    /* the second proof: Delete's, for p; a filing's, for p + 1 */
};

/* The commands: `operation` of a qt_command. */
enum {
    QT_READ = 0,    /* Read p, 1 to n: reports the tag, metadata stays */
    QT_REPLACE = 1, /* Replace p, 1 to n, by a tag; the height stays */
    QT_INSERT = 2,  /* Insert after p, 0 to n, a tag with a height; for p at least 1 not the tag at p */
    QT_DELETE = 3   /* Delete p, 1 to n: two proofs, first for p - 1, second for p */
};

/* A digest, a block's tag, or a label. */
typedef struct {
    uint8_t bytes[QT_DIGEST_SIZE];
} qt_digest;

/* Whether a call is done, or why not. */
typedef struct {
    uint32_t refusal; /* QT_DONE, or the refusal's number, 1 to 16 */
    uint32_t proof;   /* which proof the refusal speaks of: QT_NO_PROOF, QT_FIRST or QT_SECOND; of a joint proof the place, 0 to 32 */
} qt_verdict;

/* Metadata: what the gateway holds of an archive. */
typedef struct {
    uint64_t count;  /* the number of blocks */
    qt_digest label; /* the root label */
} qt_metadata;

/* A command. What an operation has no use for is not looked at. */
typedef struct {
    uint32_t operation; /* QT_READ, QT_REPLACE, QT_INSERT or QT_DELETE; any other number is refused with 2 at every position */
    uint32_t height;    /* Insert's height, 0 to 15; any other is refused with 3 */
    uint64_t position;  /* p */
    qt_digest tag;      /* the tag that Replace and Insert put in */
} qt_command;

/* A late block that is to be filed by its time, right after a place that the store proposes. The time of a neighbour that is not needed is
 * not looked at. */
typedef struct {
    uint64_t position;   /* p, 0 to n */
    uint32_t height;     /* the new block's height, 0 to 15; any other is refused with 3 */
    uint32_t time;       /* the new block's sample time, in seconds */
    uint32_t left_time;  /* the sample time of the block at p, needed where p is at least 1 */
    uint32_t right_time; /* the sample time of the block at p + 1, needed where p is less than n */
} qt_filing;

/* A digest or a tag; zero where the call is refused. */
typedef struct {
    qt_verdict verdict;
    qt_digest digest;
} qt_digested;

/* Whether a block matches a tag; false where the call is refused. */
typedef struct {
    qt_verdict verdict;
    bool yes;
} qt_matched;

/* Metadata; count 0 and a zero label where the call is refused. */
typedef struct {
    qt_verdict verdict;
    qt_metadata metadata;
} qt_metadata_answer;

/* A proof that was written; length and entries 0 where the call is refused. */
typedef struct {
    qt_verdict verdict;
    uint64_t length;  /* the proof's length in bytes, 77 + 38k */
    uint64_t entries; /* k, the entries in the path; 0 for a joint proof, which has many */
} qt_proved;

/* A number of blocks; 0 where the call is refused. */
typedef struct {
    qt_verdict verdict;
    uint64_t count;
} qt_counted;

/* Saved metadata; 39 zero bytes where the call is refused. */
typedef struct {
    qt_verdict verdict;
    uint8_t bytes[QT_SAVED_SIZE];
} qt_saved;

/* The gateway's answer to a command or a filing; a zero tag and the metadata given where it is refused. */
typedef struct {
    qt_verdict verdict;
    qt_digest tag;        /* the tag at p before the edit, 32 zero bytes for p = 0; Delete so reports the tag removed */
    qt_metadata metadata; /* the new metadata, worked out from the proofs */
} qt_answer;

/* The gateway's answer to a joint proof; number 0 and zero tags where it is refused. */
typedef struct {
    qt_verdict verdict;
    uint64_t number;                   /* the number of tags, that of the positions */
    qt_digest tags[QT_MOST_POSITIONS]; /* the tags at the positions, in their order; zero from `number` on */
    qt_metadata metadata;              /* the metadata given */
} qt_joint_answer;

/* SHA-256 (FIPS 180-4) of a message. Refuses with 11. */
qt_digested qt_sha256_digest(const uint8_t *message, size_t length);

/* SHA-256 of two runs of bytes joined, as if the second stood right after the first. Refuses with 11 where together they are over 4,096
 * bytes. */
qt_digested qt_sha256_digest_joined(const uint8_t *first, size_t first_length, const uint8_t *second, size_t second_length);

/* A block's tag: the digest of version byte 1, length of the rest (4 + length) in two bytes, sample time in four bytes (seconds), readings;
 * both numbers are big-endian. Refuses with 11. */
qt_digested qt_labels_tag(uint32_t time, const uint8_t *readings, size_t length);

/* Matches a block, its time and readings, against a tag: yes exactly when the block's tag is that tag. Refuses with 11. */
qt_matched qt_labels_matches(qt_digest tag, uint32_t time, const uint8_t *readings, size_t length);

/* The height drawn from a 16-bit coin word: the number of trailing zero bits of the word, at most 15. Refuses nothing. */
uint8_t qt_labels_height(uint16_t word);

/* The store checks an image, which stands at the start of its buffer, and answers its metadata. Refuses with 1. */
qt_metadata_answer qt_store_check(const uint8_t *image, size_t length);

/* The store proves a position, 0 to n, of an image. The proof begins at the given place in the buffer; other bytes stay. Refuses with 1, 2,
 * 6, 5, in this order. */
qt_proved qt_store_prove(const uint8_t *QT_ALONE image, size_t length, uint64_t position, uint8_t *QT_ALONE buffer, size_t room,
                         uint64_t place);

/* The store applies a command to the image in its buffer, and answers the new count. Insert or Delete moves later records by 33 bytes;
 * Delete sets the 33 bytes that the image gave up to zero; Read changes nothing. Refuses with 1, 2, 3, 4, 14, 5, in this order. */
qt_counted qt_store_apply(uint8_t *image, size_t length, qt_command command);

/* The shape of an archive: the answer is n, and entries[p - 1] the number of entries in the path to block p (also above 200); other
 * elements stay. `room` counts elements. Refuses with 1, 5, in this order. */
qt_counted qt_shapes_shape(const uint8_t *QT_ALONE image, size_t length, uint64_t *QT_ALONE entries, size_t room);

/* Saves metadata: version, length 36 in two bytes, count in four, label: 39 bytes. Refuses with 12. */
qt_saved qt_gateway_save(qt_metadata metadata);

/* Loads metadata, from exactly 39 bytes of that form. Refuses with 12. */
qt_metadata_answer qt_gateway_load(const uint8_t *saved, size_t length);

/* The gateway's check of a command against the metadata it holds. Read, Replace and Insert carry one proof, for p; Delete two, the first
 * for p - 1. The second is not looked at for another command than Delete. Refuses with 12, 2, 3, 4, then 7, 8, 9 on the first proof; then
 * Insert with 14, and Delete with 7, 8, 9 on the second and 10; in this order. */
qt_answer qt_gateway_check(qt_metadata metadata, qt_command command, const uint8_t *first, size_t first_length, const uint8_t *second,
                           size_t second_length);

/* The store proves a set of positions, each 1 to n and above the one before, at most 32 of them, by one joint proof: version 1, length of the
 * rest in four bytes, number of positions in one, then the proofs without their headers, from the second on each with the number of leading
 * entries that it shares with the one before, in two bytes, in place of those entries. It begins at the given place in the buffer; other
 * bytes stay. `number` counts positions. Refuses with 1, 13, 2, 6, 5, in this order. */
qt_proved qt_jointstore_prove(const uint8_t *QT_ALONE image, size_t length, const uint64_t *QT_ALONE positions, size_t number,
                              uint8_t *QT_ALONE buffer, size_t room, uint64_t place);

/* The gateway's check of a joint proof of these positions against the metadata it holds: accepted exactly when it has the stated form and
 * Read of each position accepts its proof, spelled out. Refuses with 12, 13, 2, then 7 with place 0 for the joint proof's form, then 7, 8, 9
 * of the first proof with place 1, the same of the second with place 2, and so on, in this order. */
qt_joint_answer qt_jointgateway_check(qt_metadata metadata, const uint64_t *positions, size_t number, const uint8_t *proof, size_t length);

/* The place that the store proposes for a block of this time, from the times of its blocks in their order: how many stand before the first
 * that is later, all of them where none is. So a block goes after those of its own time. `number` counts times, which may rise or not.
 * Refuses nothing. */
uint64_t qt_times_place(const uint32_t *times, size_t number, uint32_t time);

/* The gateway files a late block by its time: Insert after p of the new block's tag, against the metadata it holds, with the blocks that
 * stand at p (`left`) and at p + 1 (`right`), the proof of p (`first`) and the proof of p + 1 (`second`). The left block is needed where p
 * is at least 1, the right one and the second proof where p is less than the count held; what is not needed is not looked at. Accepted
 * exactly when neither the new block nor a needed one is too long, Insert's check and the second proof pass, each needed block matches the
 * tag that its proof shows, and the left time is at or before the new one, which is before the right one. So whoever proposes the place:
 * where the times of an archive never fell, they do not fall after a filing, or two different messages of equal digest exist. The answer
 * is Insert's. The store then makes that Insert (qt_store_apply, with the same position and height and the new block's tag) and puts the
 * time into its times behind the first p. Refuses with 11 for the new block, then for a needed one; 12, 2, 3, 4, then 7, 8, 9 on the first
 * proof; 14; 7, 8, 9 on the second; 16; 15; in this order. */
qt_answer qt_filer_file(qt_metadata metadata, qt_filing filing, const uint8_t *readings, size_t readings_length, const uint8_t *left,
                        size_t left_length, const uint8_t *right, size_t right_length, const uint8_t *first, size_t first_length,
                        const uint8_t *second, size_t second_length);

#ifdef __cplusplus
}
#endif

#undef QT_ALONE

#endif
