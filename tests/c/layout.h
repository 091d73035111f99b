/* Sizes and field offsets of the structs, as the compiled calls read and write them. */
#include "quaythistle.h"
#include <assert.h>

#define AT(type, field, place) static_assert(offsetof(type, field) == (place), #type "." #field)
#define SIZE(type, size) static_assert(sizeof(type) == (size), #type)

SIZE(qt_digest, 32);
AT(qt_digest, bytes, 0);

SIZE(qt_verdict, 8);
AT(qt_verdict, refusal, 0);
AT(qt_verdict, proof, 4);

SIZE(qt_metadata, 40);
AT(qt_metadata, count, 0);
AT(qt_metadata, label, 8);

SIZE(qt_command, 48);
AT(qt_command, operation, 0);
AT(qt_command, height, 4);
AT(qt_command, position, 8);
AT(qt_command, tag, 16);

SIZE(qt_filing, 24);
AT(qt_filing, position, 0);
AT(qt_filing, height, 8);
AT(qt_filing, time, 12);
AT(qt_filing, left_time, 16);
AT(qt_filing, right_time, 20);

SIZE(qt_digested, 40);
AT(qt_digested, verdict, 0);
AT(qt_digested, digest, 8);

SIZE(qt_matched, 12);
AT(qt_matched, verdict, 0);
AT(qt_matched, yes, 8);

SIZE(qt_metadata_answer, 48);
AT(qt_metadata_answer, verdict, 0);
AT(qt_metadata_answer, metadata, 8);

SIZE(qt_proved, 24);
AT(qt_proved, verdict, 0);
AT(qt_proved, length, 8);
AT(qt_proved, entries, 16);

SIZE(qt_counted, 16);
AT(qt_counted, verdict, 0);
AT(qt_counted, count, 8);

SIZE(qt_saved, 48);
AT(qt_saved, verdict, 0);
AT(qt_saved, bytes, 8);

SIZE(qt_answer, 80);
AT(qt_answer, verdict, 0);
AT(qt_answer, tag, 8);
AT(qt_answer, metadata, 40);

SIZE(qt_joint_answer, 1080);
AT(qt_joint_answer, verdict, 0);
AT(qt_joint_answer, number, 8);
AT(qt_joint_answer, tags, 16);
AT(qt_joint_answer, metadata, 1040);

static_assert(QT_LONGEST_IMAGE == 135175, "the longest image");
static_assert(QT_LONGEST_PROOF == 7677, "the longest proof");
static_assert(QT_LONGEST_JOINT == 245636, "the longest joint proof");
static_assert(7 + QT_LONGEST_READINGS == QT_LONGEST_MESSAGE, "the longest readings");

#undef AT
#undef SIZE
