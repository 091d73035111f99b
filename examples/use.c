#include "quaythistle.h"
#include <stdio.h>
#include <string.h>

static qt_command insert(uint64_t position, uint32_t height, uint32_t time, const char *readings) {
    qt_digest tag = qt_labels_tag(time, (const uint8_t *)readings, strlen(readings)).digest;
    return (qt_command){.operation = QT_INSERT, .height = height, .position = position, .tag = tag};
}

int main(void) {
    uint8_t image[QT_IMAGE_SIZE(3)] = {1, 0, 0, 0, 2, 0, 0}, first[QT_LONGEST_PROOF], second[QT_LONGEST_PROOF];
    uint32_t times[2] = {1700028000, 1700071200}; /* of the samples, in seconds */
    qt_store_apply(image, sizeof image, insert(0, 0, times[0], "morning"));
    qt_store_apply(image, sizeof image, insert(1, 0, times[1], "evening"));
    qt_metadata held = qt_store_check(image, sizeof image).metadata; /* all that the gateway keeps */

    /* Noon comes late. The store finds its place and proves what stands there and right after. */
    qt_filing filing = {.height = qt_labels_height(6), .time = 1700049600, .left_time = times[0], .right_time = times[1]};
    filing.position = qt_times_place(times, 2, filing.time);
    size_t at = qt_store_prove(image, sizeof image, filing.position, first, sizeof first, 0).length;
    size_t after = qt_store_prove(image, sizeof image, filing.position + 1, second, sizeof second, 0).length;

    /* The gateway files it between the two, and the store makes the same Insert. */
    qt_answer answer = qt_filer_file(held, filing, (const uint8_t *)"noon", 4, (const uint8_t *)"morning", 7, (const uint8_t *)"evening", 7,
                                     first, at, second, after);
    qt_counted applied = qt_store_apply(image, sizeof image, insert(filing.position, filing.height, filing.time, "noon"));
    printf("refusal %u, blocks %u\n", (unsigned)answer.verdict.refusal, (unsigned)applied.count);
    return answer.verdict.refusal != QT_DONE;
}
