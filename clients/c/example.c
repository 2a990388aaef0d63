/* Scopes one small script and prints what the listing program prints. */
#include "hurdlebraid.h"
#include <inttypes.h>
#include <stdio.h>

/* main jumps to the label l, declares x, which the jump skips, and behind l assigns x to x. */
static const uint8_t tree[] = {
    0x03, 0x04, 0x6D, 0x61, 0x69, 0x6E, 0x01, 0x78, 0x01, 0x6C, 0x01, 0x01, 0x00, 0x00, 0x00, 0x00,
    0x01, 0x00, 0x01, 0x00, 0x00, 0x04, 0x04, 0x02, 0x02, 0x00, 0x00, 0x02, 0x00, 0x03, 0x00, 0x00,
    0x01, 0x03, 0x00, 0x01, 0x05, 0x02, 0x04, 0x00, 0x01, 0x04, 0x01, 0x05, 0x09, 0x00, 0x00, 0x06,
    0x06, 0x00, 0x01, 0x06, 0x00, 0x00, 0x00, 0x00, 0x05, 0x05, 0x00, 0x01, 0x05, 0x00, 0x00, 0x00,
    0x00, 0x00, 0x07, 0x00, 0x00, 0x00, 0x00, 0x00,
};

static uint8_t answer[HURDLEBRAID_TREE_BYTES];
static uint32_t list[HURDLEBRAID_LIST_WORDS];
static uint32_t work[HURDLEBRAID_WORK_WORDS];

int main(void) {
    uint64_t outcome[HURDLEBRAID_OUTCOME_WORDS];
    hurdlebraid_analyze(tree, sizeof tree, answer, HURDLEBRAID_TREE_BYTES, list, HURDLEBRAID_LIST_WORDS, work,
                        HURDLEBRAID_WORK_WORDS, outcome, HURDLEBRAID_OUTCOME_WORDS);
    if (outcome[0] != 0) {
        printf("refused %" PRIu64 " at %" PRIu64 "\n", outcome[0], outcome[1]);
        return 1;
    }
    const size_t bytes = outcome[2], records = outcome[3];
    printf("tree %zu skipped %zu\n", bytes, records);
    for (size_t k = 0; k < records; k++)
        printf("skip %" PRIu32 " %" PRIu32 "\n", list[2 * k], list[2 * k + 1]);

    /* The readers refuse by 13 behind the last declaration. */
    for (uint32_t d = 0;; d++) {
        hurdlebraid_container_depth(answer, bytes, d, UINT32_MAX, outcome, HURDLEBRAID_OUTCOME_WORDS);
        if (outcome[0] != 0)
            return 0;
        if (outcome[3])
            printf("depth %" PRIu32 " %" PRIu64 "\n", d, outcome[2]);
        else
            printf("depth %" PRIu32 " none\n", d);
    }
}
