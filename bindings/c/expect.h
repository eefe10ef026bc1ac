/* What the programs of this folder share that test the calls: the worked survey P1, and a line for each thing that differs. */
#include <stdio.h>
#include <string.h>

#include "planner.h"

static int differences = 0;

static inline void expect(int holds, const char *what) {
    if (!holds) {
        printf("differs: %s\n", what);
        differences = 1;
    }
}

static inline int refused(uint64_t answer, uint32_t number) {
    return planner_refusal(answer) == number && planner_total(answer) == 0;
}

static inline void expect_refusal(uint64_t answer, uint32_t number, const char *what) {
    expect(refused(answer, number), what);
}

/* n 4, m 3, K 2, lists 1 2 3 / 1 3 2 / 2 1 / 3 2 1. */
static const uint16_t scores[3] = {2, 1, 0};
static const uint8_t rows[12] = {1, 2, 3, 1, 3, 2, 2, 1, 0, 3, 2, 1};

/* The weights of streets that all count alike, and of a street 4 that counts for more. */
static const uint8_t ones[4] = {1, 1, 1, 1}, heavy[4] = {1, 1, 1, 9};
