/*
 * Plans the town of a survey file and prints the listing of its plan:
 *
 *     plan_file town.survey          or          plan_file < town.survey
 *
 * A file or town that is refused gets the line `refused N`, and on standard error what is wrong and what to do; the exit status is
 * then 1. It is 2 where the file can't be read or the listing can't be written.
 */
#include <errno.h>
#include <stdio.h>
#include <string.h>

#include "planner.h"

/* The town: its sizes, the kind of its plan and the form of its file, the score of each place, and for each street a weight and a row
 * of sites. */
static size_t n, m, k, kind, form;
static uint16_t scores[PLANNER_SCORES_LENGTH];
static uint8_t weights[PLANNER_WEIGHTS_LENGTH], rows[PLANNER_ROWS_LENGTH];

/* Its plan: the site of each street, and the chosen sites in order of choice. */
static uint8_t division[PLANNER_MAX_STREETS], chosen[PLANNER_MAX_SITES];

static int refused(uint64_t answer) {
    uint32_t number = planner_refusal(answer);
    printf("refused %u\n", (unsigned)number);
    fprintf(stderr, "plan_file: %s\n", planner_refusal_text(number));
    return 1;
}

static int failed(const char *what) {
    fprintf(stderr, "plan_file: %s: %s\n", what, strerror(errno));
    return 2;
}

/* The place that a street's row gives a site, from 1 on; 0 where the street has not ranked it. */
static size_t place(const uint8_t *row, uint8_t site) {
    size_t ranked = planner_ranked_part(row, m);
    for (size_t i = 0; i < ranked; i++) {
        if (row[i] == site) {
            return i + 1;
        }
    }
    return 0;
}

static void print_listing(uint32_t total) {
    printf("total %u\nsites", (unsigned)total);
    for (size_t i = 0; i < k; i++) {
        printf(" %d", chosen[i]);
    }
    printf("\n");
    for (size_t street = 0; street < n; street++) {
        printf("street %zu %d %zu\n", street + 1, division[street], place(rows + street * m, division[street]));
    }
}

int main(int argc, char **argv) {
    /* One byte more than the longest file has: a file that is too long is then refused, and not planned without its end. */
    static uint8_t file[PLANNER_FILE_LENGTH + 1];
    const char *name = argc > 1 ? argv[1] : "standard input";
    FILE *survey = argc > 1 ? fopen(name, "rb") : stdin;
    if (!survey) {
        return failed(name);
    }
    size_t length = fread(file, 1, sizeof file, survey);
    if (ferror(survey)) {
        return failed(name);
    }
    fclose(survey);

    uint64_t answer = planner_read_file(file, length, &n, &m, &k, &kind, &form, scores, PLANNER_SCORES_LENGTH,
                                        weights, PLANNER_WEIGHTS_LENGTH, rows, PLANNER_ROWS_LENGTH);
    if (planner_refusal(answer) == PLANNER_ACCEPTED) {
        answer = planner_plan(n, m, k, kind, scores, m, weights, n, rows, n * m, division, n, chosen, k);
    }
    int status = 0;
    if (planner_refusal(answer) == PLANNER_ACCEPTED) {
        print_listing(planner_total(answer));
    } else {
        status = refused(answer);
    }
    return fflush(stdout) == 0 && !ferror(stdout) ? status : failed("standard output");
}
