/*
 * What the stack test runs: every call of include/planner.h, on towns that drive it deep, and with faults for which it refuses.
 * A further call is a runner and a line of `calls`, a further refusal a line of `faults`.
 */
#include <string.h>

#include "planner.h"

/* What the calls are lent, with one element of room behind each buffer. All of it is static: a runner's own frame stays small. */
static size_t n, m, k, kind, form, wanted;
static uint16_t scores[PLANNER_SCORES_LENGTH + 1];
static uint8_t weights[PLANNER_MAX_STREETS + 1], weight, rows[PLANNER_ROWS_LENGTH + 1], row[PLANNER_MAX_SITES + 1];
static uint8_t sites[PLANNER_MAX_SITES + 1], site;
static uint8_t hand[PLANNER_MAX_STREETS + 1];
static uint32_t claimed;
static uint32_t kilograms[PLANNER_MAX_STREETS + 1], litres[PLANNER_MAX_STREETS + 1];
static uint32_t kilogram_limits[PLANNER_MAX_SITES + 1], litre_limits[PLANNER_MAX_SITES + 1];
static uint8_t division[PLANNER_MAX_STREETS + 1], chosen[PLANNER_MAX_SITES + 1];
static uint8_t file[PLANNER_FILE_LENGTH + 1], written[PLANNER_FILE_LENGTH];
static size_t scores_len, weights_len, rows_len, row_len, sites_len, division_len, chosen_len, file_len, written_len, converted_len;
static size_t kilograms_len, litres_len, kilogram_limits_len, litre_limits_len;

/* What the reader fills. */
static size_t read_n, read_m, read_k, read_kind, read_form, read_scores_len, read_weights_len, read_rows_len;
static uint16_t read_scores[PLANNER_SCORES_LENGTH];
static uint8_t read_weights[PLANNER_WEIGHTS_LENGTH], read_rows[PLANNER_ROWS_LENGTH];

/* The answer of the last call. */
static uint64_t answer;

static void run_check_survey(void) {
    answer = planner_check_survey(n, m, k, scores, scores_len, weights, weights_len, rows, rows_len);
}

static void run_ranked_part(void) {
    answer = planner_ranked_part(row, row_len);
}

static void run_row_score(void) {
    answer = planner_row_score(m, scores, scores_len, weight, row, row_len, site);
}

static void run_list_total(void) {
    answer = planner_list_total(n, m, scores, scores_len, weights, weights_len, rows, rows_len, sites, sites_len);
}

static void run_free_division(void) {
    answer = planner_free_division(n, m, scores, scores_len, weights, weights_len, rows, rows_len, sites, sites_len, division, division_len);
}

static void run_balanced_division(void) {
    answer = planner_balanced_division(n, m, scores, scores_len, weights, weights_len, rows, rows_len, sites, sites_len, division, division_len);
}

static void run_plan(void) {
    answer = planner_plan(n, m, k, kind, scores, scores_len, weights, weights_len, rows, rows_len, division, division_len, chosen, chosen_len);
}

static void run_floor(void) {
    answer = planner_floor(n, m, k, scores, scores_len, weights, weights_len, rows, rows_len);
}

static void run_hand_plan(void) {
    answer = planner_hand_plan(n, m, k, kind, scores, scores_len, weights, weights_len, rows, rows_len, hand, division_len, claimed,
                               kilograms, kilograms_len, litres, litres_len, kilogram_limits, kilogram_limits_len, litre_limits, litre_limits_len);
}

static void run_write_file(void) {
    answer = planner_write_file(n, m, k, kind, form, scores, scores_len, weights, weights_len, rows, rows_len, written, written_len);
}

static void run_read_file(void) {
    answer = planner_read_file(file, file_len, &read_n, &read_m, &read_k, &read_kind, &read_form, read_scores, read_scores_len,
                               read_weights, read_weights_len, read_rows, read_rows_len);
}

static void run_convert_file(void) {
    answer = planner_convert_file(file, file_len, wanted, written, converted_len);
}

/* A set of refusals, by their numbers, and four members more for the buffers of some calls. */
#define NUMBER(number) (UINT64_C(1) << (number))
#define LENT_WEIGHTS NUMBER(60)
#define LENT_LOADS NUMBER(61)
#define LENT_DIVISION NUMBER(62)
#define LENT_CHOSEN NUMBER(63)
#define ROW (NUMBER(2) | NUMBER(6) | NUMBER(8) | NUMBER(9) | NUMBER(10) | NUMBER(11))
#define SURVEY (ROW | NUMBER(1) | NUMBER(3) | LENT_WEIGHTS | NUMBER(24))
#define LIST (SURVEY | NUMBER(17) | NUMBER(20))
#define PLAN (SURVEY | NUMBER(4) | LENT_DIVISION | LENT_CHOSEN)
#define LOADS (LENT_LOADS | NUMBER(21) | NUMBER(22) | NUMBER(23))
#define HAND (SURVEY | NUMBER(4) | LENT_DIVISION | LOADS | NUMBER(17) | NUMBER(18) | NUMBER(19))
#define WRITTEN (NUMBER(25) | NUMBER(7))
#define RECORDS (NUMBER(12) | NUMBER(13) | NUMBER(14) | NUMBER(15) | NUMBER(16))
#define READ ((SURVEY | NUMBER(4) | RECORDS) & ~NUMBER(9))

static const struct call {
    const char *name;
    void (*run)(void);
    size_t promise;
    uint64_t refuses;
} calls[] = {
    {"CHECK_SURVEY", run_check_survey, PLANNER_STACK_CHECK_SURVEY, SURVEY},
    {"RANKED_PART", run_ranked_part, PLANNER_STACK_RANKED_PART, 0},
    {"ROW_SCORE", run_row_score, PLANNER_STACK_ROW_SCORE, ROW | NUMBER(24) | NUMBER(17)},
    {"LIST_TOTAL", run_list_total, PLANNER_STACK_LIST_TOTAL, LIST},
    {"FREE_DIVISION", run_free_division, PLANNER_STACK_FREE_DIVISION, LIST | LENT_DIVISION},
    {"BALANCED_DIVISION", run_balanced_division, PLANNER_STACK_BALANCED_DIVISION, LIST | LENT_DIVISION | NUMBER(5)},
    {"FREE_PLAN", run_plan, PLANNER_STACK_FREE_PLAN, PLAN},
    {"BALANCED_PLAN", run_plan, PLANNER_STACK_BALANCED_PLAN, PLAN | NUMBER(5)},
    {"FLOOR", run_floor, PLANNER_STACK_FLOOR, SURVEY | NUMBER(5)},
    {"FREE_HAND_PLAN", run_hand_plan, PLANNER_STACK_FREE_HAND_PLAN, HAND},
    {"BALANCED_HAND_PLAN", run_hand_plan, PLANNER_STACK_BALANCED_HAND_PLAN, HAND | NUMBER(5)},
    {"WRITE_FILE", run_write_file, PLANNER_STACK_WRITE_FILE, SURVEY | NUMBER(4) | WRITTEN},
    {"READ_FILE", run_read_file, PLANNER_STACK_READ_FILE, READ},
    {"CONVERT_FILE", run_convert_file, PLANNER_STACK_CONVERT_FILE, (READ | WRITTEN) & ~(NUMBER(6) | LENT_WEIGHTS)},
};
enum { CALLS = sizeof calls / sizeof calls[0] };

/* The kind that a call is given: balanced where it refuses more sites than streets, which no free plan does. */
static size_t kind_of(const struct call *call) {
    return call->refuses & NUMBER(PLANNER_REFUSED_SHARE) ? PLANNER_BALANCED : PLANNER_FREE;
}

/* A site for each place of a street's list: all of them by turns, the same for every street, three names, or none. */
enum lists { VARIED, ALIKE, THREE_NAMES, EMPTY };

static uint8_t listed(enum lists lists, size_t street, size_t place) {
    size_t step = street / m % (m / 2 + 1) * 2 + 1; /* odd: where m is a power of 2, a list names every site once */
    if (lists == EMPTY || (lists == THREE_NAMES && place >= 3)) {
        return 0;
    }
    return (uint8_t)((lists == ALIKE ? place : street * 7 + place * step) % m + 1);
}

static void set_lengths(void) {
    scores_len = m, weights_len = n, rows_len = n * m, row_len = m, sites_len = k, division_len = n, chosen_len = k;
    kilograms_len = litres_len = n, kilogram_limits_len = litre_limits_len = m;
    read_scores_len = PLANNER_SCORES_LENGTH, read_weights_len = PLANNER_WEIGHTS_LENGTH, read_rows_len = PLANNER_ROWS_LENGTH;
}

/* Gives the streets of the hand plan loads, and each site the limits that these just reach. */
static void make_loads(void) {
    memset(kilogram_limits, 0, sizeof kilogram_limits);
    memset(litre_limits, 0, sizeof litre_limits);
    for (size_t street = 0; street < n; street++) {
        kilograms[street] = (uint32_t)street + 1;
        litres[street] = PLANNER_MOST_LOAD / PLANNER_MAX_STREETS;
        kilogram_limits[hand[street] - 1] += kilograms[street];
        litre_limits[hand[street] - 1] += litres[street];
    }
}

/* Makes the survey file, in the new form, or in the old one where all weights are 1 and K is even. It is wanted in the new form, or,
 * where all weights are 1, in the one that it does not have. */
static void make_file(size_t top) {
    form = top == 1 && k % 2 == 0 ? PLANNER_OLD_FORM : PLANNER_NEW_FORM;
    wanted = top == 1 && form == PLANNER_NEW_FORM ? PLANNER_OLD_FORM : PLANNER_NEW_FORM;
    file_len = planner_total(planner_write_file(n, m, k, kind, form, scores, m, weights, n, rows, n * m, file, PLANNER_FILE_LENGTH));
    written_len = file_len;
    converted_len = planner_total(planner_convert_file(file, file_len, wanted, written, PLANNER_FILE_LENGTH));
}

/* Makes a town and what goes with it: a kind, a list of sites, a hand plan with its total and loads, and the survey file. The
 * weights of the streets run from 1 to the top one, again and again. */
static void make_town(size_t streets, size_t all, size_t choose, size_t of_kind, enum lists lists, size_t top) {
    n = streets, m = all, k = choose, kind = of_kind;
    set_lengths();
    for (size_t place = 0; place < m; place++) {
        scores[place] = (uint16_t)(PLANNER_TOP_SCORE - 15 * place);
    }
    claimed = 0;
    for (size_t street = 0; street < n; street++) {
        hand[street] = (uint8_t)(street % k + 1);
        weights[street] = (uint8_t)(street % top + 1);
        for (size_t place = 0; place < m; place++) {
            uint8_t named = listed(lists, street, place);
            rows[street * m + place] = named;
            claimed += named == hand[street] ? (uint32_t)weights[street] * scores[place] : 0;
        }
    }
    make_loads();
    memcpy(row, rows + (n - 1) * m, m);
    weight = weights[n - 1];
    for (size_t i = 0; i < k; i++) {
        sites[i] = (uint8_t)(i + 1);
    }
    site = sites[k - 1];
    make_file(top);
}

/* The first town is the one that the faults are put into. With weights that are all 1 the rounds sort by smaller keys. */
static const struct town {
    size_t n, m, k;
    enum lists lists;
    size_t top;
} towns[] = {
    {400, 64, 50, VARIED, 99},
    {400, 64, 8, VARIED, 99},
    {400, 64, 1, VARIED, 99},
    {400, 64, 64, VARIED, 99},
    {400, 64, 33, VARIED, 99},
    {400, 64, 7, VARIED, 99},
    {65, 64, 64, VARIED, 99},
    {64, 64, 64, VARIED, 99},
    {63, 64, 64, VARIED, 99},
    {400, 64, 50, ALIKE, 99},
    {400, 64, 8, ALIKE, 99},
    {400, 64, 33, ALIKE, 99},
    {400, 64, 50, THREE_NAMES, 99},
    {400, 64, 8, THREE_NAMES, 99},
    {400, 64, 33, THREE_NAMES, 99},
    {400, 64, 50, EMPTY, 99},
    {6, 4, 3, VARIED, 99},
    {10, 4, 3, VARIED, 99},
    {1, 1, 1, VARIED, 99},
    {400, 64, 50, VARIED, 1},
    {400, 64, 8, VARIED, 1},
    {400, 64, 33, VARIED, 1},
    {400, 64, 50, ALIKE, 1},
    {400, 64, 50, THREE_NAMES, 1},
    {400, 64, 50, EMPTY, 1},
    {400, 64, 50, VARIED, 2},
    {400, 64, 50, ALIKE, 40},
};
enum { TOWNS = sizeof towns / sizeof towns[0] };
