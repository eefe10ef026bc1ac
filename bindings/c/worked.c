/*
 * Every function of include/planner.h from C, but for those on survey files (files.c), on the worked surveys P1, P7 and P8. Prints
 * what differs and ends with 1, or ends with 0.
 */
#include "expect.h"

/* The same for a call of this kind. */
static void expect_of(size_t kind, int holds, const char *what) {
    if (!holds) {
        printf("differs: %s, kind %zu\n", what, kind);
        differences = 1;
    }
}

/* P1's plan. */
static const uint8_t plan[4] = {1, 1, 2, 2};
static const uint8_t sites[2] = {1, 2};

/* What stands for loads where there are none: the last arguments of a hand plan of this many streets over three sites. */
static const uint32_t nothing[4] = {0}, most[3] = {PLANNER_MOST_LOAD, PLANNER_MOST_LOAD, PLANNER_MOST_LOAD};
#define NO_LOADS(streets) nothing, streets, nothing, streets, most, 3, most, 3

static void plans(size_t kind) {
    uint8_t division[4] = {0}, chosen[2] = {0};
    expect_of(kind, planner_plan(4, 3, 2, kind, scores, 3, ones, 4, rows, 12, division, 4, chosen, 2) == 7, "the plan's total");
    expect_of(kind, !memcmp(division, plan, 4) && !memcmp(chosen, sites, 2), "the plan");
    expect_of(kind, planner_hand_plan(4, 3, 2, kind, scores, 3, ones, 4, rows, 12, plan, 4, 7, NO_LOADS(4)) == 7, "the hand plan");
}

/* P8: one street that has ranked nothing is unserved in the free plan, and has the one site in the balanced plan. */
static void kinds_apart(size_t kind) {
    static const uint16_t seven[1] = {7};
    static const uint8_t empty[1] = {0}, unserved[1] = {0};
    uint8_t division[1] = {8}, chosen[1] = {8};
    expect_of(kind, planner_plan(1, 1, 1, kind, seven, 1, ones, 1, empty, 1, division, 1, chosen, 1) == 0, "P8's total");
    expect_of(kind, division[0] == (kind == PLANNER_FREE ? 0 : 1) && chosen[0] == 1, "P8's plan");
    uint64_t answer = planner_hand_plan(1, 1, 1, kind, seven, 1, ones, 1, empty, 1, unserved, 1, 0, nothing, 1, nothing, 1, most, 1, most, 1);
    expect_of(kind, planner_refusal(answer) == (kind == PLANNER_FREE ? 0 : 17), "P8's street unserved by hand");
}

static void divisions(void) {
    uint8_t division[4] = {0};
    expect(planner_free_division(4, 3, scores, 3, ones, 4, rows, 12, sites, 2, division, 4) == 7 && !memcmp(division, plan, 4),
           "the free division");
    memset(division, 0, 4);
    expect(planner_balanced_division(4, 3, scores, 3, ones, 4, rows, 12, sites, 2, division, 4) == 7 && !memcmp(division, plan, 4),
           "the balanced division");
}

/* The best balanced division over a list of all three sites, and its total. */
static void expect_division(const uint8_t list[3], const uint8_t wanted[4], uint64_t total, const char *what) {
    uint8_t division[4] = {0};
    uint64_t answer = planner_balanced_division(4, 3, scores, 3, ones, 4, rows, 12, list, 3, division, 4);
    expect(answer == total && !memcmp(division, wanted, 4), what);
}

/* P7: the same survey with K 3. The site chosen first, and the first of a list, has two streets and the others one. */
static void uneven_shares(void) {
    static const uint8_t all[3] = {1, 2, 3}, two_first[3] = {2, 1, 3}, three_first[3] = {3, 1, 2};
    static const uint8_t one_larger[4] = {1, 1, 2, 3}, two_larger[4] = {2, 1, 2, 3}, three_larger[4] = {1, 3, 2, 3};
    uint8_t division[4] = {0}, chosen[3] = {0};
    expect(planner_plan(4, 3, 3, PLANNER_BALANCED, scores, 3, ones, 4, rows, 12, division, 4, chosen, 3) == 8, "P7's total, balanced");
    expect(!memcmp(division, one_larger, 4) && !memcmp(chosen, all, 3), "P7's balanced plan");
    expect_division(all, one_larger, 8, "the balanced division with site 1 first");
    expect_division(two_first, two_larger, 7, "the balanced division with site 2 first");
    expect_division(three_first, three_larger, 7, "the balanced division with site 3 first");
    expect(planner_floor(4, 3, 3, scores, 3, ones, 4, rows, 12) == 5, "P7's floor");
    expect(planner_hand_plan(4, 3, 3, PLANNER_BALANCED, scores, 3, ones, 4, rows, 12, one_larger, 4, 8, NO_LOADS(4)) == 8,
           "P7's plan as a hand plan");
    expect(planner_hand_plan(4, 3, 3, PLANNER_BALANCED, scores, 3, ones, 4, rows, 12, three_larger, 4, 7, NO_LOADS(4)) == 7,
           "a hand plan with two streets for site 3");
    expect_refusal(planner_hand_plan(4, 3, 3, PLANNER_BALANCED, scores, 3, ones, 4, rows, 12, plan, 4, 7, NO_LOADS(4)), 18,
                   "a hand plan with two streets for two of three sites");
}

/* Kilograms and litres of the four streets, and the limits of the three sites. */
struct loads {
    uint32_t kilograms[4], litres[4], kilogram_limits[3], litre_limits[3];
};

/* Site 1 gets 11 kilograms and 5 litres, and site 2 gets 15 and 7: each sum is equal to its limit. */
static const struct loads fitting = {{5, 6, 7, 8}, {1, 4, 3, 4}, {11, 15, 0}, {5, 7, 0}};

static uint64_t hand_plan(size_t kind, const uint8_t division[4], uint32_t claimed, const struct loads *with) {
    return planner_hand_plan(4, 3, 2, kind, scores, 3, ones, 4, rows, 12, division, 4, claimed, with->kilograms, 4, with->litres, 4,
                             with->kilogram_limits, 3, with->litre_limits, 3);
}

static uint64_t free_hand_plan(const uint8_t division[4], uint32_t claimed, const struct loads *with) {
    return hand_plan(PLANNER_FREE, division, claimed, with);
}

/* The plan that claims 7, tested as a plan of each kind. */
static void expect_hands(const struct loads *with, uint32_t number, const char *what) {
    uint64_t answer = number == 0 ? 7 : (uint64_t)number << 32;
    for (size_t kind = PLANNER_FREE; kind <= PLANNER_BALANCED; kind++) {
        expect_of(kind, hand_plan(kind, plan, 7, with) == answer, what);
    }
}

static void limits(void) {
    static const uint8_t three_used[4] = {1, 2, 3, 0};
    struct loads with = fitting;
    expect_hands(&with, 0, "sums equal to their limits");
    with.kilogram_limits[1] = 14;
    expect_hands(&with, PLANNER_REFUSED_KILOGRAMS, "a kilogram too many at site 2");
    with.litre_limits[0] = 4;
    expect_hands(&with, PLANNER_REFUSED_LITRES, "a litre too many at site 1 and a kilogram too many at site 2");
    with.kilogram_limits[0] = 10;
    expect_hands(&with, PLANNER_REFUSED_KILOGRAMS, "both too many at site 1");
    with = fitting, with.litre_limits[1] = 6;
    expect_hands(&with, PLANNER_REFUSED_LITRES, "a litre too many at site 2");
    expect_refusal(free_hand_plan(plan, 6, &with), 23, "a litre too many before another total");
    expect_refusal(free_hand_plan(plan, 6, &fitting), 19, "another total where all fits");
    expect_refusal(free_hand_plan(three_used, 5, &fitting), 18, "three sites before a kilogram too many at site 3");
}

static void greatest_loads(void) {
    static const uint8_t one_unserved[4] = {1, 1, 2, 0}, outside[4] = {1, 1, 2, 4};
    struct loads with = {{0, 0, 0, PLANNER_MOST_LOAD}, {0, 0, 0, PLANNER_MOST_LOAD}, {0, PLANNER_MOST_LOAD, 0}, {0, PLANNER_MOST_LOAD, 0}};
    expect_hands(&with, 0, "the greatest load and limit");
    with.kilogram_limits[1] = with.litre_limits[1] = 0;
    expect(free_hand_plan(one_unserved, 6, &with) == 6, "the loads of an unserved street");
    with.kilograms[3]++;
    expect_refusal(free_hand_plan(one_unserved, 6, &with), PLANNER_REFUSED_LOAD, "a load above the greatest, of an unserved street");
    with = fitting, with.litres[0] = PLANNER_MOST_LOAD + 1;
    expect_hands(&with, 21, "litres above the greatest");
    with = fitting, with.kilogram_limits[2] = PLANNER_MOST_LOAD + 1;
    expect_hands(&with, 21, "a kilogram limit above the greatest, of a site without streets");
    with = fitting, with.litre_limits[2] = UINT32_MAX;
    expect_hands(&with, 21, "a litre limit above the greatest, of a site without streets");
    expect_refusal(free_hand_plan(outside, 6, &with), 21, "a limit above the greatest before a site outside");
}

/* What buffers hold that a refused call has to leave as they were. */
static const uint8_t eights[4] = {8, 8, 8, 8};

/* The first two streets of the survey, and three sites: the balanced calls and the floor refuse, and no other. */
static void more_sites_than_streets(void) {
    static const uint8_t all[3] = {1, 2, 3}, hand[2] = {1, 3};
    uint8_t division[2] = {8, 8}, chosen[3] = {8, 8, 8};
    expect_refusal(planner_plan(2, 3, 3, PLANNER_BALANCED, scores, 3, ones, 2, rows, 6, division, 2, chosen, 3), 5,
                   "a balanced plan of two streets with K 3");
    expect_refusal(planner_plan(2, 3, 3, PLANNER_BALANCED, scores, 3, ones, 2, rows, 6, division, 1, chosen, 3), 5, "the same into one byte");
    expect_refusal(planner_plan(2, 3, 3, PLANNER_FREE, scores, 3, ones, 2, rows, 6, division, 1, chosen, 3), 6, "the free plan into one byte");
    expect_refusal(planner_balanced_division(2, 3, scores, 3, ones, 2, rows, 6, all, 3, division, 2), 5, "two streets divided over three sites");
    expect(!memcmp(division, eights, 2) && !memcmp(chosen, eights, 3), "the buffers after 5 and 6");
    expect_refusal(planner_floor(2, 3, 3, scores, 3, ones, 2, rows, 6), PLANNER_REFUSED_SHARE, "the floor of two streets with K 3");
    expect_refusal(planner_hand_plan(2, 3, 3, PLANNER_BALANCED, scores, 3, ones, 2, rows, 6, hand, 2, 3, NO_LOADS(2)), 5,
                   "a balanced hand plan of two streets with K 3");
    expect(planner_check_survey(2, 3, 3, scores, 3, ones, 2, rows, 6) == 0, "the check of two streets with K 3");
    expect(planner_plan(2, 3, 3, PLANNER_FREE, scores, 3, ones, 2, rows, 6, division, 2, chosen, 3) == 4, "the free plan of two streets with K 3");
    expect(planner_hand_plan(2, 3, 3, PLANNER_FREE, scores, 3, ones, 2, rows, 6, hand, 2, 3, NO_LOADS(2)) == 3,
           "a free hand plan of two streets with K 3");
}

/* A plan of another kind: 3 is tried before 4, and 4 before 5 and 6. */
static void plan_of_another_kind(size_t kind) {
    uint8_t division[4], chosen[4];
    memcpy(division, eights, 4), memcpy(chosen, eights, 4);
    expect_of(kind, refused(planner_plan(4, 3, 2, kind, scores, 3, ones, 4, rows, 12, division, 4, chosen, 2), PLANNER_REFUSED_KIND), "a plan");
    expect_of(kind, refused(planner_plan(4, 3, 4, kind, scores, 3, ones, 4, rows, 12, division, 4, chosen, 4), 3), "a plan with K 4");
    expect_of(kind, refused(planner_plan(2, 3, 3, kind, scores, 3, ones, 2, rows, 6, division, 2, chosen, 3), 4), "a plan of two streets with K 3");
    expect_of(kind, refused(planner_plan(4, 3, 2, kind, scores, 3, ones, 4, rows, 12, division, 3, chosen, 2), 4), "a plan into three bytes");
    expect_of(kind, refused(planner_plan(4, 3, 2, kind, NULL, 0, NULL, 0, NULL, 0, NULL, 0, NULL, 0), 4), "a plan without buffers");
    expect_of(kind, !memcmp(division, eights, 4) && !memcmp(chosen, eights, 4), "the buffers of a plan");
}

/* The same for a hand plan; the memory that it is lent could be written. */
static void hand_plan_of_another_kind(size_t kind) {
    struct loads with = fitting;
    uint8_t hand[4];
    memcpy(hand, plan, 4);
    expect_of(kind, refused(hand_plan(kind, hand, 7, &with), PLANNER_REFUSED_KIND), "a hand plan");
    expect_of(kind, !memcmp(hand, plan, 4) && !memcmp(&with, &fitting, sizeof with), "the buffers of a hand plan");
    expect_of(kind, refused(planner_hand_plan(4, 3, 4, kind, scores, 3, ones, 4, rows, 12, plan, 4, 7, NO_LOADS(4)), 3), "a hand plan with K 4");
    expect_of(kind, refused(planner_hand_plan(2, 3, 3, kind, scores, 3, ones, 2, rows, 6, plan, 2, 3, NO_LOADS(2)), 4),
              "a hand plan of two streets with K 3");
    expect_of(kind, refused(planner_hand_plan(4, 3, 2, kind, scores, 3, ones, 4, rows, 12, plan, 3, 7, NO_LOADS(4)), 4),
              "a hand plan of three bytes");
    expect_of(kind, refused(planner_hand_plan(4, 3, 2, kind, NULL, 0, NULL, 0, NULL, 0, NULL, 0, 7, NULL, 0, NULL, 0, NULL, 0, NULL, 0), 4),
              "a hand plan without buffers");
}

/* Numbers that are no kind, some of which are one in their low 8, 16 or 32 bits. */
static void other_kinds(void) {
    static const size_t kinds[] = {2, 3, 255, 256, 257, 65536, 65537, (size_t)1 << 32, ((size_t)1 << 32) + 1, (size_t)-1};
    for (size_t i = 0; i < sizeof kinds / sizeof kinds[0]; i++) {
        plan_of_another_kind(kinds[i]);
        hand_plan_of_another_kind(kinds[i]);
    }
}

static void numbers(void) {
    expect(planner_check_survey(4, 3, 2, scores, 3, ones, 4, rows, 12) == 0, "the check");
    expect(planner_ranked_part(rows + 6, 3) == 2, "the ranked part");
    expect(planner_row_score(3, scores, 3, 1, rows + 9, 3, 2) == 1, "the row's score");
    expect(planner_list_total(4, 3, scores, 3, ones, 4, rows, 12, sites, 2) == 7, "the list's total");
    expect(planner_floor(4, 3, 2, scores, 3, ones, 4, rows, 12) == 2, "the floor");
    expect(planner_version() == PLANNER_VERSION, "the version");
}

/* With a weight of 9 street 4 has its first site chosen first: other sites, other streets for them, and totals by counted score. */
static void weighted_plans(void) {
    static const uint8_t wanted[2] = {3, 1}, to_best[4] = {1, 1, 1, 3}, in_shares[4] = {1, 1, 3, 3};
    uint8_t division[4] = {0}, chosen[2] = {0};
    expect(planner_plan(4, 3, 2, PLANNER_FREE, scores, 3, heavy, 4, rows, 12, division, 4, chosen, 2) == 23, "the weighted total, free");
    expect(!memcmp(division, to_best, 4) && !memcmp(chosen, wanted, 2), "the weighted plan, free");
    expect(planner_plan(4, 3, 2, PLANNER_BALANCED, scores, 3, heavy, 4, rows, 12, division, 4, chosen, 2) == 22, "the weighted total, balanced");
    expect(!memcmp(division, in_shares, 4) && !memcmp(chosen, wanted, 2), "the weighted plan, balanced");
    expect(planner_free_division(4, 3, scores, 3, heavy, 4, rows, 12, wanted, 2, division, 4) == 23, "the weighted total of a free division");
    expect(!memcmp(division, to_best, 4), "the weighted free division");
    expect(planner_balanced_division(4, 3, scores, 3, heavy, 4, rows, 12, wanted, 2, division, 4) == 22,
           "the weighted total of a balanced division");
    expect(!memcmp(division, in_shares, 4), "the weighted balanced division");
    expect(planner_hand_plan(4, 3, 2, PLANNER_BALANCED, scores, 3, heavy, 4, rows, 12, in_shares, 4, 22, NO_LOADS(4)) == 22,
           "the weighted plan as a hand plan");
    expect_refusal(planner_hand_plan(4, 3, 2, PLANNER_BALANCED, scores, 3, heavy, 4, rows, 12, in_shares, 4, 6, NO_LOADS(4)), 19,
                   "the total without weights, claimed");
}

/* The floor counts by the smallest weight, a row's score by the one that is given. */
static void weighted_numbers(void) {
    static const uint8_t greatest[4] = {99, 99, 99, 99}, smallest_two[4] = {3, 2, 4, 99};
    expect(planner_list_total(4, 3, scores, 3, heavy, 4, rows, 12, sites, 2) == 15, "the list's weighted total");
    expect(planner_list_total(4, 3, scores, 3, greatest, 4, rows, 12, sites, 2) == 7 * PLANNER_TOP_WEIGHT, "the same by the greatest weight");
    expect(planner_floor(4, 3, 2, scores, 3, heavy, 4, rows, 12) == 2, "the floor with a smallest weight of 1");
    expect(planner_floor(4, 3, 2, scores, 3, smallest_two, 4, rows, 12) == 4, "the floor with a smallest weight of 2");
    expect(planner_row_score(3, scores, 3, 9, rows + 9, 3, 2) == 9, "a row's score with a weight of 9");
    expect(planner_row_score(3, scores, 3, 99, rows + 9, 3, 3) == 198, "a row's score with the greatest weight");
    expect_refusal(planner_row_score(3, scores, 3, 0, rows + 9, 3, 2), PLANNER_REFUSED_WEIGHT, "a row's score with a weight of 0");
    expect_refusal(planner_row_score(3, scores, 3, 100, rows + 9, 3, 2), 24, "a row's score with a weight of 100");
}

/* Every call that is given a survey, with these scores, weights and rows: it refuses with this number and writes nothing. */
static void expect_everywhere(const uint16_t s[3], const uint8_t *weights, size_t length, const uint8_t r[12], uint32_t number,
                              const char *what) {
    uint8_t division[4], chosen[2];
    memcpy(division, eights, 4), memcpy(chosen, eights, 2);
    expect_refusal(planner_check_survey(4, 3, 2, s, 3, weights, length, r, 12), number, what);
    expect_refusal(planner_list_total(4, 3, s, 3, weights, length, r, 12, sites, 2), number, what);
    expect_refusal(planner_free_division(4, 3, s, 3, weights, length, r, 12, sites, 2, division, 4), number, what);
    expect_refusal(planner_balanced_division(4, 3, s, 3, weights, length, r, 12, sites, 2, division, 4), number, what);
    expect_refusal(planner_floor(4, 3, 2, s, 3, weights, length, r, 12), number, what);
    for (size_t kind = PLANNER_FREE; kind <= PLANNER_BALANCED; kind++) {
        expect_refusal(planner_plan(4, 3, 2, kind, s, 3, weights, length, r, 12, division, 4, chosen, 2), number, what);
        expect_refusal(planner_hand_plan(4, 3, 2, kind, s, 3, weights, length, r, 12, plan, 4, 7, NO_LOADS(4)), number, what);
    }
    expect(!memcmp(division, eights, 4) && !memcmp(chosen, eights, 2), what);
}

static void wrong_weights(void) {
    static const uint16_t rising[3] = {2, 1, 2};
    static const uint8_t none[4] = {1, 1, 1, 0}, hundred[4] = {100, 1, 1, 1}, five[5] = {1, 1, 1, 1, 1};
    static const uint8_t outside[12] = {4, 2, 3, 1, 3, 2, 2, 1, 0, 3, 2, 1};
    expect_everywhere(scores, NULL, 0, rows, 6, "no weights");
    expect_everywhere(scores, ones, 3, rows, 6, "three weights");
    expect_everywhere(scores, five, 5, rows, 6, "five weights");
    expect_everywhere(rising, none, 3, rows, 6, "three weights before a score that rises");
    expect_everywhere(scores, none, 4, rows, 24, "a last weight of 0");
    expect_everywhere(scores, hundred, 4, rows, 24, "a first weight of 100");
    expect_everywhere(rising, none, 4, rows, 8, "a score that rises before a weight of 0");
    expect_everywhere(scores, none, 4, outside, 24, "a weight of 0 before a site outside");
    expect_everywhere(scores, ones, 4, outside, 10, "a site outside");
}

/* A null pointer with length 0 for each buffer of the calls that only read. */
static void null_read(void) {
    expect(planner_ranked_part(NULL, 0) == 0, "the ranked part of no bytes");
    expect_refusal(planner_check_survey(4, 3, 2, NULL, 0, ones, 4, rows, 12), 6, "the check without scores");
    expect_refusal(planner_check_survey(4, 3, 2, scores, 3, ones, 4, NULL, 0), 6, "the check without rows");
    expect_refusal(planner_row_score(3, NULL, 0, 1, rows, 3, 2), 6, "the row's score without scores");
    expect_refusal(planner_row_score(3, scores, 3, 1, NULL, 0, 2), 6, "the row's score without a row");
    expect_refusal(planner_list_total(4, 3, NULL, 0, ones, 4, rows, 12, sites, 2), 6, "the list's total without scores");
    expect_refusal(planner_list_total(4, 3, scores, 3, ones, 4, NULL, 0, sites, 2), 6, "the list's total without rows");
    expect_refusal(planner_list_total(4, 3, scores, 3, ones, 4, rows, 12, NULL, 0), 3, "the list's total without sites");
    expect_refusal(planner_floor(4, 3, 2, NULL, 0, ones, 4, rows, 12), 6, "the floor without scores");
    expect_refusal(planner_floor(4, 3, 2, scores, 3, ones, 4, NULL, 0), 6, "the floor without rows");
}

static void null_hand_plans(size_t kind) {
    expect_of(kind, refused(planner_hand_plan(4, 3, 2, kind, NULL, 0, ones, 4, rows, 12, plan, 4, 7, NO_LOADS(4)), 6),
              "the hand plan without scores");
    expect_of(kind, refused(planner_hand_plan(4, 3, 2, kind, scores, 3, ones, 4, NULL, 0, plan, 4, 7, NO_LOADS(4)), 6),
              "the hand plan without rows");
    expect_of(kind, refused(planner_hand_plan(4, 3, 2, kind, scores, 3, ones, 4, rows, 12, NULL, 0, 7, NO_LOADS(4)), 6),
              "the hand plan without a division");
}

/* Each buffer of loads and limits empty, and one number short. */
static void other_lengths_of_loads(size_t kind) {
    static const size_t lengths[8][4] = {{0, 4, 3, 3}, {4, 0, 3, 3}, {4, 4, 0, 3}, {4, 4, 3, 0},
                                         {3, 4, 3, 3}, {4, 3, 3, 3}, {4, 4, 2, 3}, {4, 4, 3, 2}};
    for (int i = 0; i < 8; i++) {
        const size_t *l = lengths[i];
        const uint32_t *kilograms = l[0] ? nothing : NULL, *litres = l[1] ? nothing : NULL;
        const uint32_t *kilogram_limits = l[2] ? most : NULL, *litre_limits = l[3] ? most : NULL;
        uint64_t answer = planner_hand_plan(4, 3, 2, kind, scores, 3, ones, 4, rows, 12, plan, 4, 7, kilograms, l[0], litres, l[1],
                                            kilogram_limits, l[2], litre_limits, l[3]);
        expect_of(kind, refused(answer, 6), "the hand plan with too few loads or limits");
    }
}

static void null_divisions(void) {
    uint8_t division[4];
    expect_refusal(planner_free_division(4, 3, NULL, 0, ones, 4, rows, 12, sites, 2, division, 4), 6, "the free division without scores");
    expect_refusal(planner_free_division(4, 3, scores, 3, ones, 4, NULL, 0, sites, 2, division, 4), 6, "the free division without rows");
    expect_refusal(planner_free_division(4, 3, scores, 3, ones, 4, rows, 12, NULL, 0, division, 4), 3, "the free division without sites");
    expect_refusal(planner_free_division(4, 3, scores, 3, ones, 4, rows, 12, sites, 2, NULL, 0), 6, "the free division into no bytes");
    expect_refusal(planner_balanced_division(4, 3, NULL, 0, ones, 4, rows, 12, sites, 2, division, 4), 6, "the balanced division without scores");
    expect_refusal(planner_balanced_division(4, 3, scores, 3, ones, 4, NULL, 0, sites, 2, division, 4), 6, "the balanced division without rows");
    expect_refusal(planner_balanced_division(4, 3, scores, 3, ones, 4, rows, 12, NULL, 0, division, 4), 3, "the balanced division without sites");
    expect_refusal(planner_balanced_division(4, 3, scores, 3, ones, 4, rows, 12, sites, 2, NULL, 0), 6, "the balanced division into no bytes");
}

static void null_plans(size_t kind) {
    uint8_t division[4], chosen[2];
    expect_of(kind, refused(planner_plan(4, 3, 2, kind, NULL, 0, ones, 4, rows, 12, division, 4, chosen, 2), 6), "the plan without scores");
    expect_of(kind, refused(planner_plan(4, 3, 2, kind, scores, 3, ones, 4, NULL, 0, division, 4, chosen, 2), 6), "the plan without rows");
    expect_of(kind, refused(planner_plan(4, 3, 2, kind, scores, 3, ones, 4, rows, 12, NULL, 0, chosen, 2), 6), "the plan without a division");
    expect_of(kind, refused(planner_plan(4, 3, 2, kind, scores, 3, ones, 4, rows, 12, division, 4, NULL, 0), 6), "the plan without chosen sites");
}

static void texts(void) {
    const char *none = "no refusal has this number";
    expect(!strcmp(planner_refusal_text(PLANNER_ACCEPTED), "accepted"), "the text of 0");
    for (uint32_t number = 1; number <= 25; number++) {
        expect(strcmp(planner_refusal_text(number), none), "a text for each number");
    }
    expect(!strcmp(planner_refusal_text(26), none) && !strcmp(planner_refusal_text(UINT32_MAX), none), "the text of other numbers");
    uint64_t answer = planner_floor(0, 3, 2, scores, 3, ones, 4, rows, 12);
    expect(!strcmp(planner_refusal_text(planner_refusal(answer)),
                   "number of streets outside 1 to 400: plan a larger town in parts"), "the text of 1");
}

int main(void) {
    for (size_t kind = PLANNER_FREE; kind <= PLANNER_BALANCED; kind++) {
        plans(kind);
        kinds_apart(kind);
        null_hand_plans(kind);
        other_lengths_of_loads(kind);
        null_plans(kind);
    }
    other_kinds();
    divisions();
    uneven_shares();
    limits();
    greatest_loads();
    more_sites_than_streets();
    numbers();
    weighted_plans();
    weighted_numbers();
    wrong_weights();
    null_read();
    null_divisions();
    texts();
    return differences;
}
