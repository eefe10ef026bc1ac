/*
 * The faults of the stack test, put into the first of its towns: 400 streets, 64 sites and 50 of them to choose, with full lists.
 * Each is put into all that the calls are lent, the survey file too, so that every call that can meet it refuses alike.
 */

/* Where things stand in that file, which has the new form: the fields of TW, the scores, the weights, the first list, and in the last
 * street's record its number, its list's length and the last site listed. */
enum { STREETS_AT = 2, SITES_AT = 4, CHOOSE_AT = 5, KIND_AT = 6, SCORES_AT = 9, WEIGHTS_AT = 139, FIRST_LIST_AT = 544 };
#define LAST_MARK_AT (file_len - 2)
#define LAST_SITE_AT (LAST_MARK_AT - 1)
#define LAST_LENGTH_AT (LAST_MARK_AT - 65)
#define LAST_STREET_AT (LAST_MARK_AT - 67)

static void no_streets(void) {
    n = 0;
    file[STREETS_AT] = file[STREETS_AT + 1] = 0;
}

static void too_many_streets(void) {
    n = 401;
    file[STREETS_AT] = 401 % 256, file[STREETS_AT + 1] = 401 / 256;
}

static void no_sites(void) {
    m = 0, file[SITES_AT] = 0;
}

static void too_many_sites(void) {
    m = 65, file[SITES_AT] = 65;
}

static void none_to_choose(void) {
    k = sites_len = 0, file[CHOOSE_AT] = 0;
}

static void too_many_to_choose(void) {
    k = sites_len = 65, file[CHOOSE_AT] = 65;
}

static void unknown_kind(void) {
    kind = 2, file[KIND_AT] = 2;
}

static void streets_too_few(void) {
    n = weights_len = division_len = kilograms_len = litres_len = 49, rows_len = n * m;
}

static void scores_short(void) {
    scores_len--, read_scores_len--;
}

static void weights_short(void) {
    weights_len--, read_weights_len--;
}

static void rows_short(void) {
    rows_len--, row_len--, read_rows_len--;
}

static void division_long(void) {
    division_len++;
}

static void chosen_long(void) {
    chosen_len++;
}

static void kilograms_short(void) {
    kilograms_len--;
}

static void litres_short(void) {
    litres_len--;
}

static void kilogram_limits_short(void) {
    kilogram_limits_len--;
}

static void litre_limits_short(void) {
    litre_limits_len--;
}

static void written_short(void) {
    written_len--, converted_len--;
}

static void first_score_high(void) {
    scores[0] = 1001;
    file[SCORES_AT] = 1001 % 256, file[SCORES_AT + 1] = 1001 / 256;
}

static void last_score_rises(void) {
    scores[63] = 256;
    file[SCORES_AT + 126] = 0, file[SCORES_AT + 127] = 1;
}

static void first_weight_nothing(void) {
    weights[0] = weight = file[WEIGHTS_AT] = 0;
}

static void last_weight_high(void) {
    weights[n - 1] = weight = file[WEIGHTS_AT + n - 1] = PLANNER_TOP_WEIGHT + 1;
}

static void old_form(void) {
    form = wanted = PLANNER_OLD_FORM;
}

static void last_weight_lost(void) {
    memset(weights, 1, n - 1), memset(file + WEIGHTS_AT, 1, n - 1);
    old_form();
}

static void gap_in_last_row(void) {
    rows[n * m - 2] = row[m - 2] = 0;
}

static void first_site_high(void) {
    rows[0] = row[0] = file[FIRST_LIST_AT] = 65;
}

static void last_site_high(void) {
    rows[n * m - 1] = row[m - 1] = file[LAST_SITE_AT] = 65;
}

static void last_site_twice(void) {
    rows[n * m - 1] = row[m - 1] = file[LAST_SITE_AT] = row[0];
}

static void empty_file(void) {
    file_len = 0;
}

static void file_short(void) {
    file_len--;
}

static void first_mark_wrong(void) {
    file[0] = 'X';
}

static void last_mark_wrong(void) {
    file[LAST_MARK_AT] = 'X';
}

static void last_street_wrong(void) {
    file[LAST_STREET_AT]++;
}

static void last_list_long(void) {
    file[LAST_LENGTH_AT] = 65;
}

static void byte_after_end(void) {
    file_len++;
}

static void last_site_outside(void) {
    site = sites[k - 1] = hand[n - 1] = 65;
}

static void one_site_more(void) {
    hand[0] = 51;
}

static void claimed_more(void) {
    claimed++;
}

static void last_listed_twice(void) {
    sites[k - 1] = sites[0];
}

static void first_load_high(void) {
    kilograms[0] = PLANNER_MOST_LOAD + 1;
}

static void last_limit_high(void) {
    litre_limits[m - 1] = PLANNER_MOST_LOAD + 1;
}

static void last_kilograms_over(void) {
    kilogram_limits[k - 1]--;
}

static void last_litres_over(void) {
    litre_limits[k - 1]--;
}

/* A call meets a fault if `concerns` is a member of what it refuses. */
static const struct fault {
    const char *name;
    uint32_t refusal;
    uint64_t concerns;
    void (*put)(void);
} faults[] = {
    {"no streets", 1, NUMBER(1), no_streets},
    {"401 streets", 1, NUMBER(1), too_many_streets},
    {"no sites", 2, NUMBER(2), no_sites},
    {"65 sites", 2, NUMBER(2), too_many_sites},
    {"K 0", 3, NUMBER(3), none_to_choose},
    {"K 65", 3, NUMBER(3), too_many_to_choose},
    {"kind 2", 4, NUMBER(4), unknown_kind},
    {"49 streets for 50 sites", 5, NUMBER(5), streets_too_few},
    {"one score less", 6, NUMBER(6), scores_short},
    {"one weight less", 6, LENT_WEIGHTS, weights_short},
    {"one byte of rows less", 6, NUMBER(6), rows_short},
    {"a division of 401", 6, LENT_DIVISION, division_long},
    {"kilograms of 399 streets", 6, LENT_LOADS, kilograms_short},
    {"litres of 399 streets", 6, LENT_LOADS, litres_short},
    {"kilogram limits of 63 sites", 6, LENT_LOADS, kilogram_limits_short},
    {"litre limits of 63 sites", 6, LENT_LOADS, litre_limits_short},
    {"51 chosen sites", 6, LENT_CHOSEN, chosen_long},
    {"a file buffer one byte short", 7, NUMBER(7), written_short},
    {"first score above 1,000", 8, NUMBER(8), first_score_high},
    {"last score above the one before", 8, NUMBER(8), last_score_rises},
    {"first weight 0", 24, NUMBER(24), first_weight_nothing},
    {"last weight above 99", 24, NUMBER(24), last_weight_high},
    {"weights in the old form", 25, NUMBER(25), old_form},
    {"last weight in the old form", 25, NUMBER(25), last_weight_lost},
    {"a zero before the last site of the last row", 9, NUMBER(9), gap_in_last_row},
    {"first site 65", 10, NUMBER(10), first_site_high},
    {"last site 65", 10, NUMBER(10), last_site_high},
    {"last site like the first of its list", 11, NUMBER(11), last_site_twice},
    {"empty file", 12, NUMBER(12), empty_file},
    {"file one byte short", 12, NUMBER(12), file_short},
    {"first mark XN", 13, NUMBER(13), first_mark_wrong},
    {"last mark XN", 13, NUMBER(13), last_mark_wrong},
    {"last street out of turn", 14, NUMBER(14), last_street_wrong},
    {"last list of 65", 15, NUMBER(15), last_list_long},
    {"a byte after EN", 16, NUMBER(16), byte_after_end},
    {"last site of the list or plan 65", 17, NUMBER(17), last_site_outside},
    {"a hand plan of 51 sites", 18, NUMBER(18), one_site_more},
    {"claimed total one more", 19, NUMBER(19), claimed_more},
    {"last of the list like the first", 20, NUMBER(20), last_listed_twice},
    {"first load above 1,000,000", 21, NUMBER(21), first_load_high},
    {"last limit above 1,000,000", 21, NUMBER(21), last_limit_high},
    {"a kilogram too many at the last site used", 22, NUMBER(22), last_kilograms_over},
    {"a litre too many at the last site used", 23, NUMBER(23), last_litres_over},
};
enum { FAULTS = sizeof faults / sizeof faults[0] };
