// The header from C++, with vectors as buffers; an empty one may lend a null pointer. Prints what differs and ends with 1, or ends with 0.
#include <cstdio>
#include <vector>

#include "planner.h"

static int differences = 0;

static void expect(bool holds, const char *what) {
    if (!holds) {
        std::printf("differs: %s\n", what);
        differences = 1;
    }
}

typedef std::vector<uint8_t> Bytes;
typedef std::vector<uint16_t> Scores;
typedef std::vector<uint32_t> Loads;

// One street, one site.
static const Scores scores(1, 5);
static const Bytes rows(1, 1), weights(1, 1), sites(1, 1);
static const Scores no_scores;
static const Bytes none;
static const Loads loads(1, 5), no_loads;

static void plans() {
    Bytes division(1), chosen(1), empty;
    uint64_t answer = planner_plan(1, 1, 1, PLANNER_FREE, scores.data(), scores.size(), weights.data(), weights.size(), rows.data(), rows.size(),
                                   division.data(), division.size(), chosen.data(), chosen.size());
    expect(planner_refusal(answer) == PLANNER_ACCEPTED && planner_total(answer) == 5 && division[0] == 1 && chosen[0] == 1, "a plan");
    answer = planner_plan(1, 1, 1, PLANNER_BALANCED, scores.data(), scores.size(), weights.data(), weights.size(), rows.data(), rows.size(),
                          empty.data(), empty.size(), chosen.data(), chosen.size());
    expect(planner_refusal(answer) == PLANNER_REFUSED_BUFFER_LENGTH, "a plan into an empty division");
    answer = planner_balanced_division(1, 1, scores.data(), scores.size(), weights.data(), weights.size(), rows.data(), rows.size(),
                                       none.data(), none.size(), division.data(), division.size());
    expect(planner_refusal(answer) == PLANNER_REFUSED_CHOSEN, "a division over no sites");
}

static void hand_plans() {
    uint64_t answer = planner_hand_plan(1, 1, 1, PLANNER_FREE, scores.data(), scores.size(), weights.data(), weights.size(), rows.data(), rows.size(),
                                        sites.data(), sites.size(), 5, loads.data(), loads.size(), loads.data(), loads.size(),
                                        loads.data(), loads.size(), loads.data(), loads.size());
    expect(planner_refusal(answer) == PLANNER_ACCEPTED && planner_total(answer) == 5, "a hand plan with loads equal to their limits");
    answer = planner_hand_plan(1, 1, 1, PLANNER_BALANCED, scores.data(), scores.size(), weights.data(), weights.size(), rows.data(), rows.size(),
                               sites.data(), sites.size(), 5, no_loads.data(), no_loads.size(), no_loads.data(), no_loads.size(),
                               no_loads.data(), no_loads.size(), no_loads.data(), no_loads.size());
    expect(planner_refusal(answer) == PLANNER_REFUSED_BUFFER_LENGTH, "a hand plan without loads");
}

static void numbers() {
    expect(planner_version() == PLANNER_VERSION, "the version");
    expect(planner_ranked_part(none.data(), none.size()) == 0, "the ranked part of an empty row");
    uint64_t answer = planner_list_total(1, 1, no_scores.data(), no_scores.size(), weights.data(), weights.size(), rows.data(), rows.size(),
                                         sites.data(), sites.size());
    expect(planner_refusal(answer) == PLANNER_REFUSED_BUFFER_LENGTH, "a total without scores");
    answer = planner_check_survey(0, 0, 0, no_scores.data(), no_scores.size(), none.data(), none.size(), none.data(), none.size());
    expect(planner_refusal(answer) == PLANNER_REFUSED_STREETS, "the check of an empty survey");
}

static void files() {
    Bytes file, read_weights(PLANNER_WEIGHTS_LENGTH), read_rows(PLANNER_ROWS_LENGTH), longer(PLANNER_FILE_LENGTH);
    Scores read_scores(PLANNER_SCORES_LENGTH);
    std::size_t n, m, k, kind, form;
    uint64_t answer = planner_read_file(file.data(), file.size(), &n, &m, &k, &kind, &form, read_scores.data(), read_scores.size(),
                                        read_weights.data(), read_weights.size(), read_rows.data(), read_rows.size());
    expect(planner_refusal(answer) == PLANNER_REFUSED_FILE_ENDS, "an empty file");
    answer = planner_convert_file(file.data(), file.size(), PLANNER_NEW_FORM, longer.data(), longer.size());
    expect(planner_refusal(answer) == PLANNER_REFUSED_FILE_ENDS, "an empty file, converted");
    answer = planner_write_file(1, 1, 1, PLANNER_FREE, PLANNER_OLD_FORM, scores.data(), scores.size(), weights.data(), weights.size(),
                                rows.data(), rows.size(), file.data(), file.size());
    expect(planner_refusal(answer) == PLANNER_REFUSED_FILE_BUFFER_SHORT, "a file into an empty buffer");
    answer = planner_write_file(1, 1, 1, PLANNER_FREE, PLANNER_NEW_FORM, scores.data(), scores.size(), weights.data(), weights.size(),
                                rows.data(), rows.size(), longer.data(), longer.size());
    expect(planner_refusal(answer) == PLANNER_ACCEPTED && planner_total(answer) == 22, "a file into a longer buffer");
    longer.resize(planner_total(answer));
    answer = planner_convert_file(longer.data(), longer.size(), PLANNER_OLD_FORM, file.data(), file.size());
    expect(planner_refusal(answer) == PLANNER_REFUSED_FILE_BUFFER_SHORT, "a file converted into an empty buffer");
}

int main() {
    plans();
    hand_plans();
    numbers();
    files();
    return differences;
}
