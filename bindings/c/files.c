/*
 * The writer, the reader and the converter of survey files from C, in both forms: on the worked surveys P1 and P5, and on each file
 * whose name is an argument. Prints what differs and ends with 1, or ends with 0.
 */
#include "expect.h"

/* P5, n 2, m 2, K 2, balanced, in the old form and in the new one: TW for TN, and HW with two weights between SC and ST. */
static const uint8_t old_p5[28] = {'T', 'N', 2, 0, 2, 2, 1, 'S', 'C', 2, 0, 1, 0, 'S', 'T', 1, 0, 2, 1, 2, 'S', 'T', 2, 0, 1, 1, 'E', 'N'};
static const uint8_t new_p5[32] = {'T', 'W', 2, 0, 2, 2, 1, 'S', 'C', 2, 0, 1, 0, 'H', 'W', 1, 1,
                                   'S', 'T', 1, 0, 2, 1, 2, 'S', 'T', 2, 0, 1, 1, 'E', 'N'};
enum { WEIGHT_AT = 16, SITE_AT = 29 }; /* in the new one: the weight of street 2, and the site that it has ranked */

/* Every number but 0 stands for the new form, also one that is 0 in its low 8, 16 or 32 bits. */
static const size_t new_forms[] = {PLANNER_NEW_FORM, 2, 256, 65536, (size_t)1 << 32, (size_t)-1};
enum { NEW_FORMS = sizeof new_forms / sizeof new_forms[0] };

/* What the reader fills, and a file that is written. All bytes of both are `OLD` before a call. */
struct survey {
    size_t n, m, k, kind, form;
    uint16_t scores[PLANNER_SCORES_LENGTH];
    uint8_t weights[PLANNER_WEIGHTS_LENGTH], rows[PLANNER_ROWS_LENGTH];
};
static struct survey town, town_before;
static uint8_t file[PLANNER_FILE_LENGTH + 1], file_before[PLANNER_FILE_LENGTH + 1];
enum { OLD = 0x5a };

static void clear(void) {
    memset(&town, OLD, sizeof town), memset(&town_before, OLD, sizeof town);
    memset(file, OLD, sizeof file), memset(file_before, OLD, sizeof file);
}

/* The buffers hold what they held. */
static void expect_unchanged(const char *what) {
    expect(!memcmp(&town, &town_before, sizeof town) && !memcmp(file, file_before, sizeof file), what);
}

/* The file that was written has this length and these bytes, and no byte behind it was changed. */
static void expect_file(uint64_t answer, const uint8_t *bytes, size_t length, const char *what) {
    expect(answer == length && !memcmp(file, bytes, length), what);
    expect(!memcmp(file + length, file_before + length, sizeof file - length), what);
}

static uint64_t read_town(const uint8_t *bytes, size_t length) {
    return planner_read_file(bytes, length, &town.n, &town.m, &town.k, &town.kind, &town.form, town.scores, PLANNER_SCORES_LENGTH,
                             town.weights, PLANNER_WEIGHTS_LENGTH, town.rows, PLANNER_ROWS_LENGTH);
}

/* Writes what was read in a form, into this many bytes. */
static uint64_t write_town(size_t form, size_t length) {
    return planner_write_file(town.n, town.m, town.k, town.kind, form, town.scores, town.m, town.weights, town.n, town.rows, town.n * town.m,
                              file, length);
}

/* P1, balanced, written and read in a form, with these weights: the survey comes back, and no entry behind it was changed. */
static void written_and_read(size_t form, const uint8_t weights[4], size_t length) {
    static uint8_t written[PLANNER_FILE_LENGTH];
    uint64_t answer = planner_write_file(4, 3, 2, PLANNER_BALANCED, form, scores, 3, weights, 4, rows, 12, written, length);
    expect(answer == length, "the file's length, in as many bytes");
    clear();
    expect(read_town(written, length) == 0, "the reading");
    expect(town.n == 4 && town.m == 3 && town.k == 2 && town.kind == PLANNER_BALANCED, "the sizes read");
    expect(town.form == (form == 0 ? PLANNER_OLD_FORM : PLANNER_NEW_FORM), "the form read");
    expect(!memcmp(town.scores, scores, sizeof scores) && !memcmp(town.weights, weights, 4) && !memcmp(town.rows, rows, 12), "what was read");
    expect(!memcmp(town.scores + 3, town_before.scores + 3, sizeof town.scores - sizeof scores), "the scores behind");
    expect(!memcmp(town.weights + 4, town_before.weights + 4, sizeof town.weights - 4), "the weights behind");
    expect(!memcmp(town.rows + 12, town_before.rows + 12, sizeof town.rows - 12), "the rows behind");
    expect_file(write_town(town.form, length), written, length, "what was read, written again");
}

static void forms(void) {
    written_and_read(PLANNER_OLD_FORM, ones, 48);
    for (size_t i = 0; i < NEW_FORMS; i++) {
        written_and_read(new_forms[i], ones, 54);
        written_and_read(new_forms[i], heavy, 54);
    }
}

/* P5 in each form converted into each form, by every number of the new one. */
static void conversions(void) {
    clear();
    expect_file(planner_convert_file(old_p5, 28, PLANNER_OLD_FORM, file, 28), old_p5, 28, "old P5 in the old form");
    clear();
    expect_file(planner_convert_file(new_p5, 32, PLANNER_OLD_FORM, file, sizeof file), old_p5, 28, "new P5 in the old form");
    for (size_t i = 0; i < NEW_FORMS; i++) {
        clear();
        expect_file(planner_convert_file(old_p5, 28, new_forms[i], file, sizeof file), new_p5, 32, "old P5 in the new form");
        clear();
        expect_file(planner_convert_file(new_p5, 32, new_forms[i], file, 32), new_p5, 32, "new P5 in the new form");
    }
}

/* P5 in the new form with this weight of street 2 and this site in its list. */
static const uint8_t *p5_with(uint8_t weight, uint8_t site) {
    static uint8_t bytes[sizeof new_p5 + 1];
    memcpy(bytes, new_p5, sizeof new_p5);
    bytes[WEIGHT_AT] = weight, bytes[SITE_AT] = site;
    return bytes;
}

/* 25 comes after all that is wrong with the file, and before 7. */
static void lost_weights(void) {
    static const uint8_t none[4] = {1, 1, 1, 0}, outside[12] = {1, 2, 3, 1, 3, 2, 2, 1, 0, 3, 2, 4};
    const size_t old = PLANNER_OLD_FORM, all = sizeof file;
    clear();
    expect_refusal(planner_write_file(4, 3, 2, 0, old, scores, 3, heavy, 4, rows, 12, file, all), PLANNER_REFUSED_LOST_WEIGHT,
                   "a lost weight, written");
    expect_refusal(planner_write_file(4, 3, 2, 0, old, scores, 3, heavy, 4, rows, 12, NULL, 0), 25, "a lost weight before no bytes, written");
    expect_refusal(planner_write_file(4, 3, 2, 0, old, scores, 3, heavy, 4, outside, 12, file, all), 10, "a site outside before a lost weight");
    expect_refusal(planner_write_file(4, 3, 2, 0, old, scores, 3, none, 4, rows, 12, file, all), 24, "a weight of 0, written");
    expect_refusal(planner_convert_file(p5_with(2, 1), 32, old, file, all), 25, "a lost weight, converted");
    expect_refusal(planner_convert_file(p5_with(2, 1), 32, old, NULL, 0), 25, "a lost weight before no bytes, converted");
    expect_refusal(planner_convert_file(p5_with(2, 3), 32, old, file, all), 10, "a site outside before a lost weight, converted");
    expect_refusal(planner_convert_file(p5_with(2, 1), 33, old, file, all), 16, "a byte behind the end before a lost weight");
    expect_refusal(planner_convert_file(p5_with(0, 1), 32, old, file, all), 24, "a weight of 0, converted");
    expect_refusal(planner_convert_file(p5_with(100, 1), 32, PLANNER_NEW_FORM, file, all), 24, "a weight of 100 in a file that is not to change");
    expect_unchanged("the buffer after lost weights");
}

/* A buffer that is one byte short, of a file that is written, converted, or already of its form. */
static void short_buffers(void) {
    clear();
    expect_refusal(planner_write_file(4, 3, 2, 0, 0, scores, 3, ones, 4, rows, 12, file, 47), PLANNER_REFUSED_FILE_BUFFER_SHORT,
                   "47 bytes, written");
    expect_refusal(planner_write_file(4, 3, 2, 0, 1, scores, 3, ones, 4, rows, 12, file, 53), 7, "53 bytes, written");
    expect_refusal(planner_convert_file(old_p5, 28, 0, file, 27), 7, "27 bytes, converted");
    expect_refusal(planner_convert_file(old_p5, 28, 1, file, 31), 7, "31 bytes, converted");
    expect_refusal(planner_convert_file(new_p5, 32, 0, file, 27), 7, "27 bytes, converted from the new form");
    expect_refusal(planner_convert_file(new_p5, 32, 1, file, 31), 7, "31 bytes, converted from the new form");
    expect_unchanged("the buffer that is too short");
}

/* Every beginning of P5's file in a form, and the file with one byte more. */
static void other_lengths(const uint8_t *bytes, size_t length) {
    static uint8_t longer[sizeof new_p5 + 1];
    clear();
    for (size_t end = 0; end < length; end++) {
        expect_refusal(read_town(bytes, end), PLANNER_REFUSED_FILE_ENDS, "the reading of a beginning");
        expect_refusal(planner_convert_file(bytes, end, 0, file, sizeof file), 12, "a beginning in the old form");
        expect_refusal(planner_convert_file(bytes, end, 1, file, sizeof file), 12, "a beginning in the new form");
    }
    memcpy(longer, bytes, length);
    expect_refusal(read_town(longer, length + 1), 16, "the reading of one byte more");
    expect_refusal(planner_convert_file(longer, length + 1, 0, file, sizeof file), 16, "one byte more in the old form");
    expect_refusal(planner_convert_file(longer, length + 1, 1, file, sizeof file), 16, "one byte more in the new form");
    expect_unchanged("the buffers after files of other lengths");
}

/* Records where they do not belong: P5's file in each form under the first mark of the other. */
static void other_marks(void) {
    uint8_t weighted[sizeof new_p5], plain[sizeof old_p5];
    memcpy(weighted, new_p5, sizeof weighted), memcpy(plain, old_p5, sizeof plain);
    weighted[1] = 'N', plain[1] = 'W';
    clear();
    expect_refusal(read_town(weighted, sizeof weighted), PLANNER_REFUSED_MARK, "weights in a file of the old form");
    expect_refusal(read_town(plain, sizeof plain), 13, "no weights in a file of the new form");
    expect_refusal(planner_convert_file(weighted, sizeof weighted, 1, file, sizeof file), 13, "the first of these, converted");
    expect_refusal(planner_convert_file(plain, sizeof plain, 1, file, sizeof file), 13, "the second, converted");
    expect_unchanged("the buffers after other marks");
}

/* The reader's buffers of other lengths, which it tries before the file; a null pointer for each that is empty. */
static void other_buffers(void) {
    static const size_t lengths[9][3] = {{0, 400, 25600}, {63, 400, 25600}, {65, 400, 25600}, {64, 0, 25600}, {64, 399, 25600},
                                         {64, 401, 25600}, {64, 400, 0}, {64, 400, 25599}, {64, 400, 25601}};
    clear();
    for (int i = 0; i < 9; i++) {
        const size_t *l = lengths[i];
        uint16_t *into_scores = l[0] ? town.scores : NULL;
        uint8_t *into_weights = l[1] ? town.weights : NULL, *into_rows = l[2] ? town.rows : NULL;
        uint64_t answer = planner_read_file(new_p5, 31, &town.n, &town.m, &town.k, &town.kind, &town.form, into_scores, l[0], into_weights,
                                            l[1], into_rows, l[2]);
        expect_refusal(answer, 6, "the reading into a buffer of another length");
    }
    expect_unchanged("the reader's buffers of other lengths");
}

/* A null pointer with length 0 for each other buffer. */
static void null_buffers(void) {
    clear();
    for (size_t form = PLANNER_OLD_FORM; form <= PLANNER_NEW_FORM; form++) {
        expect_refusal(planner_write_file(4, 3, 2, 0, form, NULL, 0, ones, 4, rows, 12, file, 54), 6, "the writing without scores");
        expect_refusal(planner_write_file(4, 3, 2, 0, form, scores, 3, NULL, 0, rows, 12, file, 54), 6, "the writing without weights");
        expect_refusal(planner_write_file(4, 3, 2, 0, form, scores, 3, ones, 4, NULL, 0, file, 54), 6, "the writing without rows");
        expect_refusal(planner_write_file(4, 3, 2, 0, form, scores, 3, ones, 4, rows, 12, NULL, 0), 7, "the writing into no bytes");
        expect_refusal(planner_convert_file(NULL, 0, form, file, sizeof file), 12, "the converting of no bytes");
        expect_refusal(planner_convert_file(old_p5, 28, form, NULL, 0), 7, "the converting into no bytes");
    }
    expect_refusal(read_town(NULL, 0), 12, "the reading of no bytes");
    expect_unchanged("the buffers beside empty ones");
}

/* The kind is tried, and a balanced survey of more sites than streets is written, which no plan is made of. */
static void kinds(void) {
    static uint8_t room[37];
    for (size_t form = PLANNER_OLD_FORM; form <= PLANNER_NEW_FORM; form++) {
        expect_refusal(planner_write_file(4, 3, 2, 2, form, scores, 3, ones, 4, rows, 12, NULL, 0), 4, "the writing of kind 2");
        uint64_t answer = planner_write_file(2, 3, 3, PLANNER_BALANCED, form, scores, 3, ones, 2, rows, 6, room, 37);
        expect(answer == (form == PLANNER_OLD_FORM ? 33 : 37), "the writing of two streets with K 3");
    }
}

/* Whether a file of the old form would lose a weight of the town that was read. */
static int loses_weight(void) {
    for (size_t i = 0; i < town.n; i++) {
        if (town.weights[i] != 1) {
            return 1;
        }
    }
    return 0;
}

/* A file that comes out of the converter in its own form as it is, and back from the other form as it was; what differs is named. */
static void there_and_back(const uint8_t *bytes, size_t length, const char *name) {
    static uint8_t other[PLANNER_FILE_LENGTH];
    clear();
    expect(read_town(bytes, length) == 0, name);
    size_t form = town.form, other_form = form == PLANNER_OLD_FORM ? PLANNER_NEW_FORM : PLANNER_OLD_FORM;
    int loses = other_form == PLANNER_OLD_FORM && loses_weight();
    expect_file(write_town(form, length), bytes, length, name);
    clear();
    expect_file(planner_convert_file(bytes, length, form, file, length), bytes, length, name);
    clear();
    uint64_t answer = planner_convert_file(bytes, length, other_form, other, sizeof other);
    if (loses) {
        expect_refusal(answer, 25, name);
        return;
    }
    expect(planner_refusal(answer) == 0 && read_town(other, planner_total(answer)) == 0 && town.form == other_form, name);
    expect_file(planner_convert_file(other, planner_total(answer), form, file, sizeof file), bytes, length, name);
}

/* The same for the file of a name. */
static void named_file(const char *name) {
    static uint8_t bytes[PLANNER_FILE_LENGTH + 1];
    FILE *survey = fopen(name, "rb");
    if (!survey) {
        expect(0, name);
        return;
    }
    size_t length = fread(bytes, 1, sizeof bytes, survey);
    expect(!ferror(survey) && length <= PLANNER_FILE_LENGTH, name);
    fclose(survey);
    there_and_back(bytes, length, name);
}

int main(int argc, char **argv) {
    forms();
    conversions();
    lost_weights();
    short_buffers();
    other_lengths(old_p5, sizeof old_p5);
    other_lengths(new_p5, sizeof new_p5);
    other_marks();
    other_buffers();
    null_buffers();
    kinds();
    there_and_back(old_p5, sizeof old_p5, "old P5, there and back");
    there_and_back(new_p5, sizeof new_p5, "new P5, there and back");
    there_and_back(p5_with(2, 1), sizeof new_p5, "new P5 with a weight of 2, in its own form");
    for (int i = 1; i < argc; i++) {
        named_file(argv[i]);
    }
    return differences;
}
