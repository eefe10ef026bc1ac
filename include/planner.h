/*
 * Bring-site plans: streets, sites and shares. The planner's library for C and every language that can call C.
 *
 * COMPILE AND LINK, as C99 or C++11 or later, on 64-bit x86 Linux:
 *   cc -Iinclude town.c target/staticlib/libplanner_c.a      in a clone, after `bindings/archive`, which proves the archive
 *   cc town.c $(pkg-config --cflags --libs planner)          after `bindings/install`, with the shared library
 *   cc town.c $(pkg-config --cflags planner) $(pkg-config --variable=archive planner)      the same, with the archive
 * A whole program to start from is bindings/c/plan_file.c.
 *
 * THE SURVEY. n streets (1 to 400), m sites (1 to 64), of which k are to be chosen (1 to m).
 *   scores   m numbers of 16 bits, the score of place 1 first: each 0 to 1,000 and none above the one before.
 *   weights  n bytes, the household weight of street 1 first: each 1 to 99. A street's counted score for a site is its score times
 *            its weight. Every score, total, choice and division here is by counted scores. A caller without weights lends ones.
 *   rows     n rows of m bytes, street 1 first. A row holds site numbers (1 to m), best first, none twice, then zeros. A row
 *            of zeros is an empty list. A site that a street has not ranked scores 0 for it.
 *   A site is one byte. Site 0 is no site: a street that goes to site 0 is unserved.
 *
 * SHARES. A balanced plan or division shares the n streets out over k sites, k at most n: n / k streets (rounded down) to each
 * site, and one more to each of the first n % k. In a plan these are the sites chosen first. Over a list of sites they are the
 * list's first entries, so that the order of the list counts.
 *
 * LOADS. The test of a hand-made plan is also given what each street brings in a week, and how much of it each site can take.
 *   kilograms, litres              n numbers of 32 bits each, those of street 1 first: what the street brings
 *   kilogram_limits, litre_limits  m numbers of 32 bits each, those of site 1 first: the limits of the site
 *   Every number is 0 to 1,000,000. A site's kilograms are the sum over the streets that go to it, and so are its litres; a sum
 *   equal to its limit fits. An unserved street loads no site, but its numbers are tried like the others. A caller without loads
 *   lends zeros for the streets and PLANNER_MOST_LOAD for each site.
 *
 * SURVEY FILES hold a survey with its k and its kind of plan, in one of two forms. A file of the old form opens with the mark TN
 * and has no weights: each is 1. One of the new form opens with TW and has the weights in a record HW between the scores (SC) and
 * the streets (ST); in all else the two are alike. The reader takes both and says which form it read. The writer and the converter
 * are told which form to make: 0 is the old one, and any other number the new one. They refuse with 25 to make a file of the old
 * form where some weight is not 1. A file that is read and written again in its form is the same file, and so is one that is
 * converted and converted back.
 *
 * PARAMETERS stand in one order everywhere: sizes (n, m, k, kind), form, scores, weights, rows, what the call is about, what it
 * fills. Only the reader and the converter have their file in front. Any numbers may be passed: what is wrong with them is refused.
 *
 * BUFFERS. Each is a pointer and, behind it, the number of its elements. Where that number is 0 the pointer may be null; else it
 * is aligned for its type. A buffer or number that a function writes overlaps nothing else that is lent to the same call. The five
 * numbers that the reader writes are never null.
 *
 * ANSWERS. Except for planner_ranked_part and planner_version, a function returns one 64-bit number: the total where the call is
 * accepted, else the refusal's number times 2^32. Take it apart with planner_refusal(answer), 0 where the call is accepted, and
 * planner_total(answer), 0 where it is refused. A refused call leaves every buffer and every number it was lent as it was.
 *
 * REFUSALS. A call tries those numbers that concern what it is given, in this order: 1 to 6, then 8 over the scores, 24 over the
 * weights, then the rows by street and byte, where a byte is tried for 9, 10, 11; then 21, 17, 20, 18, then site by site 22 before
 * 23, then 19, then 25, and 7 last. The order of the reader and the converter stands there. Where a call is given a list of sites,
 * 3 and 5 are about the list's length.
 *
 * A call uses no heap and keeps nothing from one call to the next: any number of threads may call at once. The stack that it needs
 * is named below, call by call.
 */
#ifndef PLANNER_H
#define PLANNER_H

#include <stddef.h>
#include <stdint.h>

#ifdef __cplusplus
extern "C" {
#endif

/* The year and the number of the last request that is in, 00 for the base. planner_version() gives that of the library linked. */
#define PLANNER_VERSION 202606

/* The greatest sizes, score and weight, and the greatest load of a street, which is also the greatest limit of a site. */
#define PLANNER_MAX_STREETS 400
#define PLANNER_MAX_SITES 64
#define PLANNER_TOP_SCORE 1000
#define PLANNER_TOP_WEIGHT 99
#define PLANNER_MOST_LOAD 1000000

/* The lengths of the buffers that hold every survey and every file, in elements; the reader's have exactly these. */
#define PLANNER_SCORES_LENGTH 64
#define PLANNER_WEIGHTS_LENGTH 400
#define PLANNER_ROWS_LENGTH 25600
#define PLANNER_FILE_LENGTH 28141

/* The kinds of plan, for a call and in a survey file. */
#define PLANNER_FREE 0
#define PLANNER_BALANCED 1

/* The forms of a survey file, as the reader gives them. */
#define PLANNER_OLD_FORM 0
#define PLANNER_NEW_FORM 1

/*
 * The bytes of stack that each call needs below its caller's frame, whatever it is lent; planner_plan and planner_hand_plan have a
 * number for each kind, and PLANNER_STACK_REFUSED is what any call needs that refuses. Measured, with 256 bytes of room at least
 * (bindings/c/stack.c), where memcpy and memset are bound when the program starts: linked with -Wl,-z,now, or statically. Where
 * they are bound at first use, that use needs more, as much as the processor's registers take: 3,184 bytes were seen with AVX-512,
 * and no test holds that. Where stack is short, link with -z now.
 */
#define PLANNER_STACK_CHECK_SURVEY 3072
#define PLANNER_STACK_RANKED_PART 512
#define PLANNER_STACK_ROW_SCORE 1024
#define PLANNER_STACK_LIST_TOTAL 61440
#define PLANNER_STACK_FREE_DIVISION 61440
#define PLANNER_STACK_BALANCED_DIVISION 291840
#define PLANNER_STACK_FREE_PLAN 61440
#define PLANNER_STACK_BALANCED_PLAN 292864
#define PLANNER_STACK_FLOOR 11264
#define PLANNER_STACK_FREE_HAND_PLAN 4096
#define PLANNER_STACK_BALANCED_HAND_PLAN 4096
#define PLANNER_STACK_WRITE_FILE 3072
#define PLANNER_STACK_READ_FILE 1536
#define PLANNER_STACK_CONVERT_FILE 1024
#define PLANNER_STACK_REFUSED 11264
#define PLANNER_STACK_MOST PLANNER_STACK_BALANCED_PLAN

/*
 * The refusals: number, name, and what is wrong and what to do about it, under those whose it is. PLANNER_REFUSALS(REFUSAL) stands
 * for REFUSAL(number, name, text) of each.
 */
#define PLANNER_REFUSALS(REFUSAL) \
    /* the planning office */ \
    REFUSAL(1, STREETS, "number of streets outside 1 to 400: plan a larger town in parts") \
    REFUSAL(2, SITES, "number of sites outside 1 to 64: list fewer sites") \
    REFUSAL(3, CHOSEN, "K, or the length of a list of sites, outside 1 to the number of sites: choose another K") \
    REFUSAL(4, KIND, "kind of plan not 0 or 1: 0 is free, 1 balanced") \
    REFUSAL(5, SHARE, "K, or a list's length, above the number of streets (balanced plan, division, hand plan, floor): choose a smaller K, or a free plan") \
    /* the calling program */ \
    REFUSAL(6, BUFFER_LENGTH, "a lent buffer of other than its exact length: lend the length that the call names") \
    REFUSAL(7, FILE_BUFFER_SHORT, "a file buffer shorter than the file: lend 28,141 bytes, the longest file") \
    /* the survey team */ \
    REFUSAL(8, SCORE, "a score above 1,000 or above the one before: put the scores in falling order") \
    REFUSAL(9, SITE_AFTER_ZERO, "a site after a zero in a row: close the gap in the list") \
    REFUSAL(10, SITE_NUMBER, "a site number above the number of sites (in a file also 0): correct the number") \
    REFUSAL(11, SITE_TWICE, "a site twice in one list: strike one of the two") \
    /* the file sender */ \
    REFUSAL(12, FILE_ENDS, "the file ends early: send it again, whole") \
    REFUSAL(13, MARK, "another mark than the one due: records come as TN, SC, ST .., EN or as TW, SC, HW, ST .., EN") \
    REFUSAL(14, STREET_NUMBER, "a street out of turn: number the streets from 1 in their order") \
    REFUSAL(15, LIST_LENGTH, "a list longer than the number of sites: correct its length") \
    REFUSAL(16, BYTES_AFTER_END, "bytes after EN: end the file there") \
    /* the sender of a hand plan or list */ \
    REFUSAL(17, SITE_OUTSIDE, "a site outside 1 to the number of sites (a free hand plan may have 0): correct the site") \
    /* the sender of a hand plan */ \
    REFUSAL(18, SITES_USED, "a free hand plan of more than K sites; a balanced one of other than K, or with shares over one street apart: move streets") \
    REFUSAL(19, CLAIMED_TOTAL, "a claimed total that is not the plan's: add it up again") \
    /* the sender of a list */ \
    REFUSAL(20, LISTED_TWICE, "a site listed twice: strike one of the two") \
    /* the sender of a hand plan */ \
    REFUSAL(21, LOAD, "a load or limit above 1,000,000: correct the number") \
    REFUSAL(22, KILOGRAMS, "a site with more kilograms than its limit: move streets") \
    REFUSAL(23, LITRES, "a site with more litres than its limit: move streets") \
    /* the survey team */ \
    REFUSAL(24, WEIGHT, "a household weight outside 1 to 99: correct the weight") \
    /* the calling program */ \
    REFUSAL(25, LOST_WEIGHT, "a weight other than 1, which a file of the old form would lose: make one of the new form")

/* PLANNER_REFUSED_STREETS is 1, and so on. */
enum planner_refusal_number {
    PLANNER_ACCEPTED = 0,
#define PLANNER_NUMBERED(number, name, text) PLANNER_REFUSED_##name = number,
    PLANNER_REFUSALS(PLANNER_NUMBERED)
#undef PLANNER_NUMBERED
};

/* The refusal's number, 1 to 25; 0 where the call is accepted. */
static inline uint32_t planner_refusal(uint64_t answer) {
    uint64_t upper = answer >> 32;
    return upper & 0xffffffffu;
}

/* The total; 0 where the call is refused. */
static inline uint32_t planner_total(uint64_t answer) {
    return answer & 0xffffffffu;
}

/* What is wrong, and what to do: one line of text for the number of a refusal. */
static inline const char *planner_refusal_text(uint32_t number) {
    switch (number) {
    case PLANNER_ACCEPTED: return "accepted";
#define PLANNER_TEXT(number, name, text) case PLANNER_REFUSED_##name: return text;
    PLANNER_REFUSALS(PLANNER_TEXT)
#undef PLANNER_TEXT
    default: return "no refusal has this number";
    }
}

/*
 * For compilers that know it: that an answer is not to be passed over, which pointers are never null, counted from 1, and that
 * what is written through a pointer overlaps nothing else.
 */
#if defined(__GNUC__)
#define PLANNER_MUST_USE __attribute__((warn_unused_result))
#define PLANNER_NONNULL(...) __attribute__((nonnull(__VA_ARGS__)))
#else
#define PLANNER_MUST_USE
#define PLANNER_NONNULL(...)
#endif
#if !defined(__cplusplus) && defined(__STDC_VERSION__) && __STDC_VERSION__ >= 199901L
#define PLANNER_RESTRICT restrict
#elif defined(__GNUC__) || defined(_MSC_VER)
#define PLANNER_RESTRICT __restrict
#else
#define PLANNER_RESTRICT
#endif

/* The version of the library that is linked; PLANNER_VERSION is that of this header. */
uint32_t planner_version(void) PLANNER_MUST_USE;

/*
 * Checks a survey.
 *   scores  m numbers, read      weights  n bytes, read      rows  n * m bytes, read
 * Answer: total 0. Refuses with 1, 2, 3, 6, 8, 24, 9, 10 or 11.
 */
uint64_t planner_check_survey(size_t n, size_t m, size_t k,
                              const uint16_t *scores, size_t scores_len,
                              const uint8_t *weights, size_t weights_len,
                              const uint8_t *rows, size_t rows_len) PLANNER_MUST_USE;

/*
 * The length of the ranked part of a row: the number of bytes before its first zero, or all of them if there is none. The ranked
 * part itself is that many of the caller's own bytes, from row[0] on.
 *   row  any number of bytes, read
 * The number returned is that length and no packed answer. Refuses nothing.
 */
size_t planner_ranked_part(const uint8_t *row, size_t row_len) PLANNER_MUST_USE;

/*
 * The counted score that one street's row gives one site.
 *   scores  m numbers, read      row  m bytes, read
 *   weight  the street's weight
 * Answer: the score times the weight, 0 where the row has not ranked the site. Refuses with 2, 6, 8, 24, 9, 10, 11, or 17 for the
 * site.
 */
uint64_t planner_row_score(size_t m,
                           const uint16_t *scores, size_t scores_len,
                           uint8_t weight,
                           const uint8_t *row, size_t row_len,
                           uint8_t site) PLANNER_MUST_USE;

/*
 * The total of a list of sites: the sum over the streets of the best counted score that any of the sites gives.
 *   scores  m numbers, read      weights  n bytes, read      rows  n * m bytes, read
 *   sites   the list, 1 to m bytes, each site once, read
 * Answer: that total. Refuses with 1, 2, 3, 6, 8, 24, 9, 10, 11, 17 or 20.
 */
uint64_t planner_list_total(size_t n, size_t m,
                            const uint16_t *scores, size_t scores_len,
                            const uint8_t *weights, size_t weights_len,
                            const uint8_t *rows, size_t rows_len,
                            const uint8_t *sites, size_t sites_len) PLANNER_MUST_USE;

/*
 * The free division over a list of sites: each street goes to the listed site that stands best in its list, and to site 0 if it
 * has ranked none of them.
 *   scores    m numbers, read      weights  n bytes, read      rows  n * m bytes, read
 *   sites     the list, 1 to m bytes, each site once, read
 *   division  n bytes, written: the site of each street
 * Answer: the total of the list. Refuses with 1, 2, 3, 6, 8, 24, 9, 10, 11, 17 or 20.
 */
uint64_t planner_free_division(size_t n, size_t m,
                               const uint16_t *scores, size_t scores_len,
                               const uint8_t *weights, size_t weights_len,
                               const uint8_t *rows, size_t rows_len,
                               const uint8_t *sites, size_t sites_len,
                               uint8_t *PLANNER_RESTRICT division, size_t division_len) PLANNER_MUST_USE;

/*
 * The best balanced division over a list of sites: each site gets its share, the first n % sites_len entries one street more than
 * the others, and no division in these shares totals more. Of several best ones it is the one that gives street 1 the lowest site
 * number, then street 2, and so on.
 *   scores    m numbers, read      weights  n bytes, read      rows  n * m bytes, read
 *   sites     the list, 1 to m bytes and at most n, each site once, read
 *   division  n bytes, written: the site of each street
 * Answer: the division's total, the sum over the streets of the counted score that each gives its site.
 * Refuses with 1, 2, 3, 5, 6, 8, 24, 9, 10, 11, 17 or 20.
 */
uint64_t planner_balanced_division(size_t n, size_t m,
                                   const uint16_t *scores, size_t scores_len,
                                   const uint8_t *weights, size_t weights_len,
                                   const uint8_t *rows, size_t rows_len,
                                   const uint8_t *sites, size_t sites_len,
                                   uint8_t *PLANNER_RESTRICT division, size_t division_len) PLANNER_MUST_USE;

/*
 * The plan of a kind. The free plan (Chamberlin and Courant's rule, greedy): k rounds, each of which adds the site that raises the
 * total most, the lowest number on a tie; then each street goes to the chosen site that stands best in its list, and to site 0 if
 * it has ranked none. The balanced plan (Monroe's rule, greedy): k sites chosen in rounds, each of which deals its site n / k
 * streets, the first n % k rounds one more, and of the streets left those that give the site the highest counted score, then the
 * best place, then the lowest number; then the best division over these sites in these shares, as planner_balanced_division makes
 * it.
 *   kind      PLANNER_FREE or PLANNER_BALANCED
 *   scores    m numbers, read      weights  n bytes, read      rows  n * m bytes, read
 *   division  n bytes, written: the site of each street
 *   chosen    k bytes, written: the sites in order of choice
 * Answer: the total of the chosen sites in a free plan, the division's total in a balanced one.
 * Refuses with 1, 2, 3, 4, 6, 8, 24, 9, 10 or 11; a balanced plan also with 5, between 4 and 6.
 */
uint64_t planner_plan(size_t n, size_t m, size_t k, size_t kind,
                      const uint16_t *scores, size_t scores_len,
                      const uint8_t *weights, size_t weights_len,
                      const uint8_t *rows, size_t rows_len,
                      uint8_t *PLANNER_RESTRICT division, size_t division_len,
                      uint8_t *PLANNER_RESTRICT chosen, size_t chosen_len) PLANNER_MUST_USE;

/*
 * The floor: a total that the balanced plan of this survey reaches in any case. It is the floor by plain scores, times the smallest
 * weight.
 *   scores  m numbers, read      weights  n bytes, read      rows  n * m bytes, read
 * Answer: the floor. Refuses with 1, 2, 3, 5, 6, 8, 24, 9, 10 or 11.
 */
uint64_t planner_floor(size_t n, size_t m, size_t k,
                       const uint16_t *scores, size_t scores_len,
                       const uint8_t *weights, size_t weights_len,
                       const uint8_t *rows, size_t rows_len) PLANNER_MUST_USE;

/*
 * Tests a hand-made plan of a kind. In a free one at most k sites are used. In a balanced one exactly n % k sites, whichever they
 * are, have n / k + 1 streets, and exactly k - n % k have n / k. In both no site is above its limits, and the streets give their
 * sites the claimed total.
 *   kind      PLANNER_FREE or PLANNER_BALANCED
 *   scores    m numbers, read      weights  n bytes, read      rows  n * m bytes, read
 *   division  n bytes, read: the site of each street, in a free plan 0 for none
 *   claimed   the total that is claimed for the plan
 *   kilograms, litres              n numbers each, read: what each street brings in a week
 *   kilogram_limits, litre_limits  m numbers each, read: how much of it each site can take
 * Answer: the plan's total, which the claimed one then is.
 * Refuses with 1, 2, 3, 4, 6, 8, 24, 9, 10, 11, 21, 17, 18, 22, 23 or 19; a balanced plan also with 5, between 4 and 6.
 */
uint64_t planner_hand_plan(size_t n, size_t m, size_t k, size_t kind,
                           const uint16_t *scores, size_t scores_len,
                           const uint8_t *weights, size_t weights_len,
                           const uint8_t *rows, size_t rows_len,
                           const uint8_t *division, size_t division_len,
                           uint32_t claimed,
                           const uint32_t *kilograms, size_t kilograms_len,
                           const uint32_t *litres, size_t litres_len,
                           const uint32_t *kilogram_limits, size_t kilogram_limits_len,
                           const uint32_t *litre_limits, size_t litre_limits_len) PLANNER_MUST_USE;

/*
 * Writes a survey file.
 *   kind    PLANNER_FREE or PLANNER_BALANCED
 *   form    PLANNER_OLD_FORM, or any other number for the new form
 *   scores  m numbers, read      weights  n bytes, read      rows  n * m bytes, read
 *   file    any number of bytes, written as far as the file goes; PLANNER_FILE_LENGTH bytes are enough for every survey
 * Answer: the file's length. Refuses with 1, 2, 3, 4, 6, 8, 24, 9, 10, 11, then in the old form with 25, and with 7 last.
 */
uint64_t planner_write_file(size_t n, size_t m, size_t k, size_t kind, size_t form,
                            const uint16_t *scores, size_t scores_len,
                            const uint8_t *weights, size_t weights_len,
                            const uint8_t *rows, size_t rows_len,
                            uint8_t *PLANNER_RESTRICT file, size_t file_len) PLANNER_MUST_USE;

/*
 * Reads a survey file of either form.
 *   file     any number of bytes, read
 *   n, m, k, kind  one number each, written: what the file says
 *   form     one number, written: PLANNER_OLD_FORM or PLANNER_NEW_FORM
 *   scores   exactly PLANNER_SCORES_LENGTH numbers: the first m are written
 *   weights  exactly PLANNER_WEIGHTS_LENGTH bytes: the first n are written, with 1 for each street of a file of the old form
 *   rows     exactly PLANNER_ROWS_LENGTH bytes: the first n * m are written
 * Answer: total 0. Tries 6, then for each record: mark bytes there (12), mark (13), fixed part there (12), fields in order of
 * number (1, 2, 3, 4; 8; 24; 14, 15), list there (12), each list byte for 10, then 11. The fixed part of SC is all its scores, that
 * of HW all its weights. After EN it tries 16.
 */
uint64_t planner_read_file(const uint8_t *file, size_t file_len,
                           size_t *PLANNER_RESTRICT n, size_t *PLANNER_RESTRICT m,
                           size_t *PLANNER_RESTRICT k, size_t *PLANNER_RESTRICT kind,
                           size_t *PLANNER_RESTRICT form,
                           uint16_t *PLANNER_RESTRICT scores, size_t scores_len,
                           uint8_t *PLANNER_RESTRICT weights, size_t weights_len,
                           uint8_t *PLANNER_RESTRICT rows, size_t rows_len) PLANNER_MUST_USE PLANNER_NONNULL(3, 4, 5, 6, 7);

/*
 * Converts a survey file into a form. A file that has this form already comes out as it is.
 *   file    any number of bytes, read
 *   form    PLANNER_OLD_FORM, or any other number for the new form
 *   buffer  any number of bytes, written as far as the file in this form goes; PLANNER_FILE_LENGTH bytes are enough for every file
 * Answer: the length of the file in this form. Tries the file as planner_read_file does behind 6, then for the old form 25, and 7
 * last.
 */
uint64_t planner_convert_file(const uint8_t *file, size_t file_len,
                              size_t form,
                              uint8_t *PLANNER_RESTRICT buffer, size_t buffer_len) PLANNER_MUST_USE;

#ifdef __cplusplus
}
#endif

#endif
