/* Each exported function called through the header, on a rule where letter 0 comes without end, W; for the other grades on W with three
 * marks, for more turns than one on sums modulo 2. Then every refusal, the size of each buffer, numbers that take more than one byte or
 * two, and the reading of rules whose products are not the same both ways. */
#include <stdio.h>
#include <string.h>

#include "duknavet.h"

static uint8_t out[DUKNAVET_RULE], classes[DUKNAVET_CLASSES], u[DUKNAVET_U], v[DUKNAVET_V];
static uint8_t points[DUKNAVET_POINTS], blocks[DUKNAVET_BLOCKS], map[DUKNAVET_MAP], scratch[DUKNAVET_SCRATCH];
static uint8_t board[DUKNAVET_BOARD + 1], files[DUKNAVET_FILES];
static uint8_t until_classes[DUKNAVET_UNTIL_CLASSES];
static int failures;

static void expect(const char *what, int holds)
{
    if (!holds) {
        printf("wrong: %s\n", what);
        failures++;
    }
}

static int is_result(uint64_t answer, size_t a, size_t b, size_t c)
{
    return duknavet_refusal_of(answer) == DUKNAVET_RESULT && duknavet_field(answer, 0) == a &&
           duknavet_field(answer, 1) == b && duknavet_field(answer, 2) == c;
}

static int is_refused(uint64_t answer, enum duknavet_refusal refusal, int number, unsigned input, uint64_t place)
{
    return (int)refusal == number && duknavet_refusal_of(answer) == refusal && duknavet_input_of(answer) == input &&
           duknavet_place_of(answer) == place;
}

static const uint8_t w[] = {2, 0, 0, 0, 1, 2, 0, 1, 1, 0, 0, 0, 3};
static const uint8_t two_sums[] = {2, 0, 1, 1, 0, 2, 1, 0, 1, 0, 0, 0, 2};
static uint8_t large[DUKNAVET_RULE + 1], longest_word[DUKNAVET_WORD + 2];

static uint64_t strong(const uint8_t *rule, size_t length)
{
    return duknavet_strong(rule, length, scratch, sizeof scratch);
}

/* The refusal of a rule that is W with one byte changed. */
static uint64_t changed(size_t at, uint8_t byte)
{
    static uint8_t rule[sizeof w];
    memcpy(rule, w, sizeof w);
    rule[at] = byte;
    return strong(rule, sizeof w);
}

/* The products a * b = a of so many elements, a letter for each up to 16, and as many marks, of grade 3; how many bytes that is. */
static size_t left_zeros(size_t n, size_t marks)
{
    size_t letters = n < 16 ? n : 16, at, length = 0;
    large[length++] = (uint8_t)n;
    for (at = 0; at < n * n; at++)
        large[length++] = (uint8_t)(at / n);
    large[length++] = (uint8_t)letters;
    for (at = 0; at < letters; at++)
        large[length++] = (uint8_t)at;
    large[length++] = (uint8_t)(marks % 256);
    large[length++] = (uint8_t)(marks / 256);
    for (at = 0; at < marks; at++) {
        large[length++] = (uint8_t)(at / n);
        large[length++] = (uint8_t)(at % n);
        large[length++] = 3;
    }
    return length;
}

/* Each refusal, by its name and its number, with the input and the place that it has. */
static void refusals(void)
{
    static const uint8_t trailing[] = {2, 0, 0, 0, 1, 2, 0, 1, 1, 0, 0, 0, 3, 9};
    static const uint8_t unreachable[] = {2, 0, 0, 0, 1, 1, 0, 0, 0};
    static const uint8_t not_associative[] = {2, 1, 0, 0, 0, 2, 0, 1, 0, 0};
    static const uint8_t twice[] = {2, 0, 0, 0, 1, 2, 0, 1, 2, 0, 0, 0, 3, 0, 0, 2};
    static const uint8_t one[] = {1, 0, 1, 0, 0, 0};
    static uint8_t first[100], second[100];
    /* A cycle of five states, and two of them exchanged: all 120 permutations. */
    static const uint8_t permutations[] = {5, 3, 0, 0, 0, 0, 2, 10, 0, 0, 0, 1, 1, 0, 2, 2, 0, 3, 3, 0, 4, 4,
                                           0, 0, 0, 1, 1, 1, 1, 0, 2, 1, 2, 3, 1, 3, 4, 1, 4};
    size_t n, at;
    uint64_t answer;

    expect("1", is_refused(strong(w, 12), DUKNAVET_TRUNCATED, 1, 1, 12));
    expect("2", is_refused(changed(5, 17), DUKNAVET_COUNT_OUT_OF_RANGE, 2, 1, 5));
    expect("3", is_refused(changed(12, 4), DUKNAVET_ENTRY_OUT_OF_RANGE, 3, 1, 12));
    expect("4", is_refused(strong(trailing, sizeof trailing), DUKNAVET_TRAILING_BYTES, 4, 1, 13));
    expect("5", is_refused(strong(not_associative, sizeof not_associative), DUKNAVET_NOT_ASSOCIATIVE, 5, 1, 1));
    expect("6", is_refused(strong(unreachable, sizeof unreachable), DUKNAVET_UNREACHABLE, 6, 1, 1));
    expect("7", is_refused(changed(10, 1), DUKNAVET_NOT_LINKED, 7, 1, 10));
    expect("8", is_refused(strong(twice, sizeof twice), DUKNAVET_DUPLICATE, 8, 1, 13));
    memset(longest_word, 0, sizeof longest_word);
    longest_word[7] = 2;
    answer = duknavet_member(w, sizeof w, longest_word, 8, longest_word, 1, scratch, sizeof scratch);
    expect("10", is_refused(answer, DUKNAVET_UNKNOWN_LETTER, 10, 1, 7));
    answer = duknavet_member(w, sizeof w, longest_word, 1, longest_word, 0, scratch, sizeof scratch);
    expect("11", is_refused(answer, DUKNAVET_WORD_LENGTH, 11, 2, 0));
    answer = duknavet_complement(two_sums, sizeof two_sums, out, sizeof out, scratch, sizeof scratch);
    expect("12", is_refused(answer, DUKNAVET_NOT_STRONG, 12, 1, 0));
    expect("13", is_refused(duknavet_strong(w, sizeof w, scratch, 1), DUKNAVET_BUFFER_TOO_SHORT, 13, 1, 0));
    answer = duknavet_automaton_rule(permutations, sizeof permutations, out, sizeof out, scratch, sizeof scratch);
    expect("14", is_refused(answer, DUKNAVET_TOO_MANY_MATRICES, 14, 1, 0));
    memset(points, 0, sizeof points);
    answer = duknavet_keep(w, sizeof w, 0, 1, 8, points, sizeof points, scratch, sizeof scratch);
    expect("15", is_refused(answer, DUKNAVET_NAME_OUT_OF_RANGE, 15, 1, 0));
    answer = duknavet_return(w, sizeof w, 0, 1, 7, points, sizeof points, scratch, sizeof scratch);
    expect("16", is_refused(answer, DUKNAVET_NAME_NEVER_KEPT, 16, 1, 0));
    answer = duknavet_state_kind(two_sums, sizeof two_sums, 0, 1, 1, scratch, sizeof scratch);
    expect("17", is_refused(answer, DUKNAVET_NO_SUCH_STATE, 17, 1, 0));
    answer = duknavet_either(w, sizeof w, one, sizeof one, out, sizeof out, scratch, sizeof scratch);
    expect("18", is_refused(answer, DUKNAVET_LETTERS_DIFFER, 18, 1, 0));
    /* Sums modulo 8 and modulo 9 have 72 pairs of values. */
    for (n = 8; n <= 9; n++) {
        uint8_t *file = n == 8 ? first : second;
        file[0] = (uint8_t)n;
        for (at = 0; at < n * n; at++)
            file[1 + at] = (uint8_t)((at / n + at % n) % n);
        file[1 + n * n] = 1;
        file[2 + n * n] = 1;
    }
    answer = duknavet_both(first, 1 + 64 + 4, second, 1 + 81 + 4, out, sizeof out, scratch, sizeof scratch);
    expect("19", is_refused(answer, DUKNAVET_TOO_MANY_PAIRS, 19, 1, 0));
    answer = duknavet_reduce_rounds(w, sizeof w, DUKNAVET_MOST_ROUNDS + 1, blocks, sizeof blocks, scratch, sizeof scratch);
    expect("20", is_refused(answer, DUKNAVET_LIMIT_OUT_OF_RANGE, 20, 1, 0) && DUKNAVET_MOST_ROUNDS == 64);
    duknavet_board_empty(board, sizeof board);
    answer = duknavet_board_enter(board, sizeof board, 8, w, sizeof w, files, sizeof files, scratch, sizeof scratch);
    expect("21", is_refused(answer, DUKNAVET_NAME_NOT_FREE, 21, 1, 0));
    answer = duknavet_board_leave(board, sizeof board, 7, files, sizeof files, scratch, sizeof scratch);
    expect("22", is_refused(answer, DUKNAVET_NAME_NOT_PRESENT, 22, 1, 0));
    /* Of eight first letters there are 64 pairs of a first letter and the next, and 8 without a next. */
    n = left_zeros(8, 0);
    answer = duknavet_next(large, n, out, sizeof out, scratch, sizeof scratch);
    expect("23", is_refused(answer, DUKNAVET_TOO_MANY_CLASSES, 23, 1, 0));
    expect("2 of letters", is_refused(duknavet_constant(17, 1, out, sizeof out), DUKNAVET_COUNT_OUT_OF_RANGE, 2, 1, 0));
    expect("3 of a grade", is_refused(duknavet_constant(16, 4, out, sizeof out), DUKNAVET_ENTRY_OUT_OF_RANGE, 3, 1, 0));
    expect("10 of a set", is_refused(duknavet_first_letter(2, (size_t)1 << 63 | 1, 3, out, sizeof out), DUKNAVET_UNKNOWN_LETTER, 10, 1, 63));
    /* Of a board the input is a name, up to 7. */
    answer = duknavet_board_enter(board, sizeof board, 7, w, 12, files, sizeof files, scratch, sizeof scratch);
    expect("input 7", is_refused(answer, DUKNAVET_TRUNCATED, 1, 7, 12));
    answer = duknavet_board_enter(board, sizeof board, 4, two_sums, sizeof two_sums, files, sizeof files, scratch, sizeof scratch);
    expect("input 4", is_refused(answer, DUKNAVET_NOT_STRONG, 12, 4, 0));
    expect("no refusal", DUKNAVET_RESULT == 0 && duknavet_refusal_of(strong(w, sizeof w)) == DUKNAVET_RESULT);
}

/* Each buffer passes with its size, and is too short with a byte less. */
static void sizes(void)
{
    static const uint8_t no_marks[] = {0, 0};
    int less;
    for (less = 0; less < 2; less++) {
        size_t l = (size_t)less;
        enum duknavet_refusal expected = less ? DUKNAVET_BUFFER_TOO_SHORT : DUKNAVET_RESULT;
        size_t s = sizeof scratch;
        duknavet_board_empty(board, sizeof board);
        memset(points, 0, sizeof points);
        expect("scratch", duknavet_refusal_of(duknavet_strong(w, sizeof w, scratch, DUKNAVET_SCRATCH - l)) == expected);
        expect("rule", duknavet_refusal_of(duknavet_complement(w, sizeof w, out, DUKNAVET_RULE - l, scratch, s)) == expected);
        expect("classes", duknavet_refusal_of(duknavet_classes(w, sizeof w, classes, DUKNAVET_CLASSES - l, scratch, s)) == expected);
        expect("u", duknavet_refusal_of(duknavet_included(w, sizeof w, no_marks, 2, u, DUKNAVET_U - l, v, sizeof v, scratch, s)) == expected);
        expect("v", duknavet_refusal_of(duknavet_included(w, sizeof w, no_marks, 2, u, sizeof u, v, DUKNAVET_V - l, scratch, s)) == expected);
        expect("points", duknavet_refusal_of(duknavet_keep(w, sizeof w, 0, 1, 0, points, DUKNAVET_POINTS - l, scratch, s)) == expected);
        expect("map", duknavet_refusal_of(duknavet_reduce(w, sizeof w, out, sizeof out, map, DUKNAVET_MAP - l, scratch, s)) == expected);
        expect("blocks", duknavet_refusal_of(duknavet_reduce_rounds(w, sizeof w, 0, blocks, DUKNAVET_BLOCKS - l, scratch, s)) == expected);
        expect("successors", duknavet_refusal_of(duknavet_successors(w, sizeof w, 0, 0, 0, out, DUKNAVET_SUCCESSORS - l, scratch, s)) == expected);
        expect("board", duknavet_refusal_of(duknavet_board_empty(board, DUKNAVET_BOARD - l)) == expected);
        expect("classes of until", duknavet_refusal_of(duknavet_until(w, sizeof w, w, sizeof w, out, sizeof out, until_classes,
                                                                      DUKNAVET_UNTIL_CLASSES - l, scratch, s)) == expected);
        expect("rule of a constant", duknavet_refusal_of(duknavet_constant(1, 0, out, DUKNAVET_RULE - l)) == expected);
        expect("files", duknavet_refusal_of(duknavet_board_mark(board, sizeof board, files, DUKNAVET_FILES - l, scratch, s)) == expected);
    }
    memset(longest_word, 0, sizeof longest_word);
    expect("longest u", is_result(duknavet_member(w, sizeof w, longest_word, DUKNAVET_WORD, longest_word, 1, scratch, sizeof scratch), 3, 1, 0));
    expect("longest v", is_result(duknavet_member(w, sizeof w, longest_word, 0, longest_word, DUKNAVET_WORD, scratch, sizeof scratch), 3, 1, 0));
    expect("too long", is_refused(duknavet_member(w, sizeof w, longest_word, DUKNAVET_WORD + 1, longest_word, 1, scratch, sizeof scratch),
                                  DUKNAVET_WORD_LENGTH, 11, 1, 0));
    duknavet_classes(w, sizeof w, classes, sizeof classes, scratch, sizeof scratch);
    expect("not linked", classes[4] + 256 * classes[5] == DUKNAVET_NOT_LINKED_PAIR && classes[6] + 256 * classes[7] == 3);
}

/* Answers and counts above 255, and a place above 65,535. */
static void large_numbers(void)
{
    size_t length = left_zeros(16, 256);
    uint64_t answer = strong(large, length);
    expect("256 marks", is_result(answer, 1, 0, 0) && duknavet_rule_marks(large) == 256 && duknavet_rule_length(large) == length);
    expect("a late mark", duknavet_rule_mark(large, 255).s == 15 && duknavet_rule_mark(large, 254).e == 14);
    answer = duknavet_classes(large, length, classes, sizeof classes, scratch, sizeof scratch);
    expect("256 pairs", is_result(answer, 256, 16, 240));
    answer = duknavet_complement(large, length, out, sizeof out, scratch, sizeof scratch);
    expect("276 bytes", is_result(answer, 276, 0, 0));
    length = left_zeros(64, 0);
    large[1 + 40 * 64 + 5] = 7;
    expect("place", is_refused(strong(large, length), DUKNAVET_NOT_ASSOCIATIVE, 5, 1, 163845));
}

/* Elements 0, 1, 2 of letter 0 alone and then words that end in letter 1 or 0: a product and a value depend on the order. */
static void reading(void)
{
    static const uint8_t ordered[] = {3, 0, 1, 2, 2, 1, 2, 2, 1, 2, 2, 0, 1, 2, 0, 1, 1, 3, 2, 2, 3};
    static const uint8_t word[] = {0, 1, 0, 0};
    expect("order", is_result(strong(ordered, sizeof ordered), 1, 0, 0));
    expect("products by rows", duknavet_rule_product(ordered, 0, 1) == 1 && duknavet_rule_product(ordered, 1, 0) == 2);
    expect("value from the left", duknavet_rule_value(ordered, word, 2) == 1 && duknavet_rule_value(ordered, word + 1, 2) == 2 &&
                                      duknavet_rule_value(ordered, word, 4) == 2 && duknavet_rule_value(ordered, word + 2, 2) == 0);
}

int main(void)
{
    static const uint8_t rule[] = {2, 0, 0, 0, 1, 2, 0, 1, 1, 0, 0, 0, 3};
    static const uint8_t no_marks[] = {0, 0};
    static const uint8_t one_element[] = {1, 0, 2, 0, 0, 1, 0, 0, 0, 3};
    static const uint8_t every_mark[] = {2, 0, 0, 0, 1, 2, 0, 1, 3, 0, 0, 0, 3, 0, 1, 3, 1, 1, 3};
    static const uint8_t second_letter_first[] = {2, 0, 0, 1, 1, 2, 0, 1, 2, 0, 1, 0, 3, 1, 1, 3};
    static const uint8_t three_grades[] = {2, 0, 0, 0, 1, 2, 0, 1, 3, 0, 0, 0, 3, 0, 1, 2, 1, 1, 1};
    static const uint8_t automaton[] = {2, 1, 2, 2, 4, 0, 0, 0, 1, 0, 1, 0, 1, 0, 1, 1, 1, 0};
    static const uint8_t sums[] = {2, 0, 1, 1, 0, 2, 1, 0, 1, 0, 0, 0, 2};
    static const uint8_t just_twice[] = {4, 0, 1, 2, 3, 1, 2, 3, 3, 2, 3, 3, 3, 3, 3, 3, 3, 2, 0, 1, 1, 0, 2, 0, 3};
    static const uint8_t first_blocks[] = {0, 1, 2, 1, 0}, last_blocks[] = {0, 1, 2, 3, 0};
    static const uint8_t one_letter[] = {2, 0, 1, 1, 0, 1, 1, 0, 0};
    static const uint8_t letter[] = {0, 1, 2};
    uint64_t answer;

    expect("classes", is_result(duknavet_classes(rule, sizeof rule, classes, sizeof classes, scratch, sizeof scratch), 3, 3, 0));
    expect("strong", is_result(duknavet_strong(rule, sizeof rule, scratch, sizeof scratch), 1, 0, 0));
    expect("grade 3", is_result(duknavet_member(rule, sizeof rule, letter + 1, 1, letter, 1, scratch, sizeof scratch), 3, 1, 0));
    expect("grade 0", is_result(duknavet_member(rule, sizeof rule, letter, 1, letter + 1, 1, scratch, sizeof scratch), 0, 1, 0));
    answer = duknavet_member(three_grades, sizeof three_grades, letter, 1, letter + 1, 1, scratch, sizeof scratch);
    expect("grade 2", is_result(answer, 2, 1, 0));
    expect("two turns", is_result(duknavet_member(sums, sizeof sums, letter, 1, letter, 1, scratch, sizeof scratch), 2, 2, 0));
    expect("empty start", is_result(duknavet_member(rule, sizeof rule, letter, 0, letter, 1, scratch, sizeof scratch), 3, 1, 0));
    expect("complement", is_result(duknavet_complement(rule, sizeof rule, out, sizeof out, scratch, sizeof scratch), 16, 0, 0));
    memset(map, 9, sizeof map);
    answer = duknavet_reduce(every_mark, sizeof every_mark, out, sizeof out, map, sizeof map, scratch, sizeof scratch);
    expect("reduce", is_result(answer, 10, 0, 0));
    expect("reduced", memcmp(out, one_element, sizeof one_element) == 0);
    expect("map", map[0] == 0 && map[1] == 0 && map[2] == 9 && map[63] == 9);
    answer = duknavet_reduce(rule, sizeof rule, out, sizeof out, map, sizeof map - 1, scratch, sizeof scratch);
    expect("short map", duknavet_refusal_of(answer) == DUKNAVET_BUFFER_TOO_SHORT && map[1] == 0);
    answer = duknavet_confirm(every_mark, sizeof every_mark, one_element, sizeof one_element, map, 2, scratch, sizeof scratch);
    expect("confirmed", is_result(answer, 1, 0, 0));
    answer = duknavet_confirm(every_mark, sizeof every_mark, one_element, sizeof one_element, map, 3, scratch, sizeof scratch);
    expect("a map too long", is_result(answer, 0, 0, 0));
    answer = duknavet_confirm(every_mark, sizeof every_mark, rule, sizeof rule, letter, 2, scratch, sizeof scratch);
    expect("other grades", is_result(answer, 0, 0, 0));
    expect("own map", is_result(duknavet_confirm(rule, sizeof rule, rule, sizeof rule, letter, 2, scratch, sizeof scratch), 1, 0, 0));
    answer = duknavet_confirm(rule, sizeof rule, rule, sizeof rule - 1, letter, 2, scratch, sizeof scratch);
    expect("second cut", duknavet_refusal_of(answer) == DUKNAVET_TRUNCATED && duknavet_input_of(answer) == 2);
    answer = duknavet_confirm(sums, sizeof sums, rule, sizeof rule, letter, 2, scratch, sizeof scratch);
    expect("first weak", duknavet_refusal_of(answer) == DUKNAVET_NOT_STRONG && duknavet_input_of(answer) == 1);
    answer = duknavet_reduce_rounds(just_twice, sizeof just_twice, 0, blocks, sizeof blocks, scratch, sizeof scratch);
    expect("rounds", is_result(answer, 0, 0, 0) && memcmp(blocks, first_blocks, 5) == 0);
    answer = duknavet_reduce_rounds(just_twice, sizeof just_twice, DUKNAVET_MOST_ROUNDS, blocks, sizeof blocks, scratch, sizeof scratch);
    expect("finished", is_result(answer, 1, 1, 0) && memcmp(blocks, last_blocks, 5) == 0);
    answer = duknavet_reduce_rounds(sums, sizeof sums, DUKNAVET_MOST_ROUNDS + 1, blocks, sizeof blocks, scratch, sizeof scratch);
    expect("limit", duknavet_refusal_of(answer) == DUKNAVET_LIMIT_OUT_OF_RANGE && duknavet_input_of(answer) == 1);
    expect("both", is_result(duknavet_both(rule, sizeof rule, every_mark, sizeof every_mark, out, sizeof out, scratch, sizeof scratch), sizeof rule, 0, 0));
    expect("lower grades", memcmp(out, rule, sizeof rule) == 0);
    answer = duknavet_either(rule, sizeof rule, every_mark, sizeof every_mark, out, sizeof out, scratch, sizeof scratch);
    expect("either", is_result(answer, sizeof every_mark, 0, 0) && memcmp(out, every_mark, sizeof every_mark) == 0);
    answer = duknavet_without(rule, sizeof rule, every_mark, sizeof every_mark, out, sizeof out, scratch, sizeof scratch);
    expect("without", is_result(answer, 10, 0, 0) && out[8] == 0 && out[9] == 0);
    answer = duknavet_both(rule, sizeof rule, one_letter, sizeof one_letter, out, sizeof out, scratch, sizeof scratch);
    expect("letters", duknavet_refusal_of(answer) == DUKNAVET_LETTERS_DIFFER);
    answer = duknavet_either(rule, sizeof rule, sums, sizeof sums, out, sizeof out, scratch, sizeof scratch);
    expect("second weak", duknavet_refusal_of(answer) == DUKNAVET_NOT_STRONG && duknavet_input_of(answer) == 2);
    expect("first letter", is_result(duknavet_first_letter(2, 2, 3, out, sizeof out), sizeof second_letter_first, 0, 0) &&
                               memcmp(out, second_letter_first, sizeof second_letter_first) == 0);
    expect("constant", is_result(duknavet_constant(2, 3, out, sizeof out), sizeof one_element, 0, 0) &&
                           memcmp(out, one_element, sizeof one_element) == 0);
    answer = duknavet_next(second_letter_first, sizeof second_letter_first, out, sizeof out, scratch, sizeof scratch);
    expect("next", duknavet_refusal_of(answer) == DUKNAVET_RESULT && duknavet_field(answer, 0) == duknavet_rule_length(out));
    memcpy(large, out, duknavet_field(answer, 0));
    /* The cycle alone has no value behind its first letter, and twice it has. */
    expect("behind the first", is_result(duknavet_member(large, duknavet_field(answer, 0), letter, 1, letter + 1, 1, scratch, sizeof scratch), 3, 2, 0));
    expect("at the first", is_result(duknavet_member(large, duknavet_field(answer, 0), letter + 1, 1, letter, 1, scratch, sizeof scratch), 0, 2, 0));
    memset(until_classes, 9, sizeof until_classes);
    answer = duknavet_until(three_grades, sizeof three_grades, second_letter_first, sizeof second_letter_first, out, sizeof out, until_classes,
                            sizeof until_classes, scratch, sizeof scratch);
    expect("until", duknavet_refusal_of(answer) == DUKNAVET_RESULT && duknavet_field(answer, 0) == duknavet_rule_length(out));
    expect("zeros", until_classes[0] == 0 && until_classes[sizeof until_classes - 1] == 0);
    memcpy(large, out, duknavet_field(answer, 0));
    /* Letter 1 comes after letter 0, from where the first rule gives grade 2. */
    expect("until letter 1", is_result(duknavet_member(large, duknavet_field(answer, 0), letter, 1, letter + 1, 1, scratch, sizeof scratch), 2, 1, 0));
    expect("never letter 1", is_result(duknavet_member(large, duknavet_field(answer, 0), letter, 1, letter, 1, scratch, sizeof scratch), 0, 1, 0));
    {
        static uint8_t stack[DUKNAVET_FORMULA_STACK];
        static uint8_t spare[DUKNAVET_RULE];
        /* Letter 0 always, or not always: every lasso has grade 3, as by the constant. */
        static const uint8_t always_or_not[] = {0, 3, 1, 0, 9, 12, 0, 2, 4};
        static const uint8_t too_many[] = {1, 3, 1, 3};
        answer = duknavet_formula_rule(2, always_or_not, sizeof always_or_not, out, sizeof out, stack, sizeof stack, spare, sizeof spare, until_classes, sizeof until_classes,
                                       scratch, sizeof scratch);
        expect("formula", duknavet_refusal_of(answer) == DUKNAVET_RESULT && out[0] == 1 && out[duknavet_field(answer, 0) - 1] == 3);
        answer = duknavet_formula_rule(2, too_many, sizeof too_many, out, sizeof out, stack, sizeof stack, spare, sizeof spare, until_classes, sizeof until_classes,
                                       scratch, sizeof scratch);
        expect("two rules left", duknavet_refusal_of(answer) == DUKNAVET_UNBALANCED_FORMULA && duknavet_input_of(answer) == 1 && duknavet_place_of(answer) == 4);
    }
    answer = duknavet_included(rule, sizeof rule, no_marks, sizeof no_marks, u, sizeof u, v, sizeof v, scratch, sizeof scratch);
    expect("included", duknavet_refusal_of(answer) == DUKNAVET_RESULT && duknavet_field(answer, 0) == 0);
    expect("witness", is_result(duknavet_member(rule, sizeof rule, u, duknavet_field(answer, 1), v, duknavet_field(answer, 2),
                                                scratch, sizeof scratch), 3, 1, 0));
    expect("fresh", is_result(duknavet_fresh(), DUKNAVET_NONE, DUKNAVET_NONE, 0));
    expect("event", is_result(duknavet_event(rule, sizeof rule, 0, 1, 1, scratch, sizeof scratch), 0, 1, 0));
    expect("mark", is_result(duknavet_mark(rule, sizeof rule, DUKNAVET_NONE, 1, scratch, sizeof scratch), 1, DUKNAVET_NONE, 0));
    expect("feed", is_result(duknavet_feed(rule, sizeof rule, 1, 1, letter, 2, scratch, sizeof scratch), 1, 0, 0));
    answer = duknavet_feed(rule, sizeof rule, 1, 1, letter, 3, scratch, sizeof scratch);
    expect("feed, foreign", duknavet_refusal_of(answer) == DUKNAVET_UNKNOWN_LETTER && duknavet_input_of(answer) == 1 &&
                                duknavet_place_of(answer) == 2);
    expect("inspect", is_result(duknavet_inspect(rule, sizeof rule, scratch, sizeof scratch), 2, 2, 1));
    expect("stretch of u", is_result(duknavet_stretch(letter, 3, letter, 2, 1), 1, 1, 2));
    expect("stretch of v", is_result(duknavet_stretch(letter, 3, letter, 2, 6), 2, 1, 1));
    expect("no stretch", is_result(duknavet_stretch(letter, 3, letter, 0, 6), 1, 0, 0));
    expect("keep", is_result(duknavet_keep(rule, sizeof rule, 0, 1, 7, points, sizeof points, scratch, sizeof scratch), 0, 1, 0));
    expect("kept", points[21] == 1 && points[22] == 0 && points[23] == 1);
    answer = duknavet_return(rule, sizeof rule, 1, DUKNAVET_NONE, 7, points, sizeof points, scratch, sizeof scratch);
    expect("return", is_result(answer, 0, 1, 0));
    answer = duknavet_return(rule, sizeof rule, 1, DUKNAVET_NONE, 6, points, sizeof points, scratch, sizeof scratch);
    expect("never kept", duknavet_refusal_of(answer) == DUKNAVET_NAME_NEVER_KEPT && duknavet_input_of(answer) == 1);
    expect("verdict", is_result(duknavet_verdict(rule, sizeof rule, 1, 0, scratch, sizeof scratch), 3, 1, 0));
    answer = duknavet_verdict(three_grades, sizeof three_grades, 1, 1, scratch, sizeof scratch);
    expect("verdict, grade 1", is_result(answer, 1, 1, 0));
    expect("verdict, two turns", is_result(duknavet_verdict(one_letter, sizeof one_letter, 0, 1, scratch, sizeof scratch), 0, 2, 0));
    expect("no mark", is_result(duknavet_verdict(rule, sizeof rule, DUKNAVET_NONE, 1, scratch, sizeof scratch), 0, 1, 0));
    answer = duknavet_advance_event(one_letter, sizeof one_letter, 0, 0, 0, scratch, sizeof scratch);
    expect("advance event", is_result(answer, 0, 1, 0 + 256 * 2));
    expect("grade and turns", duknavet_advanced_grade(answer) == 0 && duknavet_advanced_turns(answer) == 2);
    answer = duknavet_advance_event(rule, sizeof rule, 0, 1, 2, scratch, sizeof scratch);
    expect("advance foreign", duknavet_refusal_of(answer) == DUKNAVET_UNKNOWN_LETTER && duknavet_input_of(answer) == 1 &&
                                  duknavet_place_of(answer) == 0);
    answer = duknavet_advance_mark(rule, sizeof rule, 0, 1, scratch, sizeof scratch);
    expect("advance mark", is_result(answer, 0, DUKNAVET_NONE, 4) && duknavet_advanced_grade(answer) == 4);
    expect("advance stay", is_result(duknavet_advance_stay(rule, sizeof rule, 1, 0, scratch, sizeof scratch), 1, 0, 3 + 256));
    answer = duknavet_advance_word(rule, sizeof rule, 1, DUKNAVET_NONE, letter, 2, scratch, sizeof scratch);
    expect("advance word", is_result(answer, 1, 0, 3 + 256));
    answer = duknavet_advance_word(rule, sizeof rule, 1, 0, letter, 3, scratch, sizeof scratch);
    expect("advance word, foreign", duknavet_refusal_of(answer) == DUKNAVET_UNKNOWN_LETTER && duknavet_place_of(answer) == 2);
    expect("initial", is_result(duknavet_state_kind(rule, sizeof rule, 0, 0, 3, scratch, sizeof scratch), 1, 0, 0));
    expect("plain", is_result(duknavet_state_kind(rule, sizeof rule, 0, 1, 1, scratch, sizeof scratch), 0, 0, 0));
    expect("final", is_result(duknavet_state_kind(rule, sizeof rule, DUKNAVET_NONE, 1, 1, scratch, sizeof scratch), 2, 0, 0));
    answer = duknavet_state_kind(sums, sizeof sums, 0, 1, 1, scratch, sizeof scratch);
    expect("no state", duknavet_refusal_of(answer) == DUKNAVET_NO_SUCH_STATE && duknavet_input_of(answer) == 1);
    answer = duknavet_successors(rule, sizeof rule, DUKNAVET_NONE, 0, 0, out, DUKNAVET_SUCCESSORS, scratch, sizeof scratch);
    expect("successors", is_result(answer, 3, 0, 0) && out[0] == 0 && out[1] == 1 && out[2] == DUKNAVET_NONE);
    answer = duknavet_automaton_rule(automaton, sizeof automaton, out, sizeof out, scratch, sizeof scratch);
    expect("automaton", duknavet_refusal_of(answer) == DUKNAVET_RESULT && out[0] == 3);
    answer = duknavet_member(rule, sizeof rule, letter, 2, letter, 3, scratch, sizeof scratch);
    expect("refusal", duknavet_refusal_of(answer) == DUKNAVET_UNKNOWN_LETTER && duknavet_input_of(answer) == 2 &&
                          duknavet_place_of(answer) == 2);
    memset(board, 9, sizeof board);
    expect("short board", duknavet_refusal_of(duknavet_board_empty(board, DUKNAVET_BOARD - 1)) == DUKNAVET_BUFFER_TOO_SHORT && board[0] == 9);
    expect("empty board", is_result(duknavet_board_empty(board, sizeof board), 4, 0, 0));
    expect("nobody", board[0] == 0 && board[1] == DUKNAVET_NONE && board[23] == DUKNAVET_NONE && board[24] == 4 && board[25] == 9);
    memset(files, 7, sizeof files);
    answer = duknavet_board_enter(board, sizeof board, 7, rule, sizeof rule, files, sizeof files, scratch, sizeof scratch);
    expect("enter", is_result(answer, 4, 0, 0) && board[21] == 1 && board[25] == 9 && files[7 * DUKNAVET_RULE - 1] == 7);
    expect("copied", memcmp(files + 7 * DUKNAVET_RULE, rule, sizeof rule) == 0 && files[7 * DUKNAVET_RULE + sizeof rule] == 7);
    answer = duknavet_board_enter(board, DUKNAVET_BOARD - 1, 0, rule, sizeof rule, files, sizeof files, scratch, sizeof scratch);
    expect("short state", duknavet_refusal_of(answer) == DUKNAVET_BUFFER_TOO_SHORT && duknavet_input_of(answer) == 1 && files[0] == 7);
    answer = duknavet_board_enter(board, sizeof board, 7, rule, sizeof rule, files, sizeof files, scratch, sizeof scratch);
    expect("taken", duknavet_refusal_of(answer) == DUKNAVET_NAME_NOT_FREE && duknavet_input_of(answer) == 1);
    answer = duknavet_board_enter(board, sizeof board, 3, sums, sizeof sums, files, sizeof files, scratch, sizeof scratch);
    expect("entering weak", duknavet_refusal_of(answer) == DUKNAVET_NOT_STRONG && duknavet_input_of(answer) == 3);
    answer = duknavet_board_enter(board, sizeof board, 0, three_grades, sizeof three_grades, files, sizeof files, scratch, sizeof scratch);
    expect("enter again", is_result(answer, 4, 0, 0));
    answer = duknavet_board_event(board, sizeof board, 0, files, sizeof files, scratch, sizeof scratch);
    expect("event for all", is_result(answer, 3, 0, 0) && board[2] == 0 && board[23] == 0 && board[24] == 3);
    answer = duknavet_board_event(board, sizeof board, 2, files, sizeof files, scratch, sizeof scratch);
    expect("foreign", duknavet_refusal_of(answer) == DUKNAVET_UNKNOWN_LETTER && duknavet_input_of(answer) == 0);
    answer = duknavet_board_mark(board, sizeof board, files, sizeof files, scratch, sizeof scratch);
    expect("mark for all", is_result(answer, 4, 0, 0) && board[1] == 0 && board[2] == DUKNAVET_NONE && board[22] == 0);
    answer = duknavet_board_event(board, sizeof board, 1, files, sizeof files, scratch, sizeof scratch);
    expect("lowest", is_result(answer, 0, 0, 0) && board[24] == 0);
    answer = duknavet_board_leave(board, sizeof board, 7, files, sizeof files, scratch, sizeof scratch);
    expect("leave", is_result(answer, 2, 0, 0) && board[21] == 0 && files[7 * DUKNAVET_RULE] == rule[0]);
    answer = duknavet_board_leave(board, sizeof board, 7, files, sizeof files, scratch, sizeof scratch);
    expect("not present", duknavet_refusal_of(answer) == DUKNAVET_NAME_NOT_PRESENT && duknavet_input_of(answer) == 1);
    answer = duknavet_board_mark(board, DUKNAVET_BOARD - 1, files, sizeof files, scratch, sizeof scratch);
    expect("short state of a mark", duknavet_refusal_of(answer) == DUKNAVET_BUFFER_TOO_SHORT && board[2] == 1);
    expect("elements and letters", duknavet_rule_elements(rule) == 2 && duknavet_rule_letters(rule) == 2);
    expect("products", duknavet_rule_product(rule, 1, 1) == 1 && duknavet_rule_product(rule, 1, 0) == 0);
    expect("images", duknavet_rule_image(rule, 0) == 0 && duknavet_rule_image(rule, 1) == 1 && duknavet_rule_image(sums, 0) == 1);
    expect("marks", duknavet_rule_marks(rule) == 1 && duknavet_rule_marks(three_grades) == 3 && duknavet_rule_marks(one_letter) == 0);
    expect("a mark", duknavet_rule_mark(three_grades, 1).s == 0 && duknavet_rule_mark(three_grades, 1).e == 1 &&
                         duknavet_rule_mark(three_grades, 1).grade == 2);
    expect("lengths", duknavet_rule_length(rule) == sizeof rule && duknavet_rule_length(three_grades) == sizeof three_grades &&
                          duknavet_rule_length(one_letter) == sizeof one_letter);
    expect("a marks section", is_result(duknavet_included(rule, sizeof rule, three_grades + duknavet_rule_marks_at(three_grades),
                                                          sizeof three_grades - duknavet_rule_marks_at(three_grades), u, sizeof u, v,
                                                          sizeof v, scratch, sizeof scratch), 1, 0, 0));
    expect("values", duknavet_rule_value(rule, letter, 2) == 0 && duknavet_rule_value(rule, letter + 1, 1) == 1);
    refusals();
    sizes();
    large_numbers();
    reading();
    return failures != 0;
}
