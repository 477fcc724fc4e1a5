/* Duknavet: an engine for rules over endless event sequences, proved in Rattle. Link libexports.a (x86-64), which
 * `rt staticlib exports` writes to target/staticlib.
 *
 * What a caller owes
 *   - Each pointer is not null, also for a length of 0, and good for its length.
 *   - A buffer that is written (out, blocks, scratch, state, classes, stack, spare, map of duknavet_reduce, u and v of duknavet_included, points of duknavet_keep,
 *     files of duknavet_board_enter)
 *     overlaps no other argument's bytes during the call. Bytes that are only read may overlap.
 *   - Nothing else: any bytes of any length, and any numbers, have their answer. No call keeps a pointer, allocates, or
 *     uses memory shared between calls; calls on different buffers may run at the same time.
 *
 * Buffers
 *   - scratch has DUKNAVET_SCRATCH bytes or more. It may hold anything, and ends as zeros over its whole length. So do classes of
 *     duknavet_until and duknavet_formula_rule, which has DUKNAVET_UNTIL_CLASSES bytes or more, and stack and spare of the latter.
 *   - Result buffers have the sizes below or more. Bytes past a result keep what they had; after a refusal so does every
 *     byte. Where a buffer is too short (DUKNAVET_BUFFER_TOO_SHORT) no buffer changes, the scratch included.
 *
 * Answers
 *   Every function answers one number. Byte 0 is 0 for a result, else the number of the refusal.
 *   - A refusal has its input in byte 1 and its place from bit 16 on.
 *   - A result has three fields of 16 bits, from bits 16, 32 and 48 on: duknavet_field(answer, 0), .. 1, .. 2. Fields that a
 *     function does not name are 0.
 *   - No place and no value is cut off, for inputs of any length: it is proved that the number tells the whole answer. Of a call on a board it
 *     tells the lowest grade or the refusal; the board itself stands in its bytes
 *     (crates/unpacking/proofs/NothingLost; the functions below read a number as unpack in crates/packing/specs/Packing does).
 *
 * Words
 *   A rule file has n elements (n, 1 to 64, then n * n products, a * b at a * n + b), k letters (k, 1 to 16, then an element each)
 *   and marks (a two-byte count, 0 to 4096, low byte first, then three bytes each: a pair (s, e) and its grade, 1 to 3, 3 the
 *   best; a pair that is not listed has grade 0). The value of a word is the product of its letters' elements. A lasso is u, then v
 *   for ever; u may be empty. A marked pair accepts it if the same endless word is p, then w for ever, and the pair is (value of p,
 *   value of w). The grade of a lasso is the highest of the marked pairs that accept it, 0 if none does. A pair (s, e) is linked if
 *   e * e = e and s * e = s. Linked pairs (s, e) and (t, f) are conjugate if some x and y have s * x = t, x * y = e and y * x = f.
 *   A rule is strong if the values of u and v decide the lasso's grade, and else weak. The turns of a cycle whose value is x are
 *   the least c, 1 to n, with x^c * x^c = x^c: so many turns of it together have a value that repeating no longer changes.
 *   docs/FORMATS.md of the repository has the files byte by byte with examples, and every check in its order.
 */
#ifndef DUKNAVET_H
#define DUKNAVET_H

#include <stddef.h>
#include <stdint.h>

#ifdef __cplusplus
extern "C" {
#endif

/* The version of this header and of the library. Refusals may be added to a later one. */
#define DUKNAVET_VERSION "0.2.0"

/* The sizes that lent buffers must have, in bytes; longer ones pass. */
#define DUKNAVET_SCRATCH 65536 /* scratch of every call */
#define DUKNAVET_RULE 16404    /* out of every call that writes a rule: the longest rule file */
#define DUKNAVET_CLASSES 8192  /* out of classes: two bytes for each pair of 64 elements */
#define DUKNAVET_U 64          /* u of included */
#define DUKNAVET_V 4224        /* v of included */
#define DUKNAVET_POINTS 24     /* points of keep and return: three bytes for each of the names 0 to 7 */
#define DUKNAVET_MAP 64        /* map of reduce: a byte for each element; the map of confirm may have any length */
#define DUKNAVET_BLOCKS 64     /* blocks of reduce_rounds: a byte for each element */
#define DUKNAVET_SUCCESSORS 65 /* out of successors: a byte for each element, and one for none */
#define DUKNAVET_BOARD 25      /* state of a board: three bytes for each of the names 0 to 7, then the lowest grade */
#define DUKNAVET_FILES 131232  /* files of a board: DUKNAVET_RULE bytes for each name */
#define DUKNAVET_UNTIL_CLASSES 262144 /* classes of until: 4,096 bytes for each of 64 elements */
#define DUKNAVET_FORMULA_STACK 147636 /* stack of formula_rule: DUKNAVET_RULE bytes for each of nine rules */

/* The most letters that u or v of a lasso may have; the fewest is 0 for u and 1 for v. */
#define DUKNAVET_WORD 4224

/* The most letters that the word of duknavet_feed or duknavet_advance_word may have; the fewest is 0. */
#define DUKNAVET_LOG 16777216

/* The most bytes that the formula of duknavet_formula_rule may have. */
#define DUKNAVET_FORMULA 65535

/* The highest limit of reduce_rounds. */
#define DUKNAVET_MOST_ROUNDS 64

/* The value of a monitor, and of a state's s, that stands for no letters. */
#define DUKNAVET_NONE 64

/* What classes writes for a pair that is not linked. */
#define DUKNAVET_NOT_LINKED_PAIR 65535

/* Why a call refuses, in byte 0 of an answer, with the place that the answer holds. The first check that fails is
 * answered: 13, then 1 to 3 section by section, 4, 5, 6, 7 and 8 pair by pair, the second input's own, then 3 for a monitor's
 * values, 11 for u, then v, or for a verdict, 10 in u, then v, or for an event, 12. For an automaton: 13, 1 to 4, 8, 14. For
 * keep and return: 13, the rule's, 15, 16, 3 for the values of the monitor and of every kept name. For reduce_rounds: 13, the
 * rule's, 20, 12. For state_kind: 13, the rule's, 3 for the least grade, 17. For successors: 13, the rule's, 17, 10. For advance_event,
 * advance_mark and advance_stay: 13, the rule's, 3, 12, 10; for advance_word: 13, the rule's, 3, 12, 11, 10. For feed: 13, the rule's, 3, 11, 10. For
 * formula_rule, whose places are bytes of the formula: as it says there. For first_letter: 13, 2, 3, 10;
 * for constant: 13, 2, 3. For next: 13, the rule's, 12, 23. For until: 13, the first file's, the second's, 18, 12 for the first, for the
 * second, 19, 23. */
enum duknavet_refusal {
    DUKNAVET_RESULT = 0,               /* no refusal */
    DUKNAVET_TRUNCATED = 1,            /* bytes end inside a count or section: the length of the input */
    DUKNAVET_COUNT_OUT_OF_RANGE = 2,   /* a count lies outside its range: its first byte; 0 for a number of letters */
    DUKNAVET_ENTRY_OUT_OF_RANGE = 3,   /* an entry, grade or value that there is none of: its byte; 0 for a monitor, a grade alone */
    DUKNAVET_TRAILING_BYTES = 4,       /* bytes follow the last section: the first such byte */
    DUKNAVET_NOT_ASSOCIATIVE = 5,      /* (a*b)*c differs from a*(b*c): a * 4096 + b * 64 + c */
    DUKNAVET_UNREACHABLE = 6,          /* an element is no word's value: the least */
    DUKNAVET_NOT_LINKED = 7,           /* a marked pair is not linked: its first byte */
    DUKNAVET_DUPLICATE = 8,            /* a pair or transition stands twice: the first byte of the later */
    DUKNAVET_UNKNOWN_LETTER = 10,      /* a word or event has a letter of k or more: its position; 0 for an event; of a set: the letter; of a formula: the set's first byte */
    DUKNAVET_WORD_LENGTH = 11,         /* u, v, a word of events or a formula is too long, v is empty, or a verdict lacks since: 0 */
    DUKNAVET_NOT_STRONG = 12,          /* the rule is not strong: 0 */
    DUKNAVET_BUFFER_TOO_SHORT = 13,    /* a lent buffer is too short: 0 */
    DUKNAVET_TOO_MANY_MATRICES = 14,   /* an automaton has more than 64 matrices: 0 */
    DUKNAVET_NAME_OUT_OF_RANGE = 15,   /* a point's name is above 7: 0 */
    DUKNAVET_NAME_NEVER_KEPT = 16,     /* a return goes to a name that was never kept: 0 */
    DUKNAVET_NO_SUCH_STATE = 17,       /* s is neither an element nor 64, or e no idempotent element: 0 */
    DUKNAVET_LETTERS_DIFFER = 18,      /* two rules to be made one have different numbers of letters: 0 */
    DUKNAVET_TOO_MANY_PAIRS = 19,      /* two rules to be made one have more than 64 pairs of values: 0; of a formula: the operation's byte */
    DUKNAVET_LIMIT_OUT_OF_RANGE = 20,  /* a limit of rounds is above 64: 0 */
    DUKNAVET_NAME_NOT_FREE = 21,       /* a rule would enter under a name above 7 or taken: 0 */
    DUKNAVET_NAME_NOT_PRESENT = 22,    /* no rule is present under the name that would leave: 0 */
    DUKNAVET_TOO_MANY_CLASSES = 23,    /* the rule of next or until would have more than 64 elements: 0; of a formula: the operation's byte */
    DUKNAVET_UNBALANCED_FORMULA = 24   /* a formula in postfix form does not leave one rule: the byte of the operation, or the formula's length */
};

/* The refusal of an answer; DUKNAVET_RESULT where it is a result. */
static inline enum duknavet_refusal duknavet_refusal_of(uint64_t answer)
{
    return (enum duknavet_refusal)(answer & 255);
}

/* The input that a refusal lies in. Of a call on a board: the name, 0 to 7, of the rule that it lies in, present or entering; 1 for refusals 13,
 * 21 and 22. Of every other call: 2 for the second marks section, the second rule and the word v, otherwise 1. */
static inline unsigned duknavet_input_of(uint64_t answer)
{
    return (unsigned)((answer >> 8) & 255);
}

/* The place of a refusal in its input. */
static inline uint64_t duknavet_place_of(uint64_t answer)
{
    return answer >> 16;
}

/* Field 0, 1 or 2 of a result. */
static inline size_t duknavet_field(uint64_t answer, unsigned field)
{
    return (size_t)((answer >> (16 * (field + 1))) & 65535);
}

/* Field 0: the elements of the rule, 1 to 64. Field 1: its letters, 1 to 16. Field 2: its marks, 0 to 4096. */
uint64_t duknavet_inspect(const uint8_t *rule, size_t rule_length,
                          uint8_t *scratch, size_t scratch_length);

/* The conjugacy classes of the rule's linked pairs. Field 0: the linked pairs; 1: their classes; 2: the joins, which are the
 * first less the second. out (DUKNAVET_CLASSES) gets two bytes, low byte first, for each pair (s, e), from byte
 * 2 * (s * n + e) on: the least t * n + f with (t, f) conjugate to it, or 65535 where it is not linked; 2 * n * n in all. */
uint64_t duknavet_classes(const uint8_t *rule, size_t rule_length,
                          uint8_t *out, size_t out_length,
                          uint8_t *scratch, size_t scratch_length);

/* Field 0: 1 if the rule is strong, 0 if it is weak. */
uint64_t duknavet_strong(const uint8_t *rule, size_t rule_length,
                         uint8_t *scratch, size_t scratch_length);

/* Field 0: the grade of u, then v for ever, 0 to 3; where u_length is 0, of v for ever. Field 1, whatever the grade: the turns
 * of v, 1 to n. A byte a letter. The rule may be weak. */
uint64_t duknavet_member(const uint8_t *rule, size_t rule_length,
                         const uint8_t *u, size_t u_length,
                         const uint8_t *v, size_t v_length,
                         uint8_t *scratch, size_t scratch_length);

/* What is left to read of u, then v for ever, at a position. Field 0: 1 where it lies in u, 2 where it lies in v. Field 1: where it begins there. Field 2:
 * how many letters it has, to the end of u or of v. Fields 1, 0 and 0 where duknavet_member refuses a length. Never refuses. */
uint64_t duknavet_stretch(const uint8_t *u, size_t u_length,
                          const uint8_t *v, size_t v_length,
                          size_t position);

/* The complement of a strong rule: the same elements, and the grade 3 - g for each lasso of grade g. It marks every linked pair
 * whose lassos it grades 1 or more, with that grade. Field 0: how many bytes of out (DUKNAVET_RULE) it has. */
uint64_t duknavet_complement(const uint8_t *rule, size_t rule_length,
                             uint8_t *out, size_t out_length,
                             uint8_t *scratch, size_t scratch_length);

/* Whether no lasso is graded higher by the rule's marks than by the marks section second (a two-byte count, then marks of three
 * bytes) in their place. Field 0: 1 if so, and nothing is written. Otherwise field 0 is 0, and a lasso that the rule's own
 * marks grade higher is written: field 1 is how many letters of u (DUKNAVET_U), 1 to n; field 2 how many of v (DUKNAVET_V), 1 to
 * (n + 1) * (n + 1) - 1. The rule may be weak. */
uint64_t duknavet_included(const uint8_t *rule, size_t rule_length,
                           const uint8_t *second, size_t second_length,
                           uint8_t *u, size_t u_length,
                           uint8_t *v, size_t v_length,
                           uint8_t *scratch, size_t scratch_length);

/* The smallest strong rule that gives every lasso the grade that a strong rule gives it. It marks every linked pair whose lassos
 * it grades 1 or more, with that grade. Field 0: how many bytes of out (DUKNAVET_RULE) it has. map (DUKNAVET_MAP) gets a byte for each
 * element of the given rule, the element of the smallest rule that it went to. */
uint64_t duknavet_reduce(const uint8_t *rule, size_t rule_length,
                         uint8_t *out, size_t out_length,
                         uint8_t *map, size_t map_length,
                         uint8_t *scratch, size_t scratch_length);

/* Whether the rule second is the strong rule first reduced, by whomever, where map has a byte for each element of the first, the
 * element of the second that it went to. Field 0: 1 for yes, 0 for no. Yes exactly if map has as many bytes as the first rule has
 * elements, each names an element of the second, and each of these is named; products go to products and the letters' elements to
 * those of the same letters, as many in both; every lasso has the same grade by both; and the second is strong and the smallest with
 * these grades. Its elements may be numbered in any way, and its marks may be any that give the grades. What duknavet_reduce writes
 * gets 1, with the bytes of map that it wrote. Refused, in this order: 13; the first file's; the second's; 12 for the first.
 * Whatever is wrong else is 0. */
uint64_t duknavet_confirm(const uint8_t *first, size_t first_length,
                          const uint8_t *second, size_t second_length,
                          const uint8_t *map, size_t map_length,
                          uint8_t *scratch, size_t scratch_length);

/* Two strong rules over as many letters made one, whose elements are the pairs of values that non-empty words have. A lasso has the
 * lower of its two grades (both), the higher (either), or the lower of the first and of 3 less the second (without). It marks every
 * linked pair whose lassos it grades 1 or more, with that grade; it need not be the smallest. Field 0: how many bytes of out
 * (DUKNAVET_RULE) it has. The first file is input 1, the second input 2; both may be the same bytes. Refused, in this order: 13; the
 * first file's; the second's; 18; 12 for the first, for the second; 19. */
uint64_t duknavet_both(const uint8_t *first, size_t first_length,
                       const uint8_t *second, size_t second_length,
                       uint8_t *out, size_t out_length,
                       uint8_t *scratch, size_t scratch_length);
uint64_t duknavet_either(const uint8_t *first, size_t first_length,
                         const uint8_t *second, size_t second_length,
                         uint8_t *out, size_t out_length,
                         uint8_t *scratch, size_t scratch_length);
uint64_t duknavet_without(const uint8_t *first, size_t first_length,
                          const uint8_t *second, size_t second_length,
                          uint8_t *out, size_t out_length,
                          uint8_t *scratch, size_t scratch_length);

/* The rule over so many letters, 1 to 16, that gives a lasso the grade, 0 to 3, where its first letter is in the set, else 0; letter a is in it
 * if set / 2^a is odd. It is the smallest such rule. Field 0: how many bytes of out (DUKNAVET_RULE) it has. Refused, in this order: 13; 2 for
 * the letters; 3 for the grade; 10 where the set has a letter that is not below letters, the least such letter the place. */
uint64_t duknavet_first_letter(size_t letters, size_t set, size_t grade,
                               uint8_t *out, size_t out_length);

/* The rule over so many letters that gives every lasso the grade. Refused as duknavet_first_letter is, but never by 10. */
uint64_t duknavet_constant(size_t letters, size_t grade,
                           uint8_t *out, size_t out_length);

/* The rule that gives a lasso the grade that a strong rule gives to its endless word without the first letter. Its elements are the pairs
 * (value of what is behind the first letter, or none; value of the word) that non-empty words have. It is strong, and marks every linked pair
 * whose lassos it grades 1 or more, with that grade; it need not be the smallest. Field 0: how many bytes of out (DUKNAVET_RULE) it has.
 * Refused, in this order: 13; the rule's; 12; 23 where there are more than 64 such pairs. */
uint64_t duknavet_next(const uint8_t *rule, size_t rule_length,
                       uint8_t *out, size_t out_length,
                       uint8_t *scratch, size_t scratch_length);

/* The rule of the first until the second, two strong rules over as many letters: the grade of a lasso is the highest, over the places i of its
 * endless word, of the lowest of the second's grade from i on and of the first's grade from each j < i on. It is strong, and marks every
 * linked pair whose lassos it grades 1 or more, with that grade; it need not be the smallest. Field 0: how many bytes of out (DUKNAVET_RULE)
 * it has. classes (DUKNAVET_UNTIL_CLASSES) may hold anything, and ends as zeros like scratch. The first file is input 1, the second input 2;
 * both may be the same bytes. Refused, in this order: 13; the first file's; the second's; 18; 12 for the first, for the second; 19; 23 where
 * the rule would have more than 64 elements. */
uint64_t duknavet_until(const uint8_t *first, size_t first_length,
                        const uint8_t *second, size_t second_length,
                        uint8_t *out, size_t out_length,
                        uint8_t *classes, size_t classes_length,
                        uint8_t *scratch, size_t scratch_length);

/* The smallest rule of a whole formula over so many letters, 1 to 16: each lasso has the grade that the formula gives it, and no strong rule that grades
 * alike has fewer elements. The formula is a program of a stack of at most 8 rules, at most DUKNAVET_FORMULA bytes: a code with its operands for each
 * operation. 0: a set (its grade; two bytes, low first, bit a for letter a); 1: a constant (its grade); 12: a copy (a byte: how far below the top, 0 the
 * top); of the top: 2 not, 6 next, 8 eventually, 9 always; of the two on top, the top the second: 3 both, 4 either, 5 without, 7 until, 10 release, 11 weak
 * until. One rule is left at the end. Field 0: how many bytes of out (DUKNAVET_RULE) it has. stack (DUKNAVET_FORMULA_STACK), spare (DUKNAVET_RULE) and
 * classes (DUKNAVET_UNTIL_CLASSES) may hold anything, and end as zeros like scratch. Refused, in this order: 13; 2 for letters; 11 for the formula's length;
 * operation by operation: 3 for a code above 12, its byte; 1 where its operands lack, the length; 3 for a grade above 3, its byte; 10 for a letter of the set
 * that is not below letters, the set's first byte; 24 where there are too few rules for it, more than 8 with it, or a copy from below them, its byte; 24 where
 * not exactly one rule is left, the length. Only then rules are made, and 19 and 23 have the byte of the operation whose tables are too large. */
uint64_t duknavet_formula_rule(size_t letters,
                               const uint8_t *formula, size_t formula_length,
                               uint8_t *out, size_t out_length,
                               uint8_t *stack, size_t stack_length,
                               uint8_t *spare, size_t spare_length,
                               uint8_t *classes, size_t classes_length,
                               uint8_t *scratch, size_t scratch_length);

/* The reduction of a strong rule by rounds: which elements stand together after at most limit rounds (0 to DUKNAVET_MOST_ROUNDS)
 * after round 0. Round 0 puts s and t together if, for every element z, lassos with the values (s, z) and (t, z) have equal
 * grades, and so have those with (z, s) and (z, t). A further round keeps them together if their products with each letter's
 * element, on the right and on the left, stood together too. The rounds stop at the first that one more would not change, or at the
 * limit. Field 0: the rounds done after round 0. Field 1: 1 if one round more would change nothing; the blocks are then the elements
 * of the smallest rule. blocks (DUKNAVET_BLOCKS) gets a byte for each element, the least element of its block. */
uint64_t duknavet_reduce_rounds(const uint8_t *rule, size_t rule_length,
                                size_t limit,
                                uint8_t *blocks, size_t blocks_length,
                                uint8_t *scratch, size_t scratch_length);

/* A rule as an automaton, asked state by state. A state is (s, e): e is an idempotent element, e * e = e, and s an element or
 * DUKNAVET_NONE. Initial are the pairs that the rule marks with the least grade, 1 to 3, or more; final are the states whose s is
 * DUKNAVET_NONE. A letter with the element h leads from (s, e) to (t, e) if h * t is s or s * e, where h * none is h and none * e is e.
 * Some run from an initial state meets a final state again and again on just the lassos that the rule gives the least grade or more;
 * the rule may be weak.
 *
 * The kind of a state, coded as in automaton files. Field 0: 0 plain, 1 initial, 2 final. */
uint64_t duknavet_state_kind(const uint8_t *rule, size_t rule_length,
                             size_t s, size_t e, uint8_t least,
                             uint8_t *scratch, size_t scratch_length);

/* Where a letter leads from a state. Field 0: how many bytes of out (DUKNAVET_SUCCESSORS) name a t, in rising order,
 * DUKNAVET_NONE last. */
uint64_t duknavet_successors(const uint8_t *rule, size_t rule_length,
                             size_t s, size_t e, uint8_t letter,
                             uint8_t *out, size_t out_length,
                             uint8_t *scratch, size_t scratch_length);

/* The rule that gives grade 3 to the lassos on which some run of a Buchi automaton from an initial state meets a final state
 * again and again, and grade 0 to all others. The automaton file: a count of states, 1 to 6, a byte each (0 plain, 1 initial,
 * 2 final, 3 both); a count of letters, 1 to 16; a two-byte count of transitions, 0 to 576, then triples (from, letter, to).
 * Field 0: how many bytes of out (DUKNAVET_RULE) the rule has. */
uint64_t duknavet_automaton_rule(const uint8_t *automaton, size_t automaton_length,
                                 uint8_t *out, size_t out_length,
                                 uint8_t *scratch, size_t scratch_length);

/* Monitors: before is the value of the letters before the last mark, since of those after it, each an element or
 * DUKNAVET_NONE. A refused event, mark, feed, keep, return or advance leaves the monitor as the caller has it. */

/* Field 0 and 1: before and since of a monitor that has seen nothing. Never refuses. */
uint64_t duknavet_fresh(void);

/* Field 0 and 1: before and since after an event. The rule may be weak. */
uint64_t duknavet_event(const uint8_t *rule, size_t rule_length,
                        size_t before, size_t since, uint8_t letter,
                        uint8_t *scratch, size_t scratch_length);

/* Field 0 and 1: before and since after a mark, which changes nothing where since is DUKNAVET_NONE. The rule may be weak. */
uint64_t duknavet_mark(const uint8_t *rule, size_t rule_length,
                       size_t before, size_t since,
                       uint8_t *scratch, size_t scratch_length);

/* Field 0 and 1: before and since after a word of 0 to DUKNAVET_LOG events, a byte a letter: what duknavet_event for each letter in turn comes to, from one
 * check. Its 10 has the position of the first letter that the rule does not have, and the word then moves nothing. The rule may be weak. */
uint64_t duknavet_feed(const uint8_t *rule, size_t rule_length,
                       size_t before, size_t since,
                       const uint8_t *word, size_t word_length,
                       uint8_t *scratch, size_t scratch_length);

/* Keeps the monitor under a name, 0 to 7, in place of what the name held. Field 0 and 1: before and since, as they came. points
 * (DUKNAVET_POINTS), zeros at first, has three bytes for each name, from byte 3 * name on: 0 while it was never kept, before,
 * since; a keep writes those of its name, with a 1, and no other byte. The rule may be weak. */
uint64_t duknavet_keep(const uint8_t *rule, size_t rule_length,
                       size_t before, size_t since, size_t name,
                       uint8_t *points, size_t points_length,
                       uint8_t *scratch, size_t scratch_length);

/* Field 0 and 1: before and since of the monitor that was kept under a name. The points are only read, so that a name can be
 * returned to again. The rule may be weak. */
uint64_t duknavet_return(const uint8_t *rule, size_t rule_length,
                         size_t before, size_t since, size_t name,
                         const uint8_t *points, size_t points_length,
                         uint8_t *scratch, size_t scratch_length);

/* Field 0: the grade, 0 to 3, that a strong rule gives to the lassos whose start has the value before and whose cycle has the
 * value since; where before is DUKNAVET_NONE, to those without a start. Field 1, whatever the grade: the turns of these cycles,
 * 1 to n. */
uint64_t duknavet_verdict(const uint8_t *rule, size_t rule_length,
                          size_t before, size_t since,
                          uint8_t *scratch, size_t scratch_length);

/* An event, a mark or nothing, and then the verdict, from one check of a strong rule. Field 0 and 1: before and since after it. Field 2: the grade of the
 * lassos with these values, as duknavet_verdict has it, with 256 times the turns; 4 and no turns where since is DUKNAVET_NONE. */
uint64_t duknavet_advance_event(const uint8_t *rule, size_t rule_length,
                                size_t before, size_t since, uint8_t letter,
                                uint8_t *scratch, size_t scratch_length);
uint64_t duknavet_advance_mark(const uint8_t *rule, size_t rule_length,
                               size_t before, size_t since,
                               uint8_t *scratch, size_t scratch_length);
uint64_t duknavet_advance_stay(const uint8_t *rule, size_t rule_length,
                               size_t before, size_t since,
                               uint8_t *scratch, size_t scratch_length);

/* The same for a word of 0 to DUKNAVET_LOG events, a byte a letter: what duknavet_advance_event for each letter in turn comes to. Its 10 has the position
 * of the first letter that the rule does not have, and the word then moves nothing. */
uint64_t duknavet_advance_word(const uint8_t *rule, size_t rule_length,
                               size_t before, size_t since,
                               const uint8_t *word, size_t word_length,
                               uint8_t *scratch, size_t scratch_length);

/* The grade and the turns in field 2 of an answer of duknavet_advance_event, _mark, _stay and _word. */
static inline unsigned duknavet_advanced_grade(uint64_t answer)
{
    return (unsigned)(duknavet_field(answer, 2) & 255);
}
static inline unsigned duknavet_advanced_turns(uint64_t answer)
{
    return (unsigned)(duknavet_field(answer, 2) >> 8);
}

/* The harbour board: up to eight strong rules that enter and leave while events go on, each under a name from 0 to 7 with a monitor of
 * its own. The state of a board (DUKNAVET_BOARD) has three bytes for each name, from byte 3 * name on: 0 where no rule is present and
 * any other byte where one is (a call writes 1), before, since; byte 24 is the lowest grade among the rules that are present and have a
 * since, 4 for none. The files of the rules stand in files (DUKNAVET_FILES), that of a name from byte DUKNAVET_RULE * name on.
 * Every call checks the rules that are present, the lowest name first: the file, up to the end that its own counts give; before and since
 * (3, place 0); whether it is strong (12, place 0). The input of such a refusal is the rule's name, 0 to 7, and its place counts from the
 * file's first byte. Field 0 of every call: the lowest grade, or 4. A refused call changes neither the state nor a byte of the files.
 * While the state is handed on unaltered and nobody else writes the files of those present, the lowest grade is that of the lassos of the
 * events that each rule has heard before and since its last mark, from when it entered. */

/* The state of a board where nobody is present. Refused by 13 only. */
uint64_t duknavet_board_empty(uint8_t *state, size_t state_length);

/* A rule enters under a free name, with a monitor that has seen nothing; its file is copied to its place in files, and no other byte of them
 * changes. Refused, in this order: 13; 21; those present; the file that enters, in its own length, and then whether it is strong, both with
 * the name as input. */
uint64_t duknavet_board_enter(uint8_t *state, size_t state_length,
                              size_t name,
                              const uint8_t *file, size_t file_length,
                              uint8_t *files, size_t files_length,
                              uint8_t *scratch, size_t scratch_length);

/* The rule under a name leaves. Refused, in this order: 13; 22; those present, the one that leaves too. */
uint64_t duknavet_board_leave(uint8_t *state, size_t state_length,
                              size_t name,
                              const uint8_t *files, size_t files_length,
                              uint8_t *scratch, size_t scratch_length);

/* An event for all present. Refused, in this order: 13; those present; 10 where it is foreign to a rule, with the lowest such name as
 * input. */
uint64_t duknavet_board_event(uint8_t *state, size_t state_length,
                              uint8_t letter,
                              const uint8_t *files, size_t files_length,
                              uint8_t *scratch, size_t scratch_length);

/* A mark for all present. */
uint64_t duknavet_board_mark(uint8_t *state, size_t state_length,
                             const uint8_t *files, size_t files_length,
                             uint8_t *scratch, size_t scratch_length);

/* Reading a rule file. The file has passed a call's checks, as duknavet_strong makes them: then every number below is in its range,
 * and nothing outside the file is read for elements, letters and marks below their counts. */

/* A marked pair (s, e) and its grade, 1 to 3. */
struct duknavet_marked_pair {
    uint8_t s, e, grade;
};

/* How many elements the rule has. */
static inline size_t duknavet_rule_elements(const uint8_t *rule)
{
    return rule[0];
}

/* The product a * b of two elements. */
static inline uint8_t duknavet_rule_product(const uint8_t *rule, size_t a, size_t b)
{
    return rule[1 + a * rule[0] + b];
}

/* Where the count of the letters stands. */
static inline size_t duknavet_rule_letters_at(const uint8_t *rule)
{
    return 1 + (size_t)rule[0] * rule[0];
}

/* How many letters the rule has. */
static inline size_t duknavet_rule_letters(const uint8_t *rule)
{
    return rule[duknavet_rule_letters_at(rule)];
}

/* The element that a letter stands for. */
static inline uint8_t duknavet_rule_image(const uint8_t *rule, size_t letter)
{
    return rule[duknavet_rule_letters_at(rule) + 1 + letter];
}

/* Where the count of the marks begins: from there on the file is a marks section, as duknavet_included takes one. */
static inline size_t duknavet_rule_marks_at(const uint8_t *rule)
{
    return duknavet_rule_letters_at(rule) + 1 + duknavet_rule_letters(rule);
}

/* How many marks the rule has. */
static inline size_t duknavet_rule_marks(const uint8_t *rule)
{
    const uint8_t *count = rule + duknavet_rule_marks_at(rule);
    return count[0] + 256 * (size_t)count[1];
}

/* A mark by its number, in the order of the file. */
static inline struct duknavet_marked_pair duknavet_rule_mark(const uint8_t *rule, size_t number)
{
    const uint8_t *bytes = rule + duknavet_rule_marks_at(rule) + 2 + 3 * number;
    struct duknavet_marked_pair mark;
    mark.s = bytes[0];
    mark.e = bytes[1];
    mark.grade = bytes[2];
    return mark;
}

/* How many bytes the file has. */
static inline size_t duknavet_rule_length(const uint8_t *rule)
{
    return duknavet_rule_marks_at(rule) + 2 + 3 * duknavet_rule_marks(rule);
}

/* The value of a word of one letter or more, each a letter of the rule. */
static inline uint8_t duknavet_rule_value(const uint8_t *rule, const uint8_t *word, size_t letters)
{
    uint8_t value = duknavet_rule_image(rule, word[0]);
    size_t at;
    for (at = 1; at < letters; at++)
        value = duknavet_rule_product(rule, value, duknavet_rule_image(rule, word[at]));
    return value;
}

#ifdef __cplusplus
}
#endif

#endif
