/*
 * The verified normalizer for small typed functional terms, for C and C++ on x86-64 Linux.
 * Link crates/exports/out/libexports.a, which `rt lib` proves and writes in crates/exports.
 * docs/CONTRACTS.md says in full what the calls promise.
 *
 * What a caller owes, for each pointer and the length that follows it (in elements, not bytes):
 * - The pointer is aligned for its type and valid for that many elements, for the whole call.
 *   With length 0 it is not followed, and may be null.
 * - Nothing else writes the elements during the call.
 * - A slice that the call may write (its pointer is not const) overlaps no other slice.
 *   Slices that are only read may overlap each other.
 * Nothing tests this. Nothing else is owed: a slice may have any length and hold anything, and
 * bad input is refused by number.
 *
 * What holds for all calls: they return, and read and write no memory but the slices and the
 * stack. They keep nothing between calls, so threads may make them at the same time.
 * They use the stack of their thread, flatten_respond and flatten_normalize the more, the deeper a
 * term nests. The least that was enough for the deepest term, as an earlier compiler built it: 924 KiB
 * for flatten_respond, 668 KiB for flatten_normalize, 200 KiB for flatten_free_inputs
 * (bindings/rust/tests/depth.rs, which runs with 2 MiB). Allow 2 MiB. A stack that is too small is
 * not refused by number: the process ends at its guard page.
 */
#ifndef FLATTEN_H
#define FLATTEN_H

#include <stddef.h>
#include <stdint.h>

#ifdef __cplusplus
extern "C" {
#endif

/* The most bytes that flatten_respond writes. */
#define FLATTEN_MOST_WRITTEN 139393

/* The number of rules, and so of counts in an answer and of ceilings in settings. */
#define FLATTEN_RULES 10

/* The number of words that hold the marks of 256 inputs. */
#define FLATTEN_MARK_WORDS 4

/*
 * What a caller of flatten_normalize sets.
 *
 * budget    how many steps may be taken
 * ceilings  how often each rule may be used, in the order of the counts below; with a ceiling of 0
 *           a term is refused where that rule is to be used, and not otherwise
 *
 * Raising any of these numbers keeps every accepted outcome as it is.
 */
struct flatten_settings {
    uint32_t budget;
    uint32_t ceilings[FLATTEN_RULES];
};

/*
 * The answer of flatten_normalize.
 *
 * refusal  0 where the term is accepted, else the reason:
 *          1  over 1,024 types, over 1,024 calls, over 256 inputs, over 4,096 term words,
 *             or no term word
 *          2  a type word is malformed             3  a type word is duplicated
 *          4  a call word is malformed             5  an input's type is unknown
 *          6  a term word is malformed             7  the term's words end early or are left over
 *          8  a variable names no binder and no input
 *          9  the term is not well typed
 *         10  a rule fits and as many steps as the budget were taken
 *         11  the term handed in, or the next term, is longer than the capacity
 *         13  a rule fits and was used as often as its ceiling says; looked at before each step
 *             after 10 and before 11
 * type     the number of the term's type; 0 where it is refused
 * length   the words of the normal form; 0 where it is refused
 * counts   how often each rule was applied: 0 let, 1 let of let, 2 let of case, 3 apply, 4 first,
 *          5 second, 6 left case, 7 right case, 8 let value, 9 drop; all zero where it is refused
 *          with 1 to 9, and the steps taken where it is refused with 10, 11 or 13
 */
struct flatten_answer {
    uint32_t refusal;
    uint64_t type;
    size_t length;
    uint32_t counts[FLATTEN_RULES];
};

/*
 * The answer of flatten_free_inputs.
 *
 * refusal  0 where the term is accepted, else 1 to 9 as above, with 8,192 term words in place of
 *          4,096
 * marks    a mark for each input: that of input i is bit 63 - i % 64 of marks[i / 64], so that
 *          input 0 has the highest bit of the first word; all zero where the term is refused
 * count    how many marks are set
 */
struct flatten_inputs {
    uint32_t refusal;
    uint64_t marks[FLATTEN_MARK_WORDS];
    uint32_t count;
};

/*
 * Reads a bundle, normalizes its term with budget 1,000,000, no ceilings and capacity 8,192, and
 * writes the listing to the front of the text; the rest of the text stays as it was. Answers how
 * many bytes were written. A bundle that cannot be read is listed as refused with 12.
 *
 * A text that is shorter than the listing stays as it was, and the answer is 0. A text of
 * FLATTEN_MOST_WRITTEN bytes holds every listing.
 */
size_t flatten_respond(const uint8_t *bytes, size_t bytes_length, uint8_t *text, size_t text_length);

/*
 * Settings with this budget and no ceilings: each is 4,294,967,295, which a budget of 32 bits never
 * lets a rule go beyond. With them no refusal is 13.
 */
struct flatten_settings flatten_no_ceilings(uint32_t budget);

/*
 * Normalizes a term over its tables, within the settings. The capacity is the length of the shortest
 * of output, first and second, and 8,192 at most.
 *
 * output         accepted: the front holds the normal form and the rest stays as it was;
 *                refused: all of it stays as it was
 * first, second  scratch: all words are zero after every call, whatever they held before
 */
struct flatten_answer flatten_normalize(
    const uint64_t *types, size_t types_length,
    const uint64_t *calls, size_t calls_length,
    const uint64_t *inputs, size_t inputs_length,
    const uint64_t *term, size_t term_length,
    struct flatten_settings settings,
    uint64_t *output, size_t output_length,
    uint64_t *first, size_t first_length,
    uint64_t *second, size_t second_length);

/*
 * Marks the inputs that occur free in a term: an input is marked exactly if some variable of the
 * term names it, be it in a let that is not used, in a function that is never applied, or in a
 * branch that is never taken. An input that is not marked for a term is not marked for its normal
 * form. Nothing is written but the answer.
 */
struct flatten_inputs flatten_free_inputs(
    const uint64_t *types, size_t types_length,
    const uint64_t *calls, size_t calls_length,
    const uint64_t *inputs, size_t inputs_length,
    const uint64_t *term, size_t term_length);

#ifdef __cplusplus
}
#endif

#endif
