/* Terms with units: a helper that takes nothing, the inputs read beside a unit, and refusals. */
#include "flatten.h"

#undef NDEBUG
#include <assert.h>

#define LENGTH(array) (sizeof(array) / sizeof((array)[0]))
#define CAPACITY 8

#define UNIT_TYPE 0x4000000000000000
#define C 0x1000000000000000
#define APPLICATION 0x3000000000000000
#define HELPER 0x2000000000000002
#define UNIT 0xb000000000000001

/* A base type, the unit type, and the functions from unit to base; a call c with no argument. */
static const uint64_t types[] = {0, UNIT_TYPE, 0x1000000040000000}, calls[] = {0}, inputs[] = {0};

/* The answer over these types; the normal form is left in `output`. */
static struct flatten_answer normalize(
    const uint64_t *table, size_t count, const uint64_t *term, size_t length, uint64_t *output) {
    uint64_t first[CAPACITY], second[CAPACITY];
    return flatten_normalize(
        table, count, calls, LENGTH(calls), inputs, LENGTH(inputs), term, length,
        flatten_no_ceilings(100), output, CAPACITY, first, CAPACITY, second, CAPACITY);
}

static void a_helper_that_takes_nothing(void) {
    const uint64_t term[] = {APPLICATION, HELPER, C, UNIT};
    uint64_t output[CAPACITY];
    struct flatten_answer answer = normalize(types, LENGTH(types), term, LENGTH(term), output);
    assert(answer.refusal == 0 && answer.type == 0 && answer.length == 1 && output[0] == C);
    for (size_t i = 0; i < FLATTEN_RULES; i++) assert(answer.counts[i] == (i == 3));
}

static void a_unit_reads_no_input(void) {
    const uint64_t term[] = {UNIT};
    struct flatten_inputs answer = flatten_free_inputs(
        types, LENGTH(types), calls, LENGTH(calls), inputs, LENGTH(inputs), term, LENGTH(term));
    assert(answer.refusal == 0 && answer.count == 0);
    for (size_t i = 0; i < FLATTEN_MARK_WORDS; i++) assert(answer.marks[i] == 0);
}

static void refusals(void) {
    const uint64_t with_a_field[] = {0, UNIT_TYPE | 1}, twice[] = {UNIT_TYPE, UNIT_TYPE};
    const uint64_t unit[] = {UNIT, C}, of_base_type[] = {0xb000000000000000};
    uint64_t output[CAPACITY];
    assert(normalize(with_a_field, LENGTH(with_a_field), unit, 1, output).refusal == 2);
    assert(normalize(twice, LENGTH(twice), unit, 1, output).refusal == 3);
    assert(normalize(types, LENGTH(types), unit, 2, output).refusal == 7);
    assert(normalize(types, LENGTH(types), of_base_type, 1, output).refusal == 9);
}

int main(void) {
    a_helper_that_takes_nothing();
    a_unit_reads_no_input();
    refusals();
    return 0;
}
