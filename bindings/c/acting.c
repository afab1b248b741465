/* Calls that act: one whose answer is not used stays, another goes; the inputs that it reads; and refusals. */
#include "flatten.h"

#undef NDEBUG
#include <assert.h>

#define LENGTH(array) (sizeof(array) / sizeof((array)[0]))
#define CAPACITY 8

#define LET 0x4000000000000000
#define STAMP 0x1000000000000000
#define MEASURE 0x1000000040000000
#define VARIABLE(number) ((uint64_t)(number) << 30)

/* A base type; the call stamp, which acts and takes one argument, and measure, which does not act. */
static const uint64_t types[] = {0}, calls[] = {0x9000000000000000, 0x1000000000000000}, inputs[] = {0};

/* The answer over this call table; the normal form is left in `output`. */
static struct flatten_answer normalize(
    const uint64_t *table, size_t count, const uint64_t *term, size_t length, uint64_t *output) {
    uint64_t first[CAPACITY], second[CAPACITY];
    return flatten_normalize(
        types, LENGTH(types), table, count, inputs, LENGTH(inputs), term, length,
        flatten_no_ceilings(100), output, CAPACITY, first, CAPACITY, second, CAPACITY);
}

/* let x = stamp(i) in let y = measure(i) in i */
static void the_stamp_stays_and_the_measure_goes(void) {
    const uint64_t term[] = {LET, STAMP, VARIABLE(0), LET, MEASURE, VARIABLE(1), VARIABLE(2)};
    const uint64_t normal[] = {LET, STAMP, VARIABLE(0), VARIABLE(1)};
    uint64_t output[CAPACITY];
    struct flatten_answer answer = normalize(calls, LENGTH(calls), term, LENGTH(term), output);
    assert(answer.refusal == 0 && answer.type == 0 && answer.length == LENGTH(normal));
    for (size_t i = 0; i < LENGTH(normal); i++) assert(output[i] == normal[i]);
    for (size_t i = 0; i < FLATTEN_RULES; i++) assert(answer.counts[i] == (i == 9));
}

static void an_acting_call_reads_its_argument(void) {
    const uint64_t term[] = {STAMP, VARIABLE(0)};
    struct flatten_inputs answer = flatten_free_inputs(
        types, LENGTH(types), calls, LENGTH(calls), inputs, LENGTH(inputs), term, LENGTH(term));
    assert(answer.refusal == 0 && answer.count == 1 && answer.marks[0] == 0x8000000000000000);
}

static void refusals(void) {
    const uint64_t term[] = {STAMP, VARIABLE(0)};
    uint64_t output[CAPACITY];
    for (uint64_t count = 0; count < 16; count++) {
        const uint64_t call[] = {count << 60};
        uint32_t expected = count == 1 || count == 9 ? 0 : count % 8 < 4 ? 7 : 4;
        assert(normalize(call, LENGTH(call), term, LENGTH(term), output).refusal == expected);
    }
    const uint64_t past_the_argument[] = {0x9000000000008000};
    assert(normalize(past_the_argument, 1, term, LENGTH(term), output).refusal == 4);
}

int main(void) {
    the_stamp_stays_and_the_measure_goes();
    an_acting_call_reads_its_argument();
    refusals();
    return 0;
}
