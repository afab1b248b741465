/* The inputs that occur free in a term: marks at the borders of their words, and refusals. */
#include "flatten.h"

#undef NDEBUG
#include <assert.h>

#define LENGTH(array) (sizeof(array) / sizeof((array)[0]))
#define HIGHEST 0x8000000000000000

#define C 0x1000000000000000
#define LET 0x4000000000000000
#define FUNCTION 0x2000000000000001
#define VARIABLE(number) ((uint64_t)(number) << 30)

/* A base type and the functions from it to itself, a call with no argument, up to 257 inputs. */
static const uint64_t types[] = {0, 0x1000000000000000}, calls[] = {0}, inputs[257] = {0};

static struct flatten_inputs free_inputs(size_t count, const uint64_t *term, size_t length) {
    return flatten_free_inputs(
        types, LENGTH(types), calls, LENGTH(calls), inputs, count, term, length);
}

static void assert_answer(
    struct flatten_inputs answer, uint32_t refusal, const uint64_t *marks, uint32_t count) {
    assert(answer.refusal == refusal);
    for (size_t i = 0; i < FLATTEN_MARK_WORDS; i++) assert(answer.marks[i] == marks[i]);
    assert(answer.count == count);
}

static void each_input_has_its_mark(void) {
    for (size_t input = 0; input < 256; input++) {
        uint64_t marks[FLATTEN_MARK_WORDS] = {0};
        marks[input / 64] = HIGHEST >> input % 64;
        const uint64_t alone[] = {VARIABLE(input)}, under_a_let[] = {LET, C, VARIABLE(input + 1)};
        assert_answer(free_inputs(256, alone, LENGTH(alone)), 0, marks, 1);
        assert_answer(free_inputs(256, under_a_let, LENGTH(under_a_let)), 0, marks, 1);
    }
}

/* let (function v2), v1: the function, which reads input 1, is never applied. */
static void an_input_is_marked_where_no_run_reads_it(void) {
    const uint64_t term[] = {LET, FUNCTION, VARIABLE(2), VARIABLE(1)};
    const uint64_t marks[] = {0xc000000000000000, 0, 0, 0};
    assert_answer(free_inputs(2, term, LENGTH(term)), 0, marks, 2);
}

static void a_refusal_has_no_marks(void) {
    const uint64_t term[] = {VARIABLE(0), VARIABLE(0)}, none[FLATTEN_MARK_WORDS] = {0};
    assert_answer(free_inputs(257, term, 1), 1, none, 0);
    assert_answer(free_inputs(1, term, 2), 7, none, 0);
    assert_answer(free_inputs(0, term, 1), 8, none, 0);
}

int main(void) {
    each_input_has_its_mark();
    an_input_is_marked_where_no_run_reads_it();
    a_refusal_has_no_marks();
    return 0;
}
