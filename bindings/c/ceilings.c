/* Ceilings: the order of 10, 13 and 11, which ceiling decides, and settings without ceilings. */
#include "flatten.h"

#undef NDEBUG
#include <assert.h>

#define LENGTH(array) (sizeof(array) / sizeof((array)[0]))
#define MOST 8
#define BEFORE 0xdead

/* A base type and the functions over it; the call c with no argument, and d with one. */
static const uint64_t types[] = {0, 0x1000000000000000}, calls[] = {0, 0x1000000000000000};

/* The function that calls d on its argument, applied to c: one let, then one apply. */
static const uint64_t term[] = {
    0x3000000000000000, 0x2000000000000001, 0x1000000040000000, 0, 0x1000000000000000};

/* Its normal form: let c, d v0 */
static const uint64_t normal[] = {0x4000000000000000, 0x1000000000000000, 0x1000000040000000, 0};

enum { LET, APPLY = 3, DROP = 9 };

/* Settings in which no rule is allowed. */
static struct flatten_settings nothing(uint32_t budget) {
    return (struct flatten_settings){.budget = budget};
}

static struct flatten_settings allowing(struct flatten_settings settings, int rule, uint32_t uses) {
    settings.ceilings[rule] = uses;
    return settings;
}

/* Answered with this refusal after so many lets and applies; 0 is a normal form. */
static void expect(struct flatten_settings settings, size_t capacity, uint32_t refusal, uint32_t lets, uint32_t applies) {
    uint64_t output[MOST], first[MOST], second[MOST];
    for (size_t i = 0; i < MOST; i++) output[i] = first[i] = second[i] = BEFORE;
    struct flatten_answer answer = flatten_normalize(
        types, LENGTH(types), calls, LENGTH(calls), NULL, 0, term, LENGTH(term), settings, output, MOST,
        first, capacity, second, capacity);
    size_t length = refusal == 0 ? LENGTH(normal) : 0;
    assert(answer.refusal == refusal && answer.type == 0 && answer.length == length);
    for (size_t i = 0; i < MOST; i++) assert(output[i] == (i < length ? normal[i] : BEFORE));
    for (size_t i = 0; i < capacity; i++) assert(first[i] == 0 && second[i] == 0);
    for (size_t i = 0; i < FLATTEN_RULES; i++)
        assert(answer.counts[i] == (i == LET ? lets : i == APPLY ? applies : 0));
}

int main(void) {
    struct flatten_settings unlimited = flatten_no_ceilings(1000);
    assert(unlimited.budget == 1000);
    for (size_t i = 0; i < FLATTEN_RULES; i++) assert(unlimited.ceilings[i] == UINT32_MAX);
    expect(unlimited, 7, 0, 1, 1);

    /* The term has five words and the next seven: before the first step all three are met. */
    expect(nothing(0), 6, 10, 0, 0);
    expect(nothing(1), 6, 13, 0, 0);
    expect(allowing(nothing(1), LET, 1), 6, 11, 0, 0);
    expect(nothing(0), 4, 11, 0, 0);

    /* Before the second. */
    expect(allowing(nothing(1), LET, 1), 7, 10, 1, 0);
    expect(allowing(nothing(2), LET, 1), 7, 13, 1, 0);
    expect(allowing(allowing(nothing(2), LET, 1), APPLY, 1), 7, 0, 1, 1);

    /* A ceiling of a rule that is not used does no harm. */
    expect(allowing(unlimited, DROP, 0), 7, 0, 1, 1);
    expect(allowing(unlimited, APPLY, 0), 7, 13, 1, 0);
    return 0;
}
