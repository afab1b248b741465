/* A slice of length 0 may have a null pointer: all calls answer as docs/CONTRACTS.md says. */
#include "flatten.h"

#undef NDEBUG
#include <assert.h>
#include <string.h>

/* One base type, one input of it, and the term that is this input: a normal form. */
static const uint64_t base[] = {0}, input[] = {0}, variable[] = {0};

static void no_term_is_refused_with_1(void) {
    struct flatten_answer answer = flatten_normalize(
        NULL, 0, NULL, 0, NULL, 0, NULL, 0, flatten_no_ceilings(1000), NULL, 0, NULL, 0, NULL, 0);
    assert(answer.refusal == 1);
}

static void no_capacity_is_refused_with_11(void) {
    struct flatten_answer answer = flatten_normalize(
        base, 1, NULL, 0, input, 1, variable, 1, flatten_no_ceilings(1000), NULL, 0, NULL, 0, NULL, 0);
    assert(answer.refusal == 11);
}

static void no_bundle_is_listed_as_refused_with_12(void) {
    const char listing[] = "no 12 0 0 0 0 0 0 0 0 0 0\n";
    uint8_t text[64];
    assert(flatten_respond(NULL, 0, text, sizeof text) == strlen(listing));
    assert(memcmp(text, listing, strlen(listing)) == 0);
}

static void no_text_is_answered_with_0(void) {
    assert(flatten_respond(NULL, 0, NULL, 0) == 0);
}

static void no_term_has_no_inputs(void) {
    struct flatten_inputs answer = flatten_free_inputs(NULL, 0, NULL, 0, NULL, 0, NULL, 0);
    assert(answer.refusal == 1 && answer.count == 0);
}

static void no_inputs_have_no_marks(void) {
    const uint64_t call[] = {0}, term[] = {0x1000000000000000};
    struct flatten_inputs answer = flatten_free_inputs(base, 1, call, 1, NULL, 0, term, 1);
    assert(answer.refusal == 0 && answer.count == 0);
}

int main(void) {
    no_term_is_refused_with_1();
    no_capacity_is_refused_with_11();
    no_bundle_is_listed_as_refused_with_12();
    no_text_is_answered_with_0();
    no_term_has_no_inputs();
    no_inputs_have_no_marks();
    return 0;
}
