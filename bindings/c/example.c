/* Lists the normal form of a bundle (a file, or standard input), then normalizes a term directly. */
#include "flatten.h"

#include <inttypes.h>
#include <stdio.h>

/* One byte more than a bundle may have, so that a longer file is refused. */
#define MOST_READ 65537

/* More than this term and its normal form need. */
#define CAPACITY 16

#define LENGTH(array) (sizeof(array) / sizeof((array)[0]))

static const uint64_t types[] = {
    0x0000000000000000, /* 0: a base type */
    0x1000000000000000, /* 1: the functions from 0 to 0 */
};

static const uint64_t calls[] = {
    0x0000000000000000, /* c, with no argument, of type 0 */
    0x1000000000000000, /* d, with one argument of type 0, of type 0 */
};

/* Case A of paper 01: the function that calls d on its argument, applied to c. */
static const uint64_t term[] = {
    0x3000000000000000, /* application */
    0x2000000000000001, /* function of type 1 */
    0x1000000040000000, /* d */
    0x0000000000000000, /* its argument */
    0x1000000000000000, /* c */
};

/* Writes the listing of the bundle in this file. */
static int list(FILE *bundle) {
    static uint8_t bytes[MOST_READ];
    static uint8_t text[FLATTEN_MOST_WRITTEN];
    size_t read = fread(bytes, 1, sizeof bytes, bundle);
    if (ferror(bundle)) {
        perror("reading the bundle");
        return 1;
    }
    size_t written = flatten_respond(bytes, read, text, sizeof text);
    return fwrite(text, 1, written, stdout) != written;
}

/* Normalizes the term above and prints the answer. */
static int normalize(void) {
    uint64_t output[CAPACITY] = {0}, first[CAPACITY], second[CAPACITY];
    struct flatten_answer answer = flatten_normalize(
        types, LENGTH(types), calls, LENGTH(calls), NULL, 0, term, LENGTH(term),
        flatten_no_ceilings(1000), output, CAPACITY, first, CAPACITY, second, CAPACITY);
    if (answer.refusal != 0) {
        printf("refused with %" PRIu32 "\n", answer.refusal);
        return 1;
    }
    printf("type %" PRIu64 ", length %zu, steps", answer.type, answer.length);
    for (size_t rule = 0; rule < FLATTEN_RULES; rule++) printf(" %" PRIu32, answer.counts[rule]);
    printf("\n");
    for (size_t i = 0; i < answer.length; i++) printf("%016" PRIx64 "\n", output[i]);
    return 0;
}

int main(int count, char **names) {
    FILE *bundle = count > 1 ? fopen(names[1], "rb") : stdin;
    if (bundle == NULL) {
        perror(names[1]);
        return 1;
    }
    return list(bundle) || normalize();
}
