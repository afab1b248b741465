/* Times one build of the library on the bundles of the shapes: `PROGRAM FILE [NAME]`, where `reference bench --bundles FILE` wrote FILE;
   of those alone that have NAME in their name, if it is given. A line for each shape: its name, a tab, and the least processor time of
   five repetitions in nanoseconds. See tools/orders. */
#define _POSIX_C_SOURCE 200809L
#include "../bindings/c/flatten.h"
#include <stdio.h>
#include <stdlib.h>
#include <string.h>
#include <time.h>

/* A repetition answers a shape so often that it takes this long, at least once. */
static const double shortest_repetition = 5e6;
/* Repetitions end after this time, or after so many; a shape that takes longer is answered once. */
static const double enough = 1e8;
static const int most_repetitions = 5;

struct shape {
    char name[256];
    uint32_t count;
    uint8_t **bundles;
    uint32_t *lengths;
};

static uint8_t text[139393];

static double processor_time(void) {
    struct timespec t;
    clock_gettime(CLOCK_PROCESS_CPUTIME_ID, &t);
    return (double)t.tv_sec * 1e9 + (double)t.tv_nsec;
}

static void *space(size_t size) {
    void *at = malloc(size);
    if (at == NULL) {
        fputs("orders: no memory\n", stderr);
        exit(1);
    }
    return at;
}

static void read_all(FILE *file, void *at, size_t size) {
    if (fread(at, 1, size, file) != size) {
        fputs("orders: the file ends too early\n", stderr);
        exit(1);
    }
}

static uint32_t read_number(FILE *file) {
    uint8_t b[4];
    read_all(file, b, 4);
    return (uint32_t)b[0] << 24 | (uint32_t)b[1] << 16 | (uint32_t)b[2] << 8 | b[3];
}

static struct shape read_shape(FILE *file) {
    struct shape shape = {0};
    uint32_t length = read_number(file);
    if (length >= sizeof shape.name) {
        fputs("orders: a name is too long\n", stderr);
        exit(1);
    }
    read_all(file, shape.name, length);
    shape.count = read_number(file);
    shape.bundles = space(shape.count * sizeof *shape.bundles);
    shape.lengths = space(shape.count * sizeof *shape.lengths);
    for (uint32_t i = 0; i < shape.count; i++) {
        shape.lengths[i] = read_number(file);
        shape.bundles[i] = space(shape.lengths[i]);
        read_all(file, shape.bundles[i], shape.lengths[i]);
    }
    return shape;
}

/* answers all bundles of a shape so often; answers the time */
static double answer(struct shape shape, int rounds) {
    double started = processor_time();
    for (int round = 0; round < rounds; round++) {
        for (uint32_t i = 0; i < shape.count; i++) {
            flatten_respond(shape.bundles[i], shape.lengths[i], text, sizeof text);
        }
    }
    return processor_time() - started;
}

static double least_time(struct shape shape) {
    double once = answer(shape, 1);
    int rounds = once < shortest_repetition ? (int)(shortest_repetition / once) + 1 : 1;
    double least = once;
    double spent = 0;
    for (int i = 0; i < most_repetitions && once + spent < enough; i++) {
        double elapsed = answer(shape, rounds);
        spent += elapsed;
        if (elapsed / rounds < least) {
            least = elapsed / rounds;
        }
    }
    return least;
}

int main(int argc, char **argv) {
    FILE *file = argc == 2 || argc == 3 ? fopen(argv[1], "rb") : NULL;
    if (file == NULL) {
        fputs("usage: orders FILE [NAME]\n", stderr);
        return 2;
    }
    uint32_t shapes = read_number(file);
    for (uint32_t i = 0; i < shapes; i++) {
        struct shape shape = read_shape(file);
        if (argc == 2 || strstr(shape.name, argv[2]) != NULL) {
            printf("%s\t%.0f\n", shape.name, least_time(shape));
        }
    }
    return 0;
}
