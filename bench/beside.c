/*
 * How long the calls take by two builds of the library in one binary, called in turn. bench/beside links it: the names
 * of the build before begin with old_, those of the present one with new_. Both must first leave the same answers and plans.
 *
 *   beside                prints for each row the median nanoseconds of a call by either build
 *   beside BUILD ROW N    makes N calls of one row by one build (0 or 1), for a count of instructions
 */
#define _POSIX_C_SOURCE 200809L /* the clock */
#include "../tests/c/random.h"

#include <stddef.h>
#include <stdint.h>
#include <stdio.h>
#include <stdlib.h>
#include <string.h>
#include <time.h>

#define DECLARED(b)                                                                                                      \
    int64_t b##_montebeech_check(const uint8_t *, size_t);                                                               \
    int64_t b##_montebeech_size(const uint8_t *, size_t, uint64_t);                                                      \
    int64_t b##_montebeech_read(const uint8_t *, size_t, uint64_t, uint64_t, uint8_t *, size_t);                         \
    int64_t b##_montebeech_words_check(const uint64_t *, size_t);                                                        \
    int64_t b##_montebeech_words_read(const uint64_t *, size_t, uint64_t, uint64_t, uint8_t *, size_t);                  \
    int64_t b##_montebeech_words_write(const uint64_t *, size_t, uint64_t, uint64_t, const uint8_t *, size_t,            \
                                       uint64_t *, size_t);                                                              \
    int64_t b##_montebeech_words_set_length(const uint64_t *, size_t, uint64_t, uint64_t, uint64_t *, size_t);           \
    int64_t b##_montebeech_words_format(const uint64_t *, size_t, uint64_t *, size_t);                                   \
    int64_t b##_montebeech_words_perform(uint64_t *, size_t, const uint64_t *, size_t, uint64_t);
DECLARED(old)
DECLARED(new)

typedef struct {
    int64_t (*check)(const uint8_t *, size_t);
    int64_t (*size)(const uint8_t *, size_t, uint64_t);
    int64_t (*read)(const uint8_t *, size_t, uint64_t, uint64_t, uint8_t *, size_t);
    int64_t (*words_check)(const uint64_t *, size_t);
    int64_t (*words_read)(const uint64_t *, size_t, uint64_t, uint64_t, uint8_t *, size_t);
    int64_t (*write)(const uint64_t *, size_t, uint64_t, uint64_t, const uint8_t *, size_t, uint64_t *, size_t);
    int64_t (*set_length)(const uint64_t *, size_t, uint64_t, uint64_t, uint64_t *, size_t);
    int64_t (*format)(const uint64_t *, size_t, uint64_t *, size_t);
    int64_t (*perform)(uint64_t *, size_t, const uint64_t *, size_t, uint64_t);
} Calls;

#define CALLS(b)                                                                                                         \
    {b##_montebeech_check,       b##_montebeech_size,        b##_montebeech_read,                                        \
     b##_montebeech_words_check, b##_montebeech_words_read,  b##_montebeech_words_write,                                 \
     b##_montebeech_words_set_length, b##_montebeech_words_format, b##_montebeech_words_perform}
static const Calls builds[2] = {CALLS(old), CALLS(new)};

enum { WORDS = 8192, PLAN = 12000, GREATEST = 32768, ROUNDS = 61 };
static uint64_t full[WORDS], half[WORDS], part[WORDS], small[WORDS], empty[WORDS], performed[WORDS], plan[PLAN];
static uint8_t bytes[GREATEST], out[GREATEST];
static int64_t pairs;

/* ---- Rows */

typedef enum { CHECK, SIZE, READ, WORDS_CHECK, WORDS_READ, WRITE, SET_LENGTH, FORMAT, PERFORM } Call;
typedef struct {
    const char *name;
    Call call;
    uint64_t *board;
    uint64_t at; /* offset, or length */
    size_t count;
} Row;

static const Row rows[] = {
    {"check of an image", CHECK, full, 0, 0},
    {"size, on an image", SIZE, full, 0, 0},
    {"read of no byte from an image", READ, full, 0, 0},
    {"read of 32,768 bytes from an image", READ, full, 0, GREATEST},
    {"read from offset 3 of an image", READ, full, 3, GREATEST},
    {"check of words", WORDS_CHECK, full, 0, 0},
    {"read of 32,768 bytes from words", WORDS_READ, full, 0, GREATEST},
    {"planning one word", WRITE, half, 8000, 8},
    {"planning 8 bytes past the end", WRITE, part, 3400, 8},
    {"planning a 64-byte append", WRITE, half, 16384, 64},
    {"planning a 4,096-byte overwrite", WRITE, half, 4096, 4096},
    {"planning a 32,768-byte write", WRITE, empty, 0, GREATEST},
    {"planning 30,000 bytes after 100", WRITE, small, 100, 30000},
    {"length from 3,000 to 32,768", SET_LENGTH, part, GREATEST, 0},
    {"length from 16,384 to 100", SET_LENGTH, half, 100, 0},
    {"format", FORMAT, empty, 0, 0},
    {"performing one word", PERFORM, half, 8000, 8},
    {"performing 8 bytes past the end", PERFORM, part, 3400, 8},
    {"performing a 64-byte append", PERFORM, half, 16384, 64},
    {"performing a 4,096-byte overwrite", PERFORM, half, 4096, 4096},
    {"performing a 32,768-byte write", PERFORM, empty, 0, GREATEST},
};
enum { ROWS = sizeof rows / sizeof *rows };

static int64_t call(const Calls *build, const Row *row)
{
    const uint8_t *image = (const uint8_t *)row->board; /* byte 0 first, as on this machine */
    switch (row->call) {
    case CHECK:
        return build->check(image, 8 * WORDS);
    case SIZE:
        return build->size(image, 8 * WORDS, 0);
    case READ:
        return build->read(image, 8 * WORDS, 0, row->at, out, row->count);
    case WORDS_CHECK:
        return build->words_check(row->board, WORDS);
    case WORDS_READ:
        return build->words_read(row->board, WORDS, 0, row->at, out, row->count);
    case WRITE:
        return build->write(row->board, WORDS, 0, row->at, bytes, row->count, plan, PLAN);
    case SET_LENGTH:
        return build->set_length(row->board, WORDS, 0, row->at, plan, PLAN);
    case FORMAT:
        return build->format(row->board, WORDS, plan, PLAN);
    case PERFORM:
        return build->perform(performed, WORDS, plan, PLAN, (uint64_t)pairs);
    }
    return 0;
}

static int64_t done(int64_t answer)
{
    if (answer < 0) {
        fprintf(stderr, "refused %lld\n", (long long)-answer);
        exit(2);
    }
    return answer;
}

/* What performing a row needs: its plan, and a board to perform it on. */
static void prepare(const Row *row)
{
    if (row->call == PERFORM) {
        memcpy(performed, row->board, sizeof performed);
        pairs = done(builds[0].write(row->board, WORDS, 0, row->at, bytes, row->count, plan, PLAN));
    }
}

/* ---- Boards */

static void put(uint64_t *board, uint64_t file, uint64_t offset, size_t count)
{
    int64_t n = done(builds[0].write(board, WORDS, file, offset, bytes, count, plan, PLAN));
    done(builds[0].perform(board, WORDS, plan, PLAN, (uint64_t)n));
}

static void format(uint64_t *board)
{
    int64_t n = done(builds[0].format(board, WORDS, plan, PLAN));
    done(builds[0].perform(board, WORDS, plan, PLAN, (uint64_t)n));
}

/* A full board has files of 32,768, five times 4,096 and 3,520 bytes; the others one file, of 16,384, 3,000, 100 or no bytes. */
static void make_boards(void)
{
    for (unsigned i = 0; i < GREATEST; i++)
        bytes[i] = (uint8_t)random_word();
    format(full);
    put(full, 0, 0, GREATEST);
    for (unsigned file = 1; file < 6; file++)
        put(full, file, 0, 4096);
    put(full, 6, 0, 3520);
    format(half);
    put(half, 0, 0, 16384);
    format(part);
    put(part, 0, 0, 3000);
    format(small);
    put(small, 0, 0, 100);
    format(empty);
}

static void assert_same(void)
{
    static uint64_t plans[2][PLAN];
    static uint8_t outs[2][GREATEST];
    for (const Row *row = rows; row < rows + ROWS; row++) {
        int64_t answers[2];
        for (unsigned b = 0; b < 2; b++) {
            memset(plan, 7, sizeof plan);
            memset(out, 7, sizeof out);
            prepare(row);
            answers[b] = done(call(&builds[b], row));
            memcpy(plans[b], plan, sizeof plan);
            memcpy(outs[b], out, sizeof out);
        }
        if (answers[0] != answers[1] || memcmp(plans[0], plans[1], sizeof plan) || memcmp(outs[0], outs[1], sizeof out)) {
            fprintf(stderr, "%s: the builds differ\n", row->name);
            exit(1);
        }
    }
}

/* ---- Time */

static double nanoseconds(void)
{
    struct timespec t;
    clock_gettime(CLOCK_MONOTONIC, &t);
    return 1e9 * (double)t.tv_sec + (double)t.tv_nsec;
}

static double time_of(const Calls *build, const Row *row, unsigned repeats)
{
    double start = nanoseconds();
    for (unsigned i = 0; i < repeats; i++)
        call(build, row);
    return (nanoseconds() - start) / repeats;
}

static int by_value(const void *a, const void *b)
{
    double x = *(const double *)a, y = *(const double *)b;
    return x < y ? -1 : x > y;
}

static void print_row(const Row *row)
{
    double figures[2][ROUNDS];
    prepare(row);
    unsigned repeats = 1 + (unsigned)(400000 / time_of(&builds[0], row, 2));
    for (unsigned round = 0; round < ROUNDS; round++)
        for (unsigned i = 0; i < 2; i++) {
            unsigned b = (i + round) % 2;
            figures[b][round] = time_of(&builds[b], row, repeats);
        }
    for (unsigned b = 0; b < 2; b++)
        qsort(figures[b], ROUNDS, sizeof(double), by_value);
    printf("%s;%.2f;%.2f\n", row->name, figures[0][ROUNDS / 2], figures[1][ROUNDS / 2]);
}

int main(int argc, char **argv)
{
    make_boards();
    if (argc == 4) {
        const Calls *build = &builds[atoi(argv[1]) != 0];
        const Row *row = &rows[(unsigned)atoi(argv[2]) % ROWS];
        prepare(row);
        for (int i = atoi(argv[3]); i > 0; i--)
            done(call(build, row));
        return 0;
    }
    assert_same();
    for (const Row *row = rows; row < rows + ROWS; row++)
        print_row(row);
    return 0;
}
