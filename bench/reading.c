/*
 * How long check, size and read take, beside the same calls in plain C (plain.c), on a board of 1,024 blocks none of
 * which is free. First both must give the same answers. Each figure is the median of rounds in which the two alternate.
 */
#define _POSIX_C_SOURCE 200809L /* the clock */
#include "../tests/c/random.h"
#include "montebeech.h"

#include <stdio.h>
#include <stdlib.h>
#include <string.h>
#include <time.h>

int64_t plain_check(const uint8_t *image, size_t image_len);
int64_t plain_size(const uint8_t *image, size_t image_len, uint64_t file);
int64_t plain_read(const uint8_t *image, size_t image_len, uint64_t file, uint64_t offset, uint8_t *out, size_t out_len);

typedef struct {
    int64_t (*check)(const uint8_t *, size_t);
    int64_t (*size)(const uint8_t *, size_t, uint64_t);
    int64_t (*read)(const uint8_t *, size_t, uint64_t, uint64_t, uint8_t *, size_t);
} Calls;

static const Calls versions[2] = {{montebeech_check, montebeech_size, montebeech_read}, {plain_check, plain_size, plain_read}};

enum { BLOCKS = 1024, GREATEST = MONTEBEECH_GREATEST_SIZE, UNALIGNED = 3, ROUNDS = 101 };

/* ---- The board */

static const uint64_t span[4] = {64, 512, 4096, 32768};
static uint8_t image[64 * BLOCKS];
static unsigned next_block;

static void put(unsigned at, uint64_t word)
{
    for (unsigned i = 0; i < 8; i++)
        image[8 * at + i] = (uint8_t)(word >> (8 * i));
}

/* A full tree over the bytes from `start` to `size`, the blocks beneath a block before it. */
static uint64_t tree(unsigned height, uint64_t start, uint64_t size)
{
    uint64_t words[8];
    if (start >= size)
        return 0;
    for (unsigned j = 0; j < 8; j++)
        words[j] = height == 0 ? random_word() : tree(height - 1, start + j * span[height - 1], size);
    unsigned block = next_block++;
    for (unsigned j = 0; j < 8; j++)
        put(8 * block + j, words[j]);
    return 8 * (uint64_t)block;
}

static void put_file(unsigned file, unsigned height, uint64_t size)
{
    unsigned inode = 8 * (2 + file / 4) + 2 * (file % 4);
    put(inode, tree(height, 0, size) + height);
    put(inode + 1, size);
}

/* File 0 has 585 blocks, files 1 to 5 have 73 each, file 6 has 63; with the 9 of the inodes, block 0 and the trailer that is all. */
static void make_board(void)
{
    const uint64_t trailer[4] = {9, 512, BLOCKS, 1};
    for (unsigned j = 0; j < 8; j++)
        put(8 + j, 8 * (2 + j));
    next_block = 10;
    put_file(0, 3, GREATEST);
    for (unsigned file = 1; file < 6; file++)
        put_file(file, 2, 4096);
    put_file(6, 2, 3520);
    for (unsigned j = 0; j < 4; j++)
        put(8 * (BLOCKS - 1) + j, trailer[j]);
    if (next_block != BLOCKS - 1) {
        fprintf(stderr, "the board is not full: the next block is %u\n", next_block);
        exit(2);
    }
}

/* ---- The same answers */

static void same(int64_t ours, int64_t plain, const char *call)
{
    if (ours != plain) {
        fprintf(stderr, "%s: answers differ, %lld and %lld\n", call, (long long)ours, (long long)plain);
        exit(1);
    }
}

static void same_read(uint64_t file, uint64_t offset, size_t length)
{
    static uint8_t outs[2][GREATEST + 100];
    int64_t answers[2];
    for (unsigned v = 0; v < 2; v++) {
        memset(outs[v], 0x5a, sizeof outs[v]);
        answers[v] = versions[v].read(image, sizeof image, file, offset, outs[v], length);
    }
    same(answers[0], answers[1], "read");
    same(memcmp(outs[0], outs[1], sizeof outs[0]), 0, "the buffer of a read");
}

static void same_answers(void)
{
    same(montebeech_check(image, sizeof image), plain_check(image, sizeof image), "check");
    for (uint64_t file = 0; file < 34; file++) {
        same(montebeech_size(image, sizeof image, file), plain_size(image, sizeof image, file), "size");
        same_read(file, random_word() % 70, random_word() % (GREATEST + 100));
    }
}

/* On the board, and with each of some words made another. */
static void assert_same_answers(void)
{
    same(montebeech_check(image, sizeof image), 0, "check of the full board");
    same_answers();
    same_read(0, 0, 0);
    same_read(0, 0, GREATEST);
    same_read(0, UNALIGNED, GREATEST);
    for (unsigned i = 0; i < 300; i++) {
        uint8_t kept[8];
        unsigned at = (unsigned)(random_word() % (8 * BLOCKS));
        if (i % 2 == 0) /* the inodes and their pointers */
            at = 8 + at % 72;
        memcpy(kept, image + 8 * at, 8);
        put(at, i % 3 == 0 ? random_word() : 8 * (random_word() % BLOCKS) + random_word() % 5);
        same_answers();
        memcpy(image + 8 * at, kept, 8);
    }
}

/* ---- Time */

enum { CHECK, SIZE, READ_NONE, READ_WHOLE, READ_UNALIGNED, JOBS };

static int64_t do_job(const Calls *calls, unsigned job)
{
    static uint8_t out[GREATEST];
    switch (job) {
    case CHECK:
        return calls->check(image, sizeof image);
    case SIZE:
        return calls->size(image, sizeof image, 0);
    case READ_NONE:
        return calls->read(image, sizeof image, 0, 0, out, 0);
    case READ_WHOLE:
        return calls->read(image, sizeof image, 0, 0, out, GREATEST);
    default:
        return calls->read(image, sizeof image, 0, UNALIGNED, out, GREATEST);
    }
}

static double now(void)
{
    struct timespec t;
    clock_gettime(CLOCK_MONOTONIC, &t);
    return 1e9 * (double)t.tv_sec + (double)t.tv_nsec;
}

/* Nanoseconds for one of some turns. */
static double time_of(const Calls *calls, unsigned job, unsigned turns)
{
    static const int64_t wanted[JOBS] = {0, GREATEST, 0, GREATEST, GREATEST - UNALIGNED};
    double start = now();
    for (unsigned i = 0; i < turns; i++)
        same(do_job(calls, job), wanted[job], "while measured");
    return (now() - start) / turns;
}

static int compare(const void *a, const void *b)
{
    double x = *(const double *)a, y = *(const double *)b;
    return (x > y) - (x < y);
}

/* The median of the rounds' times for a job, less those for another (none: JOBS), for each of some bytes. */
static double median(double times[ROUNDS][JOBS], unsigned job, unsigned less, double bytes)
{
    double sorted[ROUNDS];
    for (unsigned r = 0; r < ROUNDS; r++)
        sorted[r] = (times[r][job] - (less < JOBS ? times[r][less] : 0)) / bytes;
    qsort(sorted, ROUNDS, sizeof *sorted, compare);
    return sorted[ROUNDS / 2];
}

int main(void)
{
    static double times[2][ROUNDS][JOBS];
    static const struct {
        const char *name;
        unsigned job, less;
        double bytes;
    } rows[] = {{"check", CHECK, JOBS, 1},
                {"size", SIZE, JOBS, 1},
                {"read of 32,768 bytes, its check included", READ_WHOLE, JOBS, 1},
                {"read of 32,768 bytes less its check", READ_WHOLE, READ_NONE, 1},
                {"the same, for each byte", READ_WHOLE, READ_NONE, GREATEST},
                {"read from offset 3 less its check", READ_UNALIGNED, READ_NONE, 1},
                {"the same, for each byte", READ_UNALIGNED, READ_NONE, GREATEST - UNALIGNED}};
    make_board();
    assert_same_answers();
    unsigned turns = 1 + (unsigned)(1e6 / time_of(&versions[1], READ_WHOLE, 100)); /* about a millisecond */
    for (unsigned r = 0; r < ROUNDS; r++)
        for (unsigned job = 0; job < JOBS; job++)
            for (unsigned v = 0; v < 2; v++)
                times[v][r][job] = time_of(&versions[v], job, turns);
    printf("ns, median of %d rounds of %3u calls            library    plain C    ratio\n", ROUNDS, turns);
    for (unsigned i = 0; i < sizeof rows / sizeof *rows; i++) {
        double ours = median(times[0], rows[i].job, rows[i].less, rows[i].bytes);
        double plain = median(times[1], rows[i].job, rows[i].less, rows[i].bytes);
        int digits = rows[i].bytes > 1 ? 3 : 0;
        printf("%-46s %10.*f %10.*f %8.2f\n", rows[i].name, digits, ours, digits, plain, ours / plain);
    }
    return 0;
}
