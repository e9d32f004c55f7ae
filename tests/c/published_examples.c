/*
 * Document 01's bench examples on a formatted board of 16 blocks of 512 words (N11 of document 02), each with its plan: the numbers are
 * worked out by hand from the two documents.
 */
#include "counting.h"
#include "probes.h"

#include <inttypes.h>
#include <string.h>

enum { BLOCK = 512, WORDS = 16 * BLOCK, PLAN = 2 * WORDS, GREATEST = 2097152 };
#define BARRIER UINT64_MAX

static uint64_t board[WORDS], plan[PLAN];
static uint8_t zeros[45057];

/* ---- The plan that a call must leave */

static uint64_t expected[PLAN];
static size_t expected_words;

static void pair(uint64_t at, uint64_t value)
{
    expected[expected_words++] = at;
    expected[expected_words++] = value;
}

static void barrier(void)
{
    pair(BARRIER, 0);
}

/* A fresh block with two words that may not be 0. */
static void block(uint64_t number, size_t place, uint64_t word, uint64_t next)
{
    for (size_t j = 0; j < BLOCK; j++)
        pair(BLOCK * number + j, j == place ? word : j == place + 1 ? next : 0);
}

static void expect(const char *what, int64_t wanted, int64_t found)
{
    if (fails(wanted == found))
        printf("%s: expected %" PRId64 ", found %" PRId64 "\n", what, wanted, found);
}

/* The answer and the plan are as expected; the plan is performed. */
static void performed(int64_t answer)
{
    expect("pairs", (int64_t)(expected_words / 2), answer);
    expect("the plan's words", 0, memcmp(plan, expected, 8 * expected_words));
    expect("perform", answer, probe_perform(board, WORDS, plan, PLAN, (uint64_t)(answer > 0 ? answer : 0)));
    expected_words = 0;
}

/* ---- Calls on file 0 */

static int64_t writes(uint64_t offset, const char *bytes, size_t count)
{
    return probe_write(board, WORDS, 0, offset, (const uint8_t *)bytes, count, plan, PLAN);
}

static int64_t lengthens(uint64_t length)
{
    return probe_set_length(board, WORDS, 0, length, plan, PLAN);
}

static void expect_free(int64_t blocks)
{
    expect("free count", blocks, probe_free_count(board, WORDS));
}

static void format_board(void)
{
    int64_t pairs = probe_format(board, WORDS, plan, PLAN);
    expect("format", 1539, pairs);
    expect("perform", 1539, probe_perform(board, WORDS, plan, PLAN, (uint64_t)pairs));
    expect("check", 0, probe_check(board, WORDS));
    expect("file 31", 0, probe_size(board, WORDS, 31));
}

static void second_example(void)
{
    format_board();
    block(3, 0, 16961, 0);
    pair(1024, 1536);
    barrier();
    pair(1025, 2);
    performed(writes(0, "AB", 2));
}

/* ---- The examples */

static void one_to_three(void)
{
    about("E1");
    memset(board, 7, sizeof board);
    expect("format in 3,077 words", -8, probe_format(board, WORDS, plan, 3077));
    expect("format in 3,078 words", 1539, probe_format(board, WORDS, plan, 3078));
    format_board();
    expect_free(12);
    about("E2");
    expect("in 1,029 words", -8, probe_write(board, WORDS, 0, 0, (const uint8_t *)"AB", 2, plan, 1029));
    second_example();
    expect_free(11);
    about("E3");
    pair(1536, 16986);
    performed(writes(0, "Z", 1));
}

static void four_to_seven(void)
{
    about("E4");
    second_example();
    block(4, 0, 4473665, 0);
    block(5, 0, 2048, 3);
    barrier();
    pair(512, 2560);
    performed(writes(1, "CD", 2));
    expect_free(11);
    about("E5");
    second_example();
    pair(1025, 0);
    performed(lengthens(0));
    expect_free(12);
    about("E6");
    pair(1024, 0);
    barrier();
    pair(1025, 1);
    performed(lengthens(1));
    uint8_t byte = 65;
    expect("read", 1, probe_read(board, WORDS, 0, 0, &byte, 1));
    expect("the byte", 0, byte);
    about("E7");
    second_example();
    pair(1536, 16961);
    pair(1537, 0);
    barrier();
    pair(1025, 10);
    performed(lengthens(10));
}

/* Growth from a block to a pointer block over it. Byte 4,999 is byte 903 of its block: byte 7 of word 112. */
static void eight(void)
{
    about("E8");
    second_example();
    int64_t pairs = lengthens(5000);
    expect("length 5,000", 514, pairs);
    expect("perform", pairs, probe_perform(board, WORDS, plan, PLAN, (uint64_t)pairs));
    block(4, 0, 1536, 0);
    barrier();
    pair(1024, 2049);
    barrier();
    block(5, 112, UINT64_C(7) << 56, 0);
    barrier();
    pair(2049, 2560);
    performed(writes(4999, "\7", 1));
    expect_free(9);
}

/* 11 data blocks and one of pointers are all that are free. */
static void nine_to_twelve(void)
{
    about("E9");
    format_board();
    expect("45,057 bytes", -7, probe_write(board, WORDS, 0, 0, zeros, 45057, plan, PLAN));
    expect("45,056 bytes", 12 * BLOCK + 3, probe_write(board, WORDS, 0, 0, zeros, 45056, plan, PLAN));
    about("E10");
    second_example();
    expect("at size + 1", 2 * BLOCK + 2, writes(3, "C", 1));
    about("E11");
    static uint64_t large[513 * BLOCK];
    expect("15 blocks", -1, probe_check(board, 15 * BLOCK));
    expect("half a block more", -1, probe_check(large, 16 * BLOCK + BLOCK / 2));
    expect("513 blocks", -1, probe_check(large, 513 * BLOCK));
    expect("512 blocks, not formatted", -2, probe_check(large, 512 * BLOCK));
    about("E12");
    format_board();
    expect("end 2,097,152", 2 * BLOCK + 3, writes(GREATEST - 1, "C", 1));
    expect("end 2,097,153", -6, writes(GREATEST, "C", 1));
    expect("file 32", -4, probe_size(board, WORDS, 32));
}

int main(void)
{
    one_to_three();
    four_to_seven();
    eight();
    nine_to_twelve();
    printf("published examples: %lu tests, %lu failed\n", tests, failed);
    return failed > 0;
}
