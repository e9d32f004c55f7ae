/*
 * The bench examples of document 01, E1 to E12, with E10 as N3 of document 02 has it, and a plan that is cut, on the calls on words. Under the answer of a call
 * that plans stands its plan, the first word of a pair before the second. What it prints is held to examples.txt.
 */
#include "montebeech.h"

#include <inttypes.h>
#include <stdio.h>
#include <string.h>

enum { PLAN = 128, LARGE = 8192 };

static uint64_t board[LARGE + 8];
static size_t board_len;

static void line(const char *what, int64_t answer)
{
    if (answer >= 0)
        printf("%s: %" PRId64 "\n", what, answer);
    else
        printf("%s: refused %" PRId64 "\n", what, -answer);
}

static void bytes(const char *what, const uint8_t *out, size_t len)
{
    printf("%s:", what);
    for (size_t i = 0; i < len; i++)
        printf(" %u", out[i]);
    printf("\n");
}

static void pairs(int64_t answer, const uint64_t *plan)
{
    for (int64_t i = 0; i < answer; i++) {
        if (plan[2 * i] == MONTEBEECH_BARRIER)
            printf(" barrier");
        else
            printf(" %" PRIu64 "=%" PRIu64, plan[2 * i], plan[2 * i + 1]);
    }
    if (answer > 0)
        printf("\n");
}

/* What a call answered and planned; the plan is performed. */
static void planned(const char *what, int64_t answer, const uint64_t *plan)
{
    line(what, answer);
    pairs(answer, plan);
    if (answer > 0)
        montebeech_words_perform(board, board_len, plan, PLAN, (uint64_t)answer);
}

static void written(const char *what, uint64_t offset, const char *new, size_t len)
{
    uint64_t plan[PLAN];
    planned(what, montebeech_words_write(board, board_len, 0, offset, (const uint8_t *)new, len, plan, PLAN), plan);
}

static void lengthened(const char *what, uint64_t length)
{
    uint64_t plan[PLAN];
    planned(what, montebeech_words_set_length(board, board_len, 0, length, plan, PLAN), plan);
}

static void free_blocks(const char *what)
{
    line(what, montebeech_words_free_count(board, board_len));
}

static int64_t formatted(size_t words)
{
    uint64_t plan[MONTEBEECH_FORMAT_WORDS];
    board_len = words;
    int64_t pairs = montebeech_words_format(board, board_len, plan, MONTEBEECH_FORMAT_WORDS);
    return montebeech_words_perform(board, board_len, plan, MONTEBEECH_FORMAT_WORDS, (uint64_t)pairs);
}

static void e1(size_t words)
{
    line("E1 format", formatted(words));
    free_blocks("E1 free");
}

static void e2(void)
{
    uint64_t plan[22];
    formatted(128);
    line("E2 in 21 words", montebeech_words_write(board, board_len, 0, 0, (const uint8_t *)"AB", 2, plan, 21));
    line("E2 in 22 words", montebeech_words_write(board, board_len, 0, 0, (const uint8_t *)"AB", 2, plan, 22));
    written("E2 write 65 66 at 0", 0, "AB", 2);
    free_blocks("E2 free");
}

static void e2_board(void)
{
    uint64_t plan[22];
    formatted(128);
    int64_t pairs = montebeech_words_write(board, board_len, 0, 0, (const uint8_t *)"AB", 2, plan, 22);
    montebeech_words_perform(board, board_len, plan, 22, (uint64_t)pairs);
}

static void e3_e4(void)
{
    e2_board();
    written("E3 write 90 at 0", 0, "Z", 1);
    e2_board();
    written("E4 write 67 68 at 1", 1, "CD", 2);
    free_blocks("E4 free");
}

static void e5_e6(void)
{
    uint8_t out[2] = {9, 9};
    e2_board();
    lengthened("E5 length 0", 0);
    free_blocks("E5 free");
    lengthened("E6 length 1", 1);
    line("E6 read", montebeech_words_read(board, board_len, 0, 0, out, 2));
    bytes("E6 buffer", out, 2);
}

static void e7_e8(void)
{
    uint8_t out[4] = {9, 9, 9, 9};
    e2_board();
    lengthened("E7 length 10", 10);
    e2_board();
    lengthened("E8 length 100", 100);
    written("E8 write 7 at 99", 99, "\x07", 1);
    line("E8 read at 98", montebeech_words_read(board, board_len, 0, 98, out, 4));
    bytes("E8 buffer", out, 4);
}

static void e9(void)
{
    static const uint8_t new[257] = {1};
    uint64_t plan[PLAN];
    formatted(128);
    line("E9 write of 257 bytes", montebeech_words_write(board, board_len, 0, 0, new, 257, plan, PLAN));
    line("E9 write of 256 bytes", montebeech_words_write(board, board_len, 0, 0, new, 256, plan, PLAN));
}

static void e10(void)
{
    e2_board();
    written("E10 write of no bytes at 2, the size", 2, "", 0);
    written("E10 write of 67 at 2, the size", 2, "C", 1);
}

/* E10's second part: past the end. */
static void e10_past(void)
{
    uint8_t out[5] = {9, 9, 9, 9, 9};
    e2_board();
    written("E10 write of no bytes at 3", 3, "", 0);
    written("E10 write of no bytes at 32768", 32768, "", 0);
    written("E10 write of no bytes at 32769", 32769, "", 0);
    written("E10 write of 67 at 2^64 - 1", UINT64_MAX, "C", 1);
    written("E10 write of 67 at 3", 3, "C", 1);
    free_blocks("E10 free");
    line("E10 read", montebeech_words_read(board, board_len, 0, 0, out, 5));
    bytes("E10 buffer", out, 5);
}

static void e12(void)
{
    formatted(128);
    lengthened("E12 length 32769", 32769);
    lengthened("E12 length 32768", 32768);
    written("E12 write of two bytes at 32767", 32767, "CD", 2);
    written("E12 write of one byte at 32768", 32768, "C", 1);
    written("E12 write of no bytes at 32768", 32768, "", 0);
    written("E12 write of one byte at 32767", 32767, "C", 1);
    formatted(128);
    written("E12 write of one byte at 32767 of an empty file", 32767, "C", 1);
}

static void check(const char *what, size_t words)
{
    line(what, montebeech_words_check(board, words));
}

static void e11(void)
{
    memset(board, 0, sizeof board);
    check("E11 120 words", 120);
    check("E11 128 words, all zero", 128);
    formatted(128);
    check("E11 128 words, formatted", 128);
    check("E11 136 words, formatted as 128", 136);
    formatted(LARGE);
    check("E11 8192 words, formatted", LARGE);
    check("E11 8200 words", LARGE + 8);
}

static void read_at(const char *what, uint64_t file, uint64_t offset)
{
    uint8_t out[3] = {9, 9, 9};
    line(what, montebeech_words_read(board, board_len, file, offset, out, sizeof out));
    bytes("  buffer", out, sizeof out);
}

/* Reading at and past a size, and at the greatest one; a size past that. */
static void e10_e12_reading(void)
{
    e2_board();
    read_at("E10 read at 1", 0, 1);
    read_at("E10 read at 2, the size", 0, 2);
    read_at("E10 read at 3", 0, 3);
    read_at("E10 read at 2^64 - 1", 0, UINT64_MAX);
    read_at("E10 read of file 32", 32, 0);
    board[16] = 3; /* a hole of height 3 */
    board[17] = 32768;
    read_at("E12 read at 32767", 0, 32767);
    read_at("E12 read at 32768", 0, 32768);
    board[17] = 32769;
    check("E12 check, size 32769", 128);
    read_at("E12 read, size 32769", 0, 0);
}

/* ---- A cut: a table of champions on a board of 32 blocks is made longer and shorter; the power fails when half of a plan's pairs were performed, and the
   same write is made again. */

enum { SCORES = 5 };

static void scores(const char *what, int64_t answer)
{
    uint8_t out[12] = {0};
    line(what, answer);
    check("  check", board_len);
    free_blocks("  free");
    line("  size", montebeech_words_size(board, board_len, SCORES));
    line("  read", montebeech_words_read(board, board_len, SCORES, 0, out, sizeof out));
    bytes("  bytes", out, sizeof out);
}

/* The plan of a call, of which one part in `of` is performed. */
static void performed(const char *what, int64_t answer, const uint64_t *plan, int64_t of)
{
    line(what, answer);
    pairs(answer, plan);
    scores(of == 1 ? "perform" : "perform half", montebeech_words_perform(board, board_len, plan, PLAN, (uint64_t)(answer / of)));
}

static void table(const char *what, const char *new, size_t len, int64_t of)
{
    uint64_t plan[PLAN];
    performed(what, montebeech_words_write(board, board_len, SCORES, 0, (const uint8_t *)new, len, plan, PLAN), plan, of);
}

static void table_length(const char *what, uint64_t length)
{
    uint64_t plan[PLAN];
    performed(what, montebeech_words_set_length(board, board_len, SCORES, length, plan, PLAN), plan, 1);
}

static void half_a_plan(void)
{
    scores("format", formatted(256));
    table("write AAABBBCCC", "AAABBBCCC", 9, 1);
    table_length("length 12", 12);
    table_length("length 8", 8);
    table("write DDDAAABBBC", "DDDAAABBBC", 10, 2);
    table("write it again", "DDDAAABBBC", 10, 1);
}

int main(void)
{
    e1(128);
    e1(LARGE);
    e2();
    e3_e4();
    e5_e6();
    e7_e8();
    e9();
    e10();
    e10_past();
    e11();
    e12();
    e10_e12_reading();
    half_a_plan();
    return 0;
}
