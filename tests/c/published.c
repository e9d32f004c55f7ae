/*
 * The stack of the calls on boards with the published block, at most 65,536 bytes each. They have no C forms but those for tests
 * (libprobes.a). Every call is made on the largest board, once with room on it and once full; what is lent ends at a wall. What the calls
 * answer and plan is tested by tests/rust.
 */
#include "testing.h"

#include "probes.h"
#include "random.h"

#include <inttypes.h>

enum { BLOCK = 512, BLOCKS = 512, WORDS = BLOCK * BLOCKS, PLAN = 2 * WORDS, MIB = 1 << 20, GREATEST = 2 * MIB, STACK = 65536 };

static uint64_t *board, *plan;
static uint8_t *bytes_end, *out_end;

static uint64_t *words_before_wall(size_t count)
{
    return (uint64_t *)(void *)(memory_before_wall(8 * count) - 8 * count);
}

static void lend_memory(void)
{
    board = words_before_wall(WORDS);
    plan = words_before_wall(PLAN);
    bytes_end = memory_before_wall(GREATEST);
    out_end = memory_before_wall(GREATEST);
    for (uint8_t *byte = bytes_end - GREATEST; byte < bytes_end; byte++)
        *byte = (uint8_t)random_word();
}

/* ---- Boards. File 0 has a pointer block, file 1 none, file 2 is empty. */

enum { LARGE = 0, SMALL = 1, EMPTY = 2, LARGE_SIZE = 900000, SMALL_SIZE = 10 };

/* 32 empty files: the first call of all is made on a board that no call has made. */
static void bare_board(void)
{
    const uint64_t trailer[4] = {BLOCK + 1, 512, BLOCKS, 3};
    board[BLOCK] = 2 * BLOCK;
    memcpy(board + WORDS - BLOCK, trailer, sizeof trailer);
}

static void write_bytes(uint64_t file, uint64_t offset, size_t len)
{
    int64_t pairs = probe_write(board, WORDS, file, offset, bytes_end - len, len, plan, PLAN);
    if (pairs < 0 || probe_perform(board, WORDS, plan, PLAN, (uint64_t)pairs) != pairs) {
        printf("%s: a plan could not be performed, %" PRId64 "\n", subject, pairs);
        exit(1);
    }
}

/* File 3 gets all blocks that are free, one of them for pointers. */
static void fill_board(void)
{
    write_bytes(3, 0, (size_t)(probe_free_count(board, WORDS) - 1) * 8 * BLOCK);
}

/* ---- Calls */

typedef enum { CHECK, FREE_COUNT, SIZE, READ, WRITE, SET_LENGTH, FORMAT, PERFORM } Call;
typedef struct {
    const char *name;
    Call call;
    uint64_t file, at; /* offset, or length */
    size_t count;
    int64_t refused; /* on a full board; 0 if it is accepted there too */
} Case;

static const Case cases[] = {
    {"check", CHECK, 0, 0, 0, 0},
    {"free count", FREE_COUNT, 0, 0, 0, 0},
    {"size", SIZE, LARGE, 0, 0, 0},
    {"read", READ, LARGE, 3, GREATEST, 0},
    {"read across two blocks", READ, LARGE, 4000, 200, 0},
    {"write of one word", WRITE, LARGE, 8000, 8, 0},
    {"write across two words", WRITE, LARGE, 8004, 8, 7},
    {"write across blocks", WRITE, LARGE, 5000, 500000, 7},
    {"append", WRITE, LARGE, LARGE_SIZE, 100000, 7},
    {"write from inside past the end", WRITE, LARGE, LARGE_SIZE - 5000, 100000, 7},
    {"write past the end", WRITE, LARGE, LARGE_SIZE + 5000, 100000, 7},
    {"append after growth", WRITE, SMALL, SMALL_SIZE, 1000000, 7},
    {"write past the end after growth", WRITE, SMALL, 1000000, 1000000, 7},
    {"write of 1 MiB into an empty file", WRITE, EMPTY, 0, MIB, 7},
    {"write past the end of an empty file", WRITE, EMPTY, 5000, MIB, 7},
    {"write of 1 MiB to the greatest size", WRITE, EMPTY, GREATEST - MIB, MIB, 7},
    {"shorter length", SET_LENGTH, LARGE, 100, 0, 0},
    {"greatest length", SET_LENGTH, LARGE, GREATEST, 0, 0},
    {"length of an empty file", SET_LENGTH, EMPTY, GREATEST, 0, 0},
    {"format", FORMAT, 0, 0, 0, 0},
    {"perform", PERFORM, 0, 0, 0, 0},
};
enum { CASES = sizeof cases / sizeof *cases };

static const Case *measured;
static int64_t answer;

static void call_for_stack(void)
{
    switch (measured->call) {
    case CHECK:
        answer = probe_check(board, WORDS);
        break;
    case FREE_COUNT:
        answer = probe_free_count(board, WORDS);
        break;
    case SIZE:
        answer = probe_size(board, WORDS, measured->file);
        break;
    case READ:
        answer = probe_read(board, WORDS, measured->file, measured->at, out_end - measured->count, measured->count);
        break;
    case WRITE:
        answer = probe_write(board, WORDS, measured->file, measured->at, bytes_end - measured->count, measured->count, plan, PLAN);
        break;
    case SET_LENGTH:
        answer = probe_set_length(board, WORDS, measured->file, measured->at, plan, PLAN);
        break;
    case FORMAT:
        answer = probe_format(board, WORDS, plan, PLAN);
        break;
    case PERFORM: /* of format's plan, which was made before */
        answer = probe_perform(board, WORDS, plan, PLAN, (uint64_t)answer);
        break;
    }
}

static size_t most;
static const char *most_by;

/* Measures a call, which must be accepted, or be refused so. */
static void measure(const Case *one, int64_t refused)
{
    measured = one;
    size_t used = stack_used(call_for_stack);
    if (fails(used <= STACK))
        printf("%s: expected at most %d bytes of stack, found %zu\n", one->name, STACK, used);
    if (fails(refused == 0 ? answer >= 0 : answer == -refused))
        printf("%s: expected %s %" PRId64 ", found %" PRId64 "\n", one->name, refused == 0 ? "at least" : "exactly", -refused, answer);
    if (used > most) {
        most = used;
        most_by = one->name;
    }
}

/* All calls in turn; the last one performs format's plan. */
static void measure_all(bool full)
{
    for (const Case *one = cases; one < cases + CASES; one++)
        measure(one, full ? one->refused : 0);
}

static void make_board(void)
{
    bare_board();
    write_bytes(LARGE, 0, LARGE_SIZE);
    write_bytes(SMALL, 0, SMALL_SIZE);
}

int main(void)
{
    lend_memory();
    about("an empty board");
    bare_board();
    measure(cases, 0); /* check; first, since a function of the C library takes more stack where its first call binds it */
    about("a board with room");
    make_board();
    measure_all(false);
    about("a full board");
    make_board();
    fill_board();
    measure_all(true);
    printf("a call on a published board uses at most %zu bytes of stack: %s\n", most, most_by);
    printf("published: %lu tests, %lu failed\n", tests, failed);
    return failed > 0;
}
