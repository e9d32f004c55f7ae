/*
 * Tests of the calls on words as C makes them: the order of refusals where several apply, that a refusal changes nothing, slices that
 * are long enough for every plan, plans at the wall of their memory, walks at it on any words, a write past the end that is cut, and the
 * stack. What plans hold is tested by words.py.
 */
#include "testing.h"

#include "montebeech.h"
#include "random.h"

#include <inttypes.h>

enum { MOST_WORDS = 8192, MOST_PLAN = MONTEBEECH_PLAN_WORDS(MOST_WORDS), GREATEST = MONTEBEECH_GREATEST_SIZE };

#define LAST UINT64_MAX
#define BIT_63 ((uint64_t)1 << 63)

static uint64_t board[MOST_WORDS], plan[MOST_PLAN];
static size_t board_len;
static uint8_t bytes[GREATEST + 1];

static void answers(const char *call, int64_t found, int64_t wanted)
{
    if (fails(found == wanted))
        printf("%s: expected %" PRId64 ", found %" PRId64 "\n", call, wanted, found);
}

/* Performs a plan whole. */
static void performed(int64_t pairs)
{
    if (pairs < 0 || montebeech_words_perform(board, board_len, plan, MOST_PLAN, (uint64_t)pairs) != pairs) {
        printf("%s: a plan could not be performed, %" PRId64 "\n", subject, pairs);
        exit(1);
    }
}

static void format(size_t blocks)
{
    board_len = 8 * blocks;
    for (size_t i = 0; i < board_len; i++)
        board[i] = random_word();
    performed(montebeech_words_format(board, board_len, plan, MOST_PLAN));
}

static void write_bytes(uint64_t file, uint64_t offset, size_t len)
{
    performed(montebeech_words_write(board, board_len, file, offset, bytes, len, plan, MOST_PLAN));
}

static void set_length(uint64_t file, uint64_t length)
{
    performed(montebeech_words_set_length(board, board_len, file, length, plan, MOST_PLAN));
}

/* ---- Refusals */

static uint64_t board_kept[MOST_WORDS], plan_kept[MOST_PLAN];

static void keep(void)
{
    memcpy(board_kept, board, sizeof board);
    memcpy(plan_kept, plan, sizeof plan);
}

static void nothing_changed(const char *call)
{
    if (fails(memcmp(board_kept, board, sizeof board) == 0 && memcmp(plan_kept, plan, sizeof plan) == 0))
        printf("%s: expected board and plan as they were, found them changed\n", call);
}

static void write_refuses(int64_t wanted, uint64_t file, uint64_t offset, size_t len, size_t plan_len)
{
    keep();
    answers("write", montebeech_words_write(board, board_len, file, offset, bytes, len, plan, plan_len), wanted);
    nothing_changed("write");
}

static void length_refuses(int64_t wanted, uint64_t file, uint64_t length, size_t plan_len)
{
    keep();
    answers("length change", montebeech_words_set_length(board, board_len, file, length, plan, plan_len), wanted);
    nothing_changed("length change");
}

/* A write of no bytes to file 0 has an empty plan, wherever it would begin and though no plan slice is lent. */
static void no_bytes(uint64_t offset)
{
    keep();
    answers("a write of no bytes", montebeech_words_write(board, board_len, 0, offset, bytes, 0, plan, MOST_PLAN), 0);
    answers("a write of no bytes, nothing lent", montebeech_words_write(board, board_len, 0, offset, NULL, 0, NULL, 0), 0);
    nothing_changed("a write of no bytes");
}

/* A board on which every later refusal applies, mended step by step: each time the first fault decides. */
static void order_of_refusals(void)
{
    about("order of refusals");
    format(16);
    write_bytes(0, 0, 256); /* all five free blocks */
    uint64_t trailer = board[board_len - 7], pointer = board[8];
    board[board_len - 7] = 0;
    board[8] = 0;
    board_len -= 1;
    write_refuses(-1, 32, LAST, sizeof bytes, 0);
    length_refuses(-1, 32, LAST, 0);
    answers("format", montebeech_words_format(board, board_len, plan, 0), -1);
    answers("perform", montebeech_words_perform(board, board_len, plan, 0, LAST), -1);
    board_len += 1;
    write_refuses(-2, 32, LAST, sizeof bytes, 0);
    length_refuses(-2, 32, LAST, 0);
    board[board_len - 7] = trailer;
    write_refuses(-3, 32, LAST, sizeof bytes, 0);
    length_refuses(-3, 32, LAST, 0);
    board[8] = pointer;
    write_refuses(-4, 32, LAST, sizeof bytes, 0);
    length_refuses(-4, 32, LAST, 0);
    write_refuses(-6, 0, LAST, sizeof bytes, 0); /* the sum is 2^64 + 32768 */
    write_refuses(-6, 0, LAST, 1, 0);            /* 2^64 */
    write_refuses(-6, 0, LAST, 0, 0);
    write_refuses(-6, 0, GREATEST + 1, 0, 0);
    write_refuses(-6, 0, GREATEST, 1, 0);
    length_refuses(-6, 0, LAST, 0);
    write_refuses(-6, 0, 256, sizeof bytes, 0);
    write_refuses(-7, 0, 200, 100, 0);
    write_refuses(-7, 0, 257, 1, 0); /* past the end */
    write_refuses(-7, 0, GREATEST - 1, 1, 0);
    write_refuses(-7, 1, 1, 1, 0); /* past the end of an empty file */
    write_refuses(-8, 0, 0, 1, 1);
    length_refuses(-8, 0, 100, 1);
    answers("a length that stays", montebeech_words_set_length(board, board_len, 0, 256, NULL, 0), 0);
    no_bytes(256);
    no_bytes(257);
    no_bytes(GREATEST);
}

static void no_memory(void)
{
    about("no memory");
    answers("check", montebeech_words_check(NULL, 0), -1);
    answers("free count", montebeech_words_free_count(NULL, 0), -1);
    answers("size", montebeech_words_size(NULL, 0, 0), -1);
    answers("walk", montebeech_words_walk(NULL, 0, 0, 0), 0);
    answers("read", montebeech_words_read(NULL, 0, 0, 0, NULL, 0), -1);
    answers("write", montebeech_words_write(NULL, 0, 0, 0, NULL, 0, NULL, 0), -1);
    answers("length change", montebeech_words_set_length(NULL, 0, 0, 0, NULL, 0), -1);
    answers("format", montebeech_words_format(NULL, 0, NULL, 0), -1);
    answers("perform", montebeech_words_perform(NULL, 0, NULL, 0, 0), -1);
}

/* A bad address in each place of a plan, the last among them; pair counts near and far beyond the slice. */
static void perform_refuses(void)
{
    const uint64_t counts[] = {12, BIT_63, BIT_63 + 1, LAST}, addresses[] = {128, LAST - 1, BIT_63};
    about("perform");
    format(16);
    int64_t pairs = montebeech_words_write(board, board_len, 0, 0, bytes, 2, plan, 22);
    answers("write", pairs, 11);
    for (unsigned i = 0; i < 4; i++) {
        keep();
        answers("perform", montebeech_words_perform(board, board_len, plan, 22, counts[i]), -9);
        answers("perform of an odd slice", montebeech_words_perform(board, board_len, plan, 23, counts[i]), -9);
        nothing_changed("perform");
    }
    for (unsigned place = 0; place < 11; place++) {
        for (unsigned i = 0; i < 3; i++) {
            uint64_t kept = plan[2 * place];
            plan[2 * place] = addresses[i];
            keep();
            answers("perform", montebeech_words_perform(board, board_len, plan, 22, 11), -10);
            nothing_changed("perform");
            answers("perform before it", montebeech_words_perform(board, board_len, plan, 22, place), place);
            memcpy(board, board_kept, sizeof board);
            plan[2 * place] = kept;
        }
    }
    answers("perform", montebeech_words_perform(board, board_len, plan, 22, 11), 11);
    answers("size", montebeech_words_size(board, board_len, 0), 2);
}

/* ---- Plan slices: so many words as the header gives are enough for every call, on whatever words. */

/* Whether the call was accepted with a plan of some pairs; it may not be refused 8. */
static bool is_not_8(const char *call, int64_t found)
{
    if (fails(found != -MONTEBEECH_PLAN_LENGTH))
        printf("%s: refused 8 with %zu words of plan for a board of %zu\n", call, MONTEBEECH_PLAN_WORDS(board_len), board_len);
    return found > 0;
}

/*
 * Writes of many lengths to file 0, at its end, inside it and past its end, and lengths; format. Of each kind of write at least so many
 * must be accepted.
 */
static void calls_have_room(unsigned least)
{
    unsigned ends = 0, inside = 0, past = 0;
    size_t lent = MONTEBEECH_PLAN_WORDS(board_len);
    int64_t size = montebeech_words_size(board, board_len, 0);
    uint64_t offset = size < 0 ? 0 : (uint64_t)size;
    for (size_t len = 0; len <= GREATEST; len += 1 + len / 16) {
        ends += is_not_8("write", montebeech_words_write(board, board_len, 0, offset, bytes, len, plan, lent));
        inside += is_not_8("write inside", montebeech_words_write(board, board_len, 0, offset / 2, bytes, len, plan, lent));
        past += is_not_8("write past the end", montebeech_words_write(board, board_len, 0, offset + 65, bytes, len, plan, lent));
        is_not_8("length change", montebeech_words_set_length(board, board_len, 0, len, plan, lent));
    }
    is_not_8("format", montebeech_words_format(board, board_len, plan, lent));
    if (fails(ends >= least && inside >= least && past >= least))
        printf("%zu words: expected %u plans of writes at least, found %u, %u and %u\n", board_len, least, ends, inside, past);
}

static void plan_words_suffice(void)
{
    about("words of a plan");
    for (size_t blocks = 16; blocks <= 1024; blocks *= 2) {
        format(blocks);
        calls_have_room(20);
        write_bytes(0, 0, 64 * (blocks / 8));
        calls_have_room(blocks > 16 ? 20 : 0); /* on 16 blocks two are left, too few to write past the end */
        board_len -= 8; /* no trailer */
        calls_have_room(0);
        board_len = 3;
        calls_have_room(0);
    }
}

/* ---- Memory: each slice ends at a wall, and the plan slice is as long as it must be. */

static uint8_t *board_end, *plan_end, *bytes_end;

/* A write to a file of `size` bytes. */
static void write_at_the_wall(size_t size, uint64_t offset, size_t len)
{
    about("%zu bytes at %" PRIu64 " of %zu, at the wall", len, offset, size);
    format(1024);
    write_bytes(31, 0, size);
    uint8_t *new = bytes_end - len;
    memcpy(new, bytes, len);
    uint64_t *lent = (uint64_t *)(void *)(board_end - 8 * board_len);
    memcpy(lent, board, 8 * board_len);
    int64_t pairs = montebeech_words_write(lent, board_len, 31, offset, new, len, plan, MOST_PLAN);
    uint64_t *slice = (uint64_t *)(void *)(plan_end - 16 * (size_t)pairs);
    answers("write", montebeech_words_write(lent, board_len, 31, offset, new, len, slice, 2 * (size_t)pairs), pairs);
    answers("write in one word less", montebeech_words_write(lent, board_len, 31, offset, new, len, slice + 1, 2 * (size_t)pairs - 1), -8);
    answers("perform", montebeech_words_perform(lent, board_len, slice, 2 * (size_t)pairs, (uint64_t)pairs), pairs);
    uint8_t *out = bytes_end - len;
    memset(out, 0, len);
    answers("read", montebeech_words_read(lent, board_len, 31, offset, out, len), (int64_t)len);
    if (fails(memcmp(out, bytes, len) == 0))
        printf("expected the bytes that were written, found others\n");
}

/* Walks on so many words, pointers on the board and past it among them. Tested here: a walk reads nothing past what is lent, which
   the wall would end, and answers no negative number, nor a block where there is none: for a file above 31, on fewer than 16 words.
   That it ends at the right block is tested elsewhere, against the Python model (words.py) and docs/src (tests/rust/walks.rs). */
static void walks_at_the_wall(size_t words)
{
    about("walks on %zu words, at the wall", words);
    uint64_t *lent = (uint64_t *)(void *)(board_end - 8 * words);
    for (size_t i = 0; i < words; i++)
        lent[i] = random_word() % (words + 40);
    for (uint64_t file = 0; file < 41; file++) {
        int64_t end = montebeech_words_walk(lent, words, file, random_word() % 600);
        if (fails(end == 0 || (end > 0 && file < 32 && words >= 16)))
            printf("walk in file %" PRIu64 ": expected a hole or a block, found %" PRId64 "\n", file, end);
    }
}

static void at_the_wall(void)
{
    const size_t lengths[] = {1, 8, 9, 64, 65, 500, 4096, 20000};
    board_end = memory_before_wall(sizeof board);
    plan_end = memory_before_wall(sizeof plan);
    bytes_end = memory_before_wall(sizeof bytes);
    for (unsigned i = 0; i < 8; i++) {
        write_at_the_wall(0, 0, lengths[i]);
        write_at_the_wall(0, 1000, lengths[i]); /* past the end of an empty file */
        write_at_the_wall(70, 1000, lengths[i]);
    }
    for (size_t words = 0; words < 200; words++)
        walks_at_the_wall(words);
}

/* ---- The coin log: an entry at a fixed place past the end, by one write. */

enum { LOG = 9, LOG_SIZE = 16, LOG_PLACE = LOG_SIZE + 100, LOG_ENTRY = 8, LOG_END = LOG_PLACE + LOG_ENTRY };

static void log_reads(int64_t size, const uint8_t *wanted)
{
    uint8_t out[LOG_END + 1];
    memset(out, 9, sizeof out);
    answers("read", montebeech_words_read(board, board_len, LOG, 0, out, sizeof out), size);
    if (fails(memcmp(out, wanted, (size_t)size) == 0))
        printf("expected its %" PRId64 " bytes, found others\n", size);
}

/* The board that a cut leaves after some pairs of the plan. */
static void log_cut(uint64_t pairs)
{
    memcpy(board, board_kept, sizeof board);
    answers("perform", montebeech_words_perform(board, board_len, plan, MOST_PLAN, pairs), (int64_t)pairs);
    answers("check", montebeech_words_check(board, board_len), 0);
}

/* Growth takes a block; barrier; the root; barrier; then both data blocks, the block over them and the leaf; barrier; the inode
   pointer. The bytes between must read 0, though the file was longer once and its block still has other bytes there. */
static void coin_log(void)
{
    const uint64_t whole = 8 + 1 + 1 + 1 + 4 * 8 + 1 + 1;
    uint8_t wanted[LOG_END] = {0};
    memcpy(wanted, bytes, LOG_SIZE);
    memcpy(wanted + LOG_PLACE, bytes, LOG_ENTRY);
    format(32);
    write_bytes(LOG, 0, 64);
    set_length(LOG, LOG_SIZE);
    about("coin log");
    int64_t pairs = montebeech_words_write(board, board_len, LOG, LOG_PLACE, bytes, LOG_ENTRY, plan, MOST_PLAN);
    answers("write", pairs, (int64_t)whole);
    answers("the first barrier", plan[2 * 8] == MONTEBEECH_BARRIER, 1);
    keep();
    for (uint64_t cut = 0; cut < whole; cut++) {
        about("coin log, cut after %" PRIu64 " pairs", cut);
        log_cut(cut);
        log_reads(LOG_SIZE, wanted);
    }
    about("coin log, performed");
    log_cut(whole);
    log_reads(LOG_END, wanted);
}

/* ---- Stack */

static unsigned which_call;

static void call_for_stack(void)
{
    static uint8_t out[GREATEST];
    switch (which_call) {
    case 0:
        montebeech_words_check(board, board_len);
        break;
    case 1:
        montebeech_words_free_count(board, board_len);
        break;
    case 2:
        montebeech_words_size(board, board_len, 0);
        break;
    case 3:
        montebeech_words_read(board, board_len, 0, 3, out, sizeof out);
        break;
    case 4: /* growth by three levels, then a tail */
        montebeech_words_write(board, board_len, 1, 10, bytes, 16000, plan, MOST_PLAN);
        break;
    case 5: /* shadow inside the file */
        montebeech_words_write(board, board_len, 0, 100, bytes, 9000, plan, MOST_PLAN);
        break;
    case 6: /* shadow with length */
        montebeech_words_write(board, board_len, 0, 19000, bytes, 9000, plan, MOST_PLAN);
        break;
    case 7: /* an empty file */
        montebeech_words_write(board, board_len, 2, 0, bytes, 20000, plan, MOST_PLAN);
        break;
    case 8: /* past the end: growth by three levels, then shadow with length */
        montebeech_words_write(board, board_len, 1, 12000, bytes, 9000, plan, MOST_PLAN);
        break;
    case 9: /* past the end of an empty file */
        montebeech_words_write(board, board_len, 2, 9000, bytes, 20000, plan, MOST_PLAN);
        break;
    case 10:
        montebeech_words_set_length(board, board_len, 0, GREATEST, plan, MOST_PLAN);
        break;
    case 11:
        montebeech_words_format(board, board_len, plan, MOST_PLAN);
        break;
    case 12:
        montebeech_words_walk(board, board_len, 0, 19000);
        break;
    default:
        montebeech_words_perform(board, board_len, plan, MOST_PLAN, 83);
    }
}

static void stack_suffices(void)
{
    size_t most = 0;
    about("stack");
    format(1024);
    write_bytes(0, 0, 20000);
    write_bytes(1, 0, 10);
    for (which_call = 0; which_call < 14; which_call++) {
        size_t used = stack_used(call_for_stack);
        most = used > most ? used : most;
        if (fails(used <= MONTEBEECH_WORDS_STACK_BYTES))
            printf("call %u: expected at most %d bytes, found %zu\n", which_call, MONTEBEECH_WORDS_STACK_BYTES, used);
    }
    printf("a call on words uses at most %zu bytes of stack\n", most);
}

int main(void)
{
    for (size_t i = 0; i < sizeof bytes; i++)
        bytes[i] = (uint8_t)random_word();
    stack_suffices(); /* first, since a function of the C library takes more stack where its first call binds it */
    no_memory();
    order_of_refusals();
    perform_refuses();
    plan_words_suffice();
    at_the_wall();
    coin_log();
    printf("changing: %lu tests, %lu failed\n", tests, failed);
    return failed > 0;
}
