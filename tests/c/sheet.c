/*
 * The bench sheet against the built library. Standard input has the sheet's rows, for each band the first size, the last, the height, the
 * bytes under the root, the bytes under each of its pointers (0 at height 0) and the blocks of a full tree. A write that ends at any size must
 * choose the height that the sheet gives, full trees must have its blocks, and a walk by the sheet's numbers must find each byte.
 */
#include "counting.h"
#include "montebeech.h"
#include "random.h"

#include <inttypes.h>
#include <stdlib.h>

enum { WORDS = 8192, PLAN = 2 * WORDS, GREATEST = MONTEBEECH_GREATEST_SIZE, BANDS = 4, FILE_NUMBER = 5 };

struct band {
    uint64_t first, last, height, span, under, blocks;
};

static struct band sheet[BANDS];
static uint64_t board[WORDS], plan[PLAN];
static size_t board_len;
static uint8_t bytes[GREATEST + 1];

static void equal(const char *what, uint64_t found, uint64_t wanted)
{
    if (fails(found == wanted))
        printf("%s: expected %" PRIu64 ", found %" PRIu64 "\n", what, wanted, found);
}

/* ---- The board */

/* Whether a plan was made; it is then performed. */
static bool performed(int64_t pairs)
{
    return pairs >= 0 && montebeech_words_perform(board, board_len, plan, PLAN, (uint64_t)pairs) == pairs;
}

static void format(size_t blocks)
{
    board_len = 8 * blocks;
    if (!performed(montebeech_words_format(board, board_len, plan, PLAN)))
        exit(2);
}

static int64_t planned(uint64_t offset, size_t len)
{
    return montebeech_words_write(board, board_len, FILE_NUMBER, offset, bytes + offset, len, plan, PLAN);
}

/* The bytes from offset to end are written. */
static void written(uint64_t offset, uint64_t end)
{
    if (fails(offset <= end && end <= GREATEST && performed(planned(offset, end - offset)))) {
        printf("bytes %" PRIu64 " to %" PRIu64 " cannot be written\n", offset, end);
        exit(1);
    }
}

/* Where the root stands: file 5 is the second inode of the second leaf. */
static size_t root_address(void)
{
    uint64_t pointers = board[board_len - 8] / 8;
    return board[8 * pointers + FILE_NUMBER / 4] / 8 * 8 + 2 * (FILE_NUMBER % 4);
}

static uint64_t height(void)
{
    return board[root_address()] % 8;
}

/* ---- The sheet */

/* The one band that has the size. */
static const struct band *band_of(uint64_t size)
{
    const struct band *found = NULL;
    unsigned count = 0;
    for (unsigned i = 0; i < BANDS; i++)
        if (sheet[i].first <= size && size <= sheet[i].last) {
            found = &sheet[i];
            count++;
        }
    if (fails(count == 1)) {
        printf("the size lies in %u bands\n", count);
        exit(1);
    }
    return found;
}

static const struct band *band_of_height(uint64_t h)
{
    for (unsigned i = 0; i < BANDS; i++)
        if (sheet[i].height == h)
            return &sheet[i];
    printf("%s: no band has height %" PRIu64 "\n", subject, h);
    exit(1);
}

/* Byte i of the file, as docs/GUIDE.md has it found by hand; -1 where that leads off the board. */
static int by_hand(uint64_t i)
{
    uint64_t root = board[root_address()], h = root % 8, block = root / 8;
    if (i >= band_of_height(h)->span)
        return 0;
    for (; h > 0 && block != 0; h--) {
        uint64_t s = band_of_height(h)->under;
        if (s == 0 || 8 * block + i / s >= board_len)
            return -1;
        block = board[8 * block + i / s] / 8;
        i %= s;
    }
    if (block == 0)
        return 0;
    uint64_t at = 8 * block + i / 8;
    return at >= board_len ? -1 : (int)(board[at] >> (8 * (i % 8)) & 255);
}

/* ---- Tests */

/* The height in the last store to the root that a plan has. */
static uint64_t planned_height(int64_t pairs)
{
    uint64_t found = 8;
    for (int64_t i = 0; i < pairs; i++)
        if (plan[2 * i] == root_address())
            found = plan[2 * i + 1] % 8;
    return found;
}

/* A write of one byte that ends at each size, into an empty file. Without a byte there is no plan, and the height stays that of format. */
static void every_size(void)
{
    format(16);
    about("size 0");
    equal("pairs", (uint64_t)planned(0, 0), 0);
    equal("height", height(), band_of(0)->height);
    for (uint64_t size = 1; size <= GREATEST; size++) {
        about("size %" PRIu64, size);
        equal("height", planned_height(planned(size - 1, 1)), band_of(size)->height);
    }
}

/* All bytes up to the size by one write; then one byte, and the others after it, so that past 64 bytes the tree grows. */
static void both_ways(uint64_t size, const struct band *band)
{
    about("a file of %" PRIu64 " bytes", size);
    format(1024);
    written(0, size);
    equal("height", height(), band->height);
    if (size > 0) {
        about("a file grown to %" PRIu64 " bytes", size);
        format(1024);
        written(0, 1);
        written(1, size);
        equal("height", height(), band->height);
    }
}

static void full_tree(const struct band *band)
{
    about("a full tree of height %" PRIu64, band->height);
    format(1024);
    int64_t free = montebeech_words_free_count(board, board_len);
    written(0, band->last);
    equal("blocks", (uint64_t)(free - montebeech_words_free_count(board, board_len)), band->blocks);
    for (uint64_t i = 0; i < band->last; i++)
        if (fails(by_hand(i) == bytes[i])) {
            printf("byte %" PRIu64 " is not found by hand\n", i);
            exit(1);
        }
}

/* The last byte under the root leaves the height; the next takes the next height, or is refused. */
static void span_ends(const struct band *band)
{
    about("the span of height %" PRIu64, band->height);
    format(1024);
    written(0, band->first > 0 ? band->first : 1);
    written(band->span - 1, band->span);
    equal("height within", height(), band->height);
    if (band->span == GREATEST) {
        equal("refusal past it", (uint64_t)-planned(GREATEST, 1), MONTEBEECH_END);
    } else {
        written(band->span, band->span + 1);
        equal("height past it", height(), band->height + 1);
    }
}

int main(void)
{
    for (size_t i = 0; i < sizeof bytes; i++)
        bytes[i] = (uint8_t)random_word();
    for (unsigned i = 0; i < BANDS; i++) {
        struct band *b = &sheet[i];
        if (scanf("%" SCNu64 "%" SCNu64 "%" SCNu64 "%" SCNu64 "%" SCNu64 "%" SCNu64, &b->first, &b->last, &b->height, &b->span, &b->under,
                  &b->blocks) != 6)
            return 2;
    }
    every_size();
    for (unsigned i = 0; i < BANDS; i++) {
        both_ways(sheet[i].first, &sheet[i]);
        both_ways(sheet[i].last, &sheet[i]);
        full_tree(&sheet[i]);
        span_ends(&sheet[i]);
    }
    printf("sheet: %lu tests, %lu failed\n", tests, failed);
    return failed > 0;
}
