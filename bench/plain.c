/*
 * The calls of include/montebeech.h in plain C, to measure the library against. The board is decoded to words, every
 * index is tested before it is used, and a block is copied by whole words where that is possible.
 */
#include "montebeech.h"

#include <stdbool.h>
#include <string.h>

int64_t plain_check(const uint8_t *image, size_t image_len);
int64_t plain_size(const uint8_t *image, size_t image_len, uint64_t file);
int64_t plain_read(const uint8_t *image, size_t image_len, uint64_t file, uint64_t offset, uint8_t *out, size_t out_len);

enum { LEAST_BYTES = 1024, BLOCK_BYTES = 64, MOST_WORDS = 8192, MOST_BLOCKS = 1024, TALLEST = 3 };

/* A tree of height h spans this power of two of bytes. */
static unsigned span_bits(unsigned height)
{
    return 6 + 3 * height;
}

typedef struct {
    size_t count; /* words */
    uint64_t words[MOST_WORDS];
    bool marks[MOST_BLOCKS]; /* the blocks that the check has reached */
} Board;

static uint64_t least(uint64_t a, uint64_t b)
{
    return a < b ? a : b;
}

/* Byte by byte, so that it is right on any machine; the compiler makes one load of it. */
static uint64_t load(const uint8_t *p)
{
    return (uint64_t)p[0] | (uint64_t)p[1] << 8 | (uint64_t)p[2] << 16 | (uint64_t)p[3] << 24 | (uint64_t)p[4] << 32
        | (uint64_t)p[5] << 40 | (uint64_t)p[6] << 48 | (uint64_t)p[7] << 56;
}

static void store(uint8_t *p, uint64_t word)
{
    p[0] = (uint8_t)word;
    p[1] = (uint8_t)(word >> 8);
    p[2] = (uint8_t)(word >> 16);
    p[3] = (uint8_t)(word >> 24);
    p[4] = (uint8_t)(word >> 32);
    p[5] = (uint8_t)(word >> 40);
    p[6] = (uint8_t)(word >> 48);
    p[7] = (uint8_t)(word >> 56);
}

static uint64_t word(const Board *b, uint64_t at)
{
    return at < b->count ? b->words[at] : 0;
}

/* ---- Check */

static bool inside(const Board *b, uint64_t block)
{
    return block >= 1 && block + 1 < b->count / 8;
}

/* Whether the block can be in use and is reached for the first time. */
static bool reach(Board *b, uint64_t block)
{
    if (!inside(b, block) || b->marks[block])
        return false;
    b->marks[block] = true;
    return true;
}

/* A tree of which `below` bytes, at least 1, lie below the file's size. */
static bool tree_sound(Board *b, unsigned height, uint64_t block, uint64_t below)
{
    if (block == 0)
        return true;
    if (!reach(b, block))
        return false;
    if (height == 0)
        return true;
    for (unsigned j = 0; j < 8; j++) {
        uint64_t start = (uint64_t)j << span_bits(height - 1);
        if (start >= below)
            break;
        uint64_t pointer = word(b, 8 * block + j);
        if (pointer % 8 != 0 || !tree_sound(b, height - 1, pointer / 8, below - start))
            return false;
    }
    return true;
}

static bool trailer_sound(const Board *b)
{
    uint64_t blocks = b->count / 8;
    const uint64_t rest[7] = {16 * MONTEBEECH_FILES, blocks, 1, 0, 0, 0, 0};
    uint64_t root = word(b, 8 * (blocks - 1));
    if (root % 8 != 1 || !inside(b, root / 8))
        return false;
    for (unsigned j = 0; j < 7; j++)
        if (word(b, 8 * (blocks - 1) + 1 + j) != rest[j])
            return false;
    return true;
}

static uint64_t pointer_block(const Board *b)
{
    return word(b, b->count - 8) / 8;
}

static uint64_t inode(const Board *b, uint64_t file)
{
    uint64_t leaf = word(b, 8 * pointer_block(b) + file / 4) / 8;
    return 8 * leaf + 2 * (file % 4);
}

static bool trees_sound(Board *b)
{
    memset(b->marks, 0, sizeof b->marks);
    if (!reach(b, pointer_block(b)))
        return false;
    for (unsigned j = 0; j < 8; j++) {
        uint64_t pointer = word(b, 8 * pointer_block(b) + j);
        if (pointer % 8 != 0 || !reach(b, pointer / 8))
            return false;
    }
    for (unsigned file = 0; file < MONTEBEECH_FILES; file++) {
        uint64_t root = word(b, inode(b, file)), size = word(b, inode(b, file) + 1);
        if (size > MONTEBEECH_GREATEST_SIZE)
            return false;
        if (size > 0 && (root % 8 > TALLEST || !tree_sound(b, (unsigned)(root % 8), root / 8, size)))
            return false;
    }
    return true;
}

/* Decodes and checks. Answers 0 or a refusal's negative. */
static int64_t open_board(Board *b, const uint8_t *image, size_t image_len)
{
    if (image_len < LEAST_BYTES || image_len > MONTEBEECH_MOST_BYTES || image_len % BLOCK_BYTES != 0)
        return -MONTEBEECH_WORD_COUNT;
    b->count = image_len / 8;
    for (size_t i = 0; i < b->count; i++)
        b->words[i] = load(image + 8 * i);
    if (!trailer_sound(b))
        return -MONTEBEECH_TRAILER;
    if (!trees_sound(b))
        return -MONTEBEECH_DAMAGED;
    return 0;
}

static int64_t open_file(Board *b, const uint8_t *image, size_t image_len, uint64_t file)
{
    int64_t refusal = open_board(b, image, image_len);
    if (refusal == 0 && file >= MONTEBEECH_FILES)
        refusal = -MONTEBEECH_FILE_NUMBER;
    return refusal;
}

/* ---- Read */

/* The block with byte i of a file, 0 in a hole. */
static uint64_t walk(const Board *b, uint64_t root, uint64_t i)
{
    unsigned height = (unsigned)(root % 8);
    uint64_t block = root / 8;
    if (height > TALLEST || i >> span_bits(height) != 0)
        return 0;
    for (; height > 0 && block != 0; height--)
        block = word(b, 8 * block + (i >> span_bits(height - 1)) % 8) / 8;
    return block;
}

static uint8_t block_byte(const Board *b, uint64_t block, uint64_t i)
{
    return (uint8_t)(word(b, 8 * block + i / 8) >> (8 * (i % 8)));
}

/* Bytes i to i + n - 1 of a block. */
static void copy(const Board *b, uint64_t block, uint64_t i, uint64_t n, uint8_t *out)
{
    uint64_t end = i + n;
    while (i < end && i % 8 != 0)
        *out++ = block_byte(b, block, i++);
    for (; i + 8 <= end; i += 8, out += 8)
        store(out, word(b, 8 * block + i / 8));
    while (i < end)
        *out++ = block_byte(b, block, i++);
}

/* ---- The calls */

int64_t plain_check(const uint8_t *image, size_t image_len)
{
    Board b;
    return open_board(&b, image, image_len);
}

int64_t plain_size(const uint8_t *image, size_t image_len, uint64_t file)
{
    Board b;
    int64_t refusal = open_file(&b, image, image_len, file);
    return refusal != 0 ? refusal : (int64_t)word(&b, inode(&b, file) + 1);
}

int64_t plain_read(const uint8_t *image, size_t image_len, uint64_t file, uint64_t offset, uint8_t *out, size_t out_len)
{
    Board b;
    int64_t refusal = open_file(&b, image, image_len, file);
    if (refusal != 0)
        return refusal;
    uint64_t root = word(&b, inode(&b, file)), size = word(&b, inode(&b, file) + 1);
    uint64_t count = offset < size ? least(out_len, size - offset) : 0;
    for (uint64_t done = 0, n; done < count; done += n) {
        uint64_t at = offset + done, block = walk(&b, root, at);
        n = least(BLOCK_BYTES - at % BLOCK_BYTES, count - done);
        if (block == 0)
            memset(out + done, 0, n);
        else
            copy(&b, block, at % BLOCK_BYTES, n, out + done);
    }
    return (int64_t)count;
}
