/*
 * Tests of check, size and read as C calls them. The boards are made here word by word, from the document's format.
 * Block 0, free blocks and dead words hold rubbish, since they must decide nothing.
 */
#include "testing.h"

#include "montebeech.h"
#include "random.h"

#include <inttypes.h>
#include <string.h>

enum { MOST_WORDS = 8192, GREATEST = MONTEBEECH_GREATEST_SIZE, FILES = MONTEBEECH_FILES };
enum { LONGEST_IMAGE = 131072, MOST_OUT = GREATEST + 1000, MARGIN = 64, SOUND = 0 };

#define LAST UINT64_MAX
#define BIT_32 ((uint64_t)1 << 32)
#define BIT_63 ((uint64_t)1 << 63)
#define COUNT(list) (sizeof(list) / sizeof *(list))

static const uint64_t span[4] = {64, 512, 4096, 32768};

/* ---- Lent memory */

static uint8_t *image_end, *out_end;
static uint8_t *image; /* what the calls are lent */
static size_t image_len;
static uint8_t kept[LONGEST_IMAGE]; /* the image as it was lent */

static void lend(const uint8_t *bytes, size_t len)
{
    image = image_end - len;
    image_len = len;
    if (len > 0) {
        memcpy(kept, bytes, len);
        memcpy(image, bytes, len);
    }
}

/* ---- Expectations, on the image that is lent */

static void image_stays(void)
{
    if (image_len > 0 && memcmp(image, kept, image_len) != 0) {
        fails(false);
        printf("expected the image as it was, found it changed\n");
        memcpy(image, kept, image_len);
    }
}

static void check_answers(int64_t wanted)
{
    int64_t found = montebeech_check(image, image_len);
    if (fails(found == wanted))
        printf("check: expected %" PRId64 ", found %" PRId64 "\n", wanted, found);
    image_stays();
}

static void size_answers(uint64_t file, int64_t wanted)
{
    int64_t found = montebeech_size(image, image_len, file);
    if (fails(found == wanted))
        printf("size of file %" PRIu64 ": expected %" PRId64 ", found %" PRId64 "\n", file, wanted, found);
    image_stays();
}

static void out_holds(const uint8_t *out, size_t len, int64_t wanted, const uint8_t *bytes, uint8_t fill)
{
    for (ptrdiff_t i = -MARGIN; i < (ptrdiff_t)len; i++) { /* the margin before the buffer has to stay too */
        uint8_t expected = i >= 0 && i < wanted ? bytes[i] : fill;
        if (out[i] != expected) {
            fails(false);
            printf("buffer of %zu bytes, byte %td: expected %u, found %u\n", len, i, expected, out[i]);
            return;
        }
    }
    fails(true);
}

/* The answer, the bytes read, and all others untouched. Twice, since a byte read can equal what the buffer held. */
static void read_into(uint8_t *out, uint64_t file, uint64_t offset, size_t len, int64_t wanted, const uint8_t *bytes)
{
    static const uint8_t fills[] = {0x5a, 0xa5};
    for (unsigned i = 0; i < COUNT(fills); i++) {
        memset(out - MARGIN, fills[i], MARGIN + len);
        int64_t found = montebeech_read(image, image_len, file, offset, out, len);
        if (fails(found == wanted))
            printf("read of file %" PRIu64 " at %" PRIu64 ", %zu bytes: expected %" PRId64 ", found %" PRId64 "\n", file,
                   offset, len, wanted, found);
        out_holds(out, len, wanted, bytes, fills[i]);
    }
    image_stays();
}

static void read_gives(uint64_t file, uint64_t offset, size_t len, int64_t wanted, const uint8_t *bytes)
{
    read_into(out_end - len, file, offset, len, wanted, bytes);
}

static void read_nowhere(uint64_t file, uint64_t offset, int64_t wanted)
{
    int64_t found = montebeech_read(image, image_len, file, offset, NULL, 0);
    if (fails(found == wanted))
        printf("read of file %" PRIu64 " at %" PRIu64 ", no buffer: expected %" PRId64 ", found %" PRId64 "\n", file,
               offset, wanted, found);
    image_stays();
}

/* The image is refused by each call, whatever else it is asked. */
static void refused(int64_t refusal)
{
    check_answers(-refusal);
    size_answers(0, -refusal);
    size_answers(31, -refusal);
    size_answers(32, -refusal);
    read_gives(0, 0, 20, -refusal, NULL);
    read_gives(LAST, LAST, 20, -refusal, NULL);
    read_nowhere(0, 0, -refusal);
    read_nowhere(32, 0, -refusal);
}

static void accepted(void)
{
    check_answers(0);
    size_answers(32, -MONTEBEECH_FILE_NUMBER);
    read_gives(32, 0, 20, -MONTEBEECH_FILE_NUMBER, NULL);
}

/* A file's answers, its bytes known: read whole, in a longer buffer, around each edge, at the end and past it. */
static void file_reads_as(uint64_t file, const uint8_t *bytes, uint64_t size)
{
    static const uint64_t starts[] = {1, 3, 7, 8, 60, 63, 64, 65, 509, 512, 1000, 4093, 4096, 20001, 32767};
    static const size_t lengths[] = {1, 2, 8, 9, 64, 70, 513, 4200};
    const uint64_t past[] = {size, size + 1, size + 64, GREATEST, BIT_32, BIT_63, LAST - 8, LAST};
    size_answers(file, (int64_t)size);
    read_gives(file, 0, size, (int64_t)size, bytes);
    read_gives(file, 0, size + 100, (int64_t)size, bytes);
    read_gives(file, 0, 0, 0, NULL);
    read_nowhere(file, 0, 0);
    for (unsigned i = 0; i < COUNT(starts) && starts[i] <= size; i++) {
        uint64_t left = size - starts[i];
        for (unsigned j = 0; j < COUNT(lengths); j++)
            read_gives(file, starts[i], lengths[j], (int64_t)(lengths[j] < left ? lengths[j] : left), bytes + starts[i]);
    }
    if (size > 0) {
        read_gives(file, size - 1, 9, 1, bytes + size - 1);
        read_gives(file, size - 1, 1, 1, bytes + size - 1);
    }
    for (unsigned i = 0; i < COUNT(past); i++) {
        read_gives(file, past[i], 9, 0, NULL);
        read_nowhere(file, past[i], 0);
    }
}

/* ---- Boards */

static uint64_t words[MOST_WORDS];
static unsigned blocks;
static unsigned pointer_block, leaves[8];
static unsigned next_block; /* the lowest that no tree has */

/* What a dead word may hold: anything, also a pointer that would be sound. */
static uint64_t rubbish(void)
{
    uint64_t x = random_word();
    switch (x >> 62) {
    case 0:
        return 8 * (x % blocks);
    case 1:
        return x % (8 * blocks + 40);
    case 2:
        return LAST;
    default:
        return x;
    }
}

static void fill_block(unsigned block, uint64_t word)
{
    for (unsigned j = 0; j < 8; j++)
        words[8 * block + j] = word;
}

static unsigned inode(unsigned file)
{
    return 8 * leaves[file / 4] + 2 * (file % 4);
}

static unsigned trailer(void)
{
    return 8 * (blocks - 1);
}

/* An empty board whose inode pointer block and leaves stand at `first`, `first` + `step` and so on. */
static void lay_out(unsigned count, unsigned first, int step)
{
    blocks = count;
    for (unsigned i = 0; i < 8 * blocks; i++)
        words[i] = rubbish();
    pointer_block = first;
    for (unsigned j = 0; j < 8; j++) {
        leaves[j] = (unsigned)((int)first + (int)(j + 1) * step);
        words[8 * pointer_block + j] = 8 * leaves[j];
        fill_block(leaves[j], 0);
    }
    const uint64_t last[8] = {8 * (uint64_t)first + 1, 512, blocks, 1, 0, 0, 0, 0};
    memcpy(words + trailer(), last, sizeof last);
    next_block = step > 0 ? leaves[7] + 1 : 1;
}

/* As the format call leaves it. */
static void format(unsigned count)
{
    lay_out(count, 1, 1);
}

static void lend_board(void)
{
    static uint8_t bytes[8 * MOST_WORDS];
    for (unsigned i = 0; i < 64 * blocks; i++)
        bytes[i] = (uint8_t)(words[i / 8] >> (8 * (i % 8)));
    lend(bytes, 64 * (size_t)blocks);
}

/* Lends the board, which is accepted with 0, or refused with a number. */
static void board_is(int64_t refusal)
{
    lend_board();
    if (refusal == SOUND)
        accepted();
    else
        refused(refusal);
}

/* The same with one word made another. */
static void with_word(unsigned at, uint64_t value, int64_t refusal)
{
    uint64_t was = words[at];
    words[at] = value;
    board_is(refusal);
    words[at] = was;
}

static void set_file(unsigned file, uint64_t root, uint64_t size)
{
    words[inode(file)] = root;
    words[inode(file) + 1] = size;
}

/* The same with a file's root and size, which stay. */
static void with_file(unsigned file, uint64_t root, uint64_t size, int64_t refusal)
{
    set_file(file, root, size);
    board_is(refusal);
}

static unsigned take(void)
{
    if (next_block > blocks - 2) {
        fprintf(stderr, "%s: the test's board is too small\n", subject);
        exit(2);
    }
    return next_block++;
}

/* Where the pointer to the tree of some height over the bytes from `start` on leads to a block. */
typedef bool Exists(unsigned height, uint64_t start);

static bool everywhere(unsigned height, uint64_t start)
{
    (void)height, (void)start;
    return true;
}

static bool nowhere(unsigned height, uint64_t start)
{
    (void)height, (void)start;
    return false;
}

static bool not_second(unsigned height, uint64_t start)
{
    return start / span[height] % 8 != 1;
}

static bool odd_data(unsigned height, uint64_t start)
{
    return height > 0 || start / 64 % 2 == 1;
}

static bool first_path(unsigned height, uint64_t start)
{
    (void)height;
    return start == 0;
}

/* Byte i of what a file holds, different from its neighbours and from other files. */
static uint8_t data_byte(unsigned file, uint64_t i)
{
    return (uint8_t)(i * 37 + i / 64 * 11 + i / 512 * 5 + i / 4096 * 3 + file * 29 + 1);
}

/* The pointer to a tree over the bytes from `start` on. Data blocks are filled also past the size. */
static uint64_t tree(unsigned file, unsigned height, uint64_t start, uint64_t size, Exists *exists)
{
    if (start >= size)
        return rubbish();
    if (!exists(height, start))
        return 0;
    unsigned block = take();
    for (unsigned j = 0; j < 8; j++) {
        uint64_t value = 0;
        if (height > 0)
            value = tree(file, height - 1, start + j * span[height - 1], size, exists);
        else
            for (unsigned i = 0; i < 8; i++)
                value |= (uint64_t)data_byte(file, start + 8 * j + i) << (8 * i);
        words[8 * block + j] = value;
    }
    return 8 * (uint64_t)block;
}

static void put_file(unsigned file, unsigned height, uint64_t size, Exists *exists)
{
    set_file(file, size > 0 ? tree(file, height, 0, size, exists) + height : rubbish(), size);
}

/* What such a file reads as: its data, 0 in holes and past the span. */
static const uint8_t *contents(unsigned file, unsigned height, uint64_t size, Exists *exists)
{
    static uint8_t bytes[GREATEST];
    for (uint64_t i = 0; i < size; i++) {
        bool there = i < span[height];
        for (unsigned h = 0; h <= height; h++)
            there = there && exists(h, i / span[h] * span[h]);
        bytes[i] = there ? data_byte(file, i) : 0;
    }
    return bytes;
}

/* ---- The document's examples */

static void fresh(unsigned block, unsigned at, uint64_t value)
{
    fill_block(block, 0);
    words[at] = value;
}

static void e2_board(void)
{
    format(16);
    fresh(10, 80, 16961);
    words[16] = 80;
    words[17] = 2;
}

static void example(const char *name, const uint8_t *bytes, uint64_t size)
{
    about("%s", name);
    board_is(SOUND);
    file_reads_as(0, bytes, size);
    for (unsigned file = 1; file < FILES; file++)
        size_answers(file, 0);
}

static void bench_examples(void)
{
    static const uint8_t zeros[1], ab[100] = {65, 66}, e3[] = {90, 66}, e4[] = {65, 67, 68};
    uint8_t e8[100] = {65, 66};
    e2_board();
    example("E2", ab, 2);
    words[80] = 16986;
    example("E3", e3, 2);
    e2_board();
    fresh(11, 88, 4473665);
    fresh(12, 96, 88);
    words[97] = 3;
    words[8] = 96;
    example("E4", e4, 3);
    e2_board();
    words[17] = 0;
    example("E5", zeros, 0);
    words[16] = 0;
    words[17] = 1;
    example("E6", zeros, 1);
    e2_board();
    words[81] = 0;
    words[17] = 10;
    example("E7", ab, 10);
    words[17] = 100;
    example("E2 and length 100", ab, 100);
    fresh(11, 88, 80);
    words[16] = 89;
    fresh(12, 100, 117440512);
    words[89] = 96;
    e8[99] = 7;
    example("E8", e8, 100);
}

/* ---- Refusal 1 */

static void byte_counts(void)
{
    static const size_t wrong[] = {0,     1,     7,     8,     63,    64,    512,   960,   1016,  1023,  1025,  1028,  1032,         1080,
                                   1087,  1089,  32760, 65480, 65528, 65535, 65537, 65540, 65544, 65592, 65600, 66560, LONGEST_IMAGE};
    static const unsigned right[] = {16, 17, 31, 100, 512, 1023, 1024};
    static uint8_t bytes[LONGEST_IMAGE];
    format(1024);
    lend_board();
    memcpy(bytes, image, image_len);
    memcpy(bytes + image_len, image, image_len);
    for (unsigned i = 0; i < COUNT(wrong); i++) {
        about("%zu bytes", wrong[i]);
        lend(bytes, wrong[i]);
        refused(MONTEBEECH_WORD_COUNT);
    }
    about("no image");
    image = NULL;
    image_len = 0;
    refused(MONTEBEECH_WORD_COUNT);
    for (unsigned i = 0; i < COUNT(right); i++) {
        size_t whole = 64 * (size_t)right[i];
        about("formatted, %u blocks", right[i]);
        format(right[i]);
        board_is(SOUND);
        memcpy(bytes, image, whole);
        for (unsigned file = 0; file < FILES; file++)
            size_answers(file, 0);
        file_reads_as(0, NULL, 0);
        file_reads_as(31, NULL, 0);
        about("%u blocks and one byte more", right[i]);
        lend(bytes, whole + 1);
        refused(MONTEBEECH_WORD_COUNT);
        about("%u blocks less one word", right[i]);
        lend(bytes, whole - 8);
        refused(MONTEBEECH_WORD_COUNT);
    }
}

/* ---- Refusal 2 */

static void with_trailer_word(unsigned j, uint64_t value)
{
    bool root_in_range = j == 0 && value % 8 == 1 && value / 8 >= 1 && value / 8 <= blocks - 2;
    if (value == words[trailer() + j])
        return;
    about("%u blocks, trailer word %u = %" PRIu64, blocks, j, value);
    /* in range it leads to a block that holds no inode pointers */
    with_word(trailer() + j, value, root_in_range ? MONTEBEECH_DAMAGED : MONTEBEECH_TRAILER);
}

static void trailer_words(void)
{
    static const unsigned counts[] = {16, 23, 1024};
    for (unsigned i = 0; i < COUNT(counts); i++) {
        format(counts[i]);
        const uint64_t values[] = {0, 1, 2, 511, 513, 65536, blocks - 1, blocks + 1, LAST};
        for (unsigned j = 0; j < 8; j++) {
            for (unsigned bit = 0; bit < 64; bit++)
                with_trailer_word(j, words[trailer() + j] ^ (uint64_t)1 << bit);
            for (unsigned k = 0; k < COUNT(values); k++)
                with_trailer_word(j, values[k]);
        }
        for (unsigned low = 0; low < 8; low++) {
            with_trailer_word(0, 8 * pointer_block + low);
            with_trailer_word(0, trailer() + low);
            with_trailer_word(0, 8 * blocks + low);
        }
    }
}

/* ---- Refusal 3 */

static void inode_pointers(void)
{
    format(24);
    fill_block(0, 0); /* as a leaf it would be sound, and so would this one */
    fill_block(22, 0);
    for (unsigned j = 0; j < 8; j++) {
        unsigned at = 8 * pointer_block + j;
        const uint64_t wrong[] = {0, 8 * pointer_block, 8 * leaves[(j + 1) % 8], 8 * leaves[(j + 7) % 8], trailer(), 8 * blocks,
                                  words[at] + BIT_32, words[at] + BIT_63, LAST - 7, LAST};
        for (unsigned i = 0; i < COUNT(wrong); i++) {
            about("inode pointer %u = %" PRIu64, j, wrong[i]);
            with_word(at, wrong[i], MONTEBEECH_DAMAGED);
        }
        for (unsigned low = 1; low < 8; low++) {
            about("inode pointer %u with low bits %u", j, low);
            with_word(at, words[at] + low, MONTEBEECH_DAMAGED);
        }
        about("inode pointer %u to the last block before the trailer", j);
        with_word(at, 8 * 22, SOUND);
    }
}

static void sizes(void)
{
    static const uint64_t wrong[] = {32769, 32770, 65536, BIT_32, BIT_32 + 5, BIT_63, LAST};
    static const uint64_t right[] = {0, 1, 64, 65, 32767, 32768};
    for (unsigned file = 0; file < FILES; file++) {
        format(16);
        for (unsigned height = 0; height < 4; height++) {
            about("file %u, null root of height %u", file, height);
            for (unsigned i = 0; i < COUNT(wrong); i++)
                with_file(file, height, wrong[i], MONTEBEECH_DAMAGED);
            for (unsigned i = 0; i < COUNT(right); i++) {
                with_file(file, height, right[i], SOUND);
                size_answers(file, (int64_t)right[i]);
            }
        }
    }
}

/* What a live root may not hold, and that the root of an empty file may hold it. */
static void with_wrong_root(unsigned file, uint64_t root)
{
    about("file %u, root %" PRIu64 ", size 1", file, root);
    with_file(file, root, 1, MONTEBEECH_DAMAGED);
    about("file %u, root %" PRIu64 ", size 0", file, root);
    with_file(file, root, 0, SOUND);
    read_gives(file, 0, 9, 0, NULL);
}

static void roots(void)
{
    format(40);
    const uint64_t wrong[] = {8 * pointer_block, 8 * leaves[0], 8 * leaves[7], trailer(), 8 * blocks, 8 * 1024,
                              BIT_32 + 80,       BIT_63 + 80,   LAST - 7};
    for (unsigned file = 0; file < FILES; file += 31) {
        for (unsigned height = 4; height < 8; height++) {
            with_wrong_root(file, height);
            with_wrong_root(file, 8 * 11 + height);
        }
        for (unsigned i = 0; i < COUNT(wrong); i++)
            for (unsigned height = 0; height < 4; height++)
                with_wrong_root(file, wrong[i] + height);
        about("file %u, any root with size 0", file);
        for (unsigned i = 0; i < 50; i++)
            with_file(file, rubbish(), 0, SOUND);
        about("file %u, root to the last block before the trailer", file);
        with_file(file, 8 * (blocks - 2), 64, SOUND);
        set_file(file, 0, 0);
    }
}

/* What the live pointer j of a block may not hold, and that a dead one may hold it. */
static void with_wrong_pointers(unsigned block, unsigned j, bool is_live, unsigned other)
{
    unsigned at = 8 * block + j;
    uint64_t sound = is_live ? words[at] : 8 * (uint64_t)(next_block + 1);
    const uint64_t wrong[] = {sound + 1, sound + 2, sound + 4, sound + 7, 1, 7, 8 * block, 8 * other, 8 * pointer_block, 8 * leaves[0],
                              8 * leaves[7], trailer(), 8 * blocks, BIT_32 + sound, BIT_63 + sound, LAST - 7, LAST};
    char where[sizeof subject];
    memcpy(where, subject, sizeof where);
    for (unsigned k = 0; k < COUNT(wrong); k++) {
        about("%.120s, pointer %u = %" PRIu64, where, j, wrong[k]);
        with_word(at, wrong[k], is_live ? MONTEBEECH_DAMAGED : SOUND);
    }
    about("%.120s, pointer %u null", where, j);
    with_word(at, 0, SOUND);
    memcpy(subject, where, sizeof where);
}

/* The leftmost block of each height of some trees. */
static void pointers(void)
{
    static const uint64_t some_sizes[] = {1, 64, 65, 450, 513, 4000};
    for (unsigned height = 1; height < 4; height++) {
        for (unsigned i = 0; i < COUNT(some_sizes); i++) {
            format(120);
            put_file(6, height, some_sizes[i], everywhere);
            unsigned other = take(), block = (unsigned)words[inode(6)] / 8;
            about("height %u, size %" PRIu64, height, some_sizes[i]);
            with_file(7, 8 * other, 5, SOUND);
            for (unsigned h = height; h > 0; h--, block = (unsigned)words[8 * block] / 8) {
                about("height %u, size %" PRIu64 ", block of height %u", height, some_sizes[i], h);
                for (unsigned j = 0; j < 8; j++)
                    with_wrong_pointers(block, j, j * span[h - 1] < some_sizes[i], other);
            }
        }
    }
}

static void reached_twice(void)
{
    about("one block in two files");
    format(40);
    with_file(0, 8 * 20, 1, SOUND);
    for (unsigned file = 1; file < FILES; file++) {
        with_file(file, 8 * 20, 1, MONTEBEECH_DAMAGED);
        set_file(file, 8 * 20, 0);
    }
    about("one block in two files, as data and as pointers");
    fill_block(20, 0);
    with_file(9, 8 * 20 + 1, 1, MONTEBEECH_DAMAGED);

    about("a pointer block of one file is data of another");
    format(40);
    put_file(3, 2, 70, everywhere);
    with_file(2, words[8 * (words[inode(3)] / 8)], 30, MONTEBEECH_DAMAGED);
    with_file(2, words[8 * (words[inode(3)] / 8)], 0, SOUND);

    format(40);
    put_file(0, 1, 512, everywhere);
    unsigned block = (unsigned)words[inode(0)] / 8;
    for (unsigned j = 1; j < 8; j++) {
        about("pointers 0 and %u of one block", j);
        with_word(8 * block + j, words[8 * block], MONTEBEECH_DAMAGED);
        about("pointers 0 and %u of one block, the second dead", j);
        words[inode(0) + 1] = 64 * j;
        with_word(8 * block + j, words[8 * block], SOUND);
        words[inode(0) + 1] = 512;
    }

    for (unsigned height = 1; height < 4; height++) {
        about("a block that points to itself, height %u", height);
        format(40);
        fill_block(20, 8 * 20);
        with_file(31, 8 * 20 + height, 1, MONTEBEECH_DAMAGED);
        with_file(31, 8 * 20 + height, GREATEST, MONTEBEECH_DAMAGED);
        words[8 * 20] = 0;
        about("a block whose second pointer leads to itself, height %u", height);
        with_file(31, 8 * 20 + height, span[height - 1] + 1, MONTEBEECH_DAMAGED);
        about("a block whose second pointer leads to itself and is dead, height %u", height);
        with_file(31, 8 * 20 + height, span[height - 1], SOUND);
    }
    about("two blocks that point to each other");
    format(40);
    fill_block(20, 8 * 21);
    fill_block(21, 8 * 20);
    with_file(0, 8 * 20 + 3, GREATEST, MONTEBEECH_DAMAGED);
    with_file(0, 8 * 20 + 2, 1, MONTEBEECH_DAMAGED);
    about("two blocks that point to each other, the second one data");
    with_file(0, 8 * 20 + 1, 64, SOUND);
}

/* ---- The order of refusals */

static void order_of_refusals(void)
{
    static const size_t wrong[] = {65535, 65528, 65600};
    static uint8_t bytes[65600];
    format(1024);
    about("a damaged board");
    with_file(4, 4, 32769, MONTEBEECH_DAMAGED);
    about("a damaged board with a wrong trailer");
    for (unsigned j = 0; j < 8; j++)
        with_word(trailer() + j, ~words[trailer() + j], MONTEBEECH_TRAILER);
    about("a damaged board with a wrong trailer and byte count");
    words[trailer() + 3] = 2;
    lend_board();
    memcpy(bytes, image, image_len);
    for (unsigned i = 0; i < COUNT(wrong); i++) {
        lend(bytes, wrong[i]);
        refused(MONTEBEECH_WORD_COUNT);
    }
    about("an inode pointer and the trailer");
    format(16);
    words[8 * pointer_block] = 3;
    board_is(MONTEBEECH_DAMAGED);
    words[trailer() + 7] = 1;
    board_is(MONTEBEECH_TRAILER);
    /* the damage need not be in the file that is asked for */
    for (unsigned file = 0; file < FILES; file++) {
        about("file %u damaged", file);
        format(16);
        with_file(file, 7, 1, MONTEBEECH_DAMAGED);
    }
}

static void file_numbers(void)
{
    static const uint64_t wrong[] = {32, 33, 63, 64, 255, 256, 288, BIT_32, BIT_63, LAST - 31, LAST};
    about("file numbers");
    format(120);
    for (unsigned file = 0; file < FILES; file++)
        put_file(file, 1, 65 + file, everywhere);
    board_is(SOUND);
    for (unsigned file = 0; file < FILES; file++)
        file_reads_as(file, contents(file, 1, 65 + file, everywhere), 65 + file);
    for (unsigned i = 0; i < COUNT(wrong); i++) {
        size_answers(wrong[i], -MONTEBEECH_FILE_NUMBER);
        read_gives(wrong[i], 0, 100, -MONTEBEECH_FILE_NUMBER, NULL);
        read_gives(wrong[i], LAST, 0, -MONTEBEECH_FILE_NUMBER, NULL);
        read_nowhere(wrong[i], 0, -MONTEBEECH_FILE_NUMBER);
    }
}

/* ---- Reading */

static void trees(void)
{
    static const uint64_t some_sizes[] = {1,   2,    7,    8,    9,    63,   64,   65,   127,   128,   129,   511,   512,
                                          513, 577,  1000, 4095, 4096, 4097, 4161, 8192, 20000, 32704, 32705, 32767, 32768};
    static const struct {
        const char *name;
        Exists *exists;
    } shapes[] = {{"full", everywhere},
                  {"null root", nowhere},
                  {"second pointers null", not_second},
                  {"every other data block", odd_data},
                  {"first path alone", first_path}};
    for (unsigned height = 0; height < 4; height++) {
        for (unsigned i = 0; i < COUNT(some_sizes); i++) {
            for (unsigned k = 0; k < COUNT(shapes); k++) {
                uint64_t size = some_sizes[i];
                unsigned file = (height * 7 + i + k * 11) % FILES;
                about("height %u, size %" PRIu64 ", %s", height, size, shapes[k].name);
                format(600);
                put_file(file, height, size, shapes[k].exists);
                board_is(SOUND);
                file_reads_as(file, contents(file, height, size, shapes[k].exists), size);
            }
        }
    }
}

/* Block 0 holds zeros, ones, then rubbish; other dead words are other rubbish each time. */
static void dead_words(void)
{
    for (unsigned turn = 0; turn < 20; turn++) {
        about("rubbish in block 0, free blocks and dead words, %u", turn);
        format(60);
        if (turn < 2)
            fill_block(0, turn == 0 ? 0 : LAST);
        put_file(0, 1, 64 + turn, everywhere);
        put_file(5, 2, 513, everywhere);
        put_file(17, 3, 4097, first_path);
        put_file(30, 0, 0, everywhere);
        set_file(31, turn % 4, 300); /* a hole reads as 0 whatever block 0 holds */
        board_is(SOUND);
        file_reads_as(0, contents(0, 1, 64 + turn, everywhere), 64 + turn);
        file_reads_as(5, contents(5, 2, 513, everywhere), 513);
        file_reads_as(17, contents(17, 3, 4097, first_path), 4097);
        file_reads_as(30, NULL, 0);
        file_reads_as(31, contents(31, turn % 4, 300, nowhere), 300);
    }
}

/* The inode pointer block and the leaves anywhere. */
static void other_places(unsigned count, unsigned first, int step)
{
    about("inode blocks %d apart from block %u on", step, first);
    lay_out(count, first, step);
    put_file(0, 1, 100, everywhere);
    put_file(31, 0, 64, everywhere);
    board_is(SOUND);
    file_reads_as(0, contents(0, 1, 100, everywhere), 100);
    file_reads_as(31, contents(31, 0, 64, everywhere), 64);
    for (unsigned file = 1; file < 31; file++)
        size_answers(file, 0);
}

static void every_offset_and_length(unsigned height, uint64_t size, Exists *exists)
{
    const uint8_t *bytes = contents(8, height, size, exists);
    about("each offset and length, height %u", height);
    format(20);
    put_file(8, height, size, exists);
    board_is(SOUND);
    for (uint64_t offset = 0; offset <= size + 2; offset++) {
        uint64_t left = offset < size ? size - offset : 0;
        for (size_t len = 0; len <= size + 10; len++)
            read_gives(8, offset, len, (int64_t)(len < left ? len : left), bytes + (size - left));
    }
}

/* No block is free: 585 in one file, the other 428 in six. */
static void full_board(void)
{
    about("a full board");
    format(1024);
    put_file(0, 3, GREATEST, everywhere);
    for (unsigned file = 1; file < 6; file++)
        put_file(file, 2, 4096, everywhere);
    put_file(6, 2, 3520, everywhere);
    if (fails(next_block == 1023))
        printf("expected block 1023 as the next, found %u\n", next_block);
    board_is(SOUND);
    file_reads_as(0, contents(0, 3, GREATEST, everywhere), GREATEST);
    file_reads_as(5, contents(5, 2, 4096, everywhere), 4096);
    file_reads_as(6, contents(6, 2, 3520, everywhere), 3520);
    for (unsigned file = 7; file < FILES; file++)
        size_answers(file, 0);
}

/* An image and a buffer at any address. */
static void alignments(void)
{
    static uint8_t place[8 * MOST_WORDS + 16], out[MARGIN + 200 + 16];
    const uint8_t *bytes = contents(12, 2, 600, everywhere);
    format(40);
    put_file(12, 2, 600, everywhere);
    lend_board();
    for (unsigned i = 0; i < 16; i++) {
        about("image at byte %u of 16", i);
        image = place + i;
        memcpy(image, kept, image_len);
        accepted();
        size_answers(12, 600);
        for (unsigned j = 0; j < 16; j++)
            read_into(out + MARGIN + j, 12, 50, 200, 200, bytes + 50);
    }
}

/* ---- Stack */

static unsigned which_call;

static void call_for_stack(void)
{
    static uint8_t out[GREATEST];
    switch (which_call) {
    case 0:
        montebeech_check(image, image_len);
        break;
    case 1:
        montebeech_size(image, image_len, 0);
        break;
    default:
        montebeech_read(image, image_len, 0, 3, out, sizeof out);
    }
}

static void stack_suffices(void)
{
    size_t most = 0;
    about("stack");
    format(1024);
    put_file(0, 3, GREATEST, everywhere);
    lend_board();
    for (which_call = 0; which_call < 3; which_call++) {
        size_t used = stack_used(call_for_stack);
        most = used > most ? used : most;
        if (fails(used <= MONTEBEECH_STACK_BYTES))
            printf("expected at most %d bytes, found %zu\n", MONTEBEECH_STACK_BYTES, used);
    }
    printf("a call uses at most %zu bytes of stack\n", most);
}

int main(void)
{
    image_end = memory_before_wall(LONGEST_IMAGE);
    out_end = memory_before_wall(MARGIN + MOST_OUT);
    stack_suffices(); /* first, since a function of the C library takes more stack where its first call binds it */
    bench_examples();
    byte_counts();
    trailer_words();
    inode_pointers();
    sizes();
    roots();
    pointers();
    reached_twice();
    order_of_refusals();
    file_numbers();
    trees();
    dead_words();
    other_places(16, 14, -1);
    other_places(24, 1, 2);
    every_offset_and_length(0, 70, everywhere);  /* past the span */
    every_offset_and_length(1, 150, not_second); /* over a hole */
    full_board();
    alignments();
    printf("%lu tests, %lu failed\n", tests, failed);
    return failed > 0;
}
