/*
 * How libFuzzer changes an input of the target in images.c: mostly whole words of the image, found by following its
 * pointers, and then the trailer is made sound again, since else nearly every image would be refused for its trailer.
 */
#include "request.h"

#include <string.h>

enum { BLOCK_BYTES = 64, WORDS = 8 };

size_t LLVMFuzzerMutate(uint8_t *data, size_t size, size_t max_size);

/* ---- Random numbers, all from the seed that libFuzzer gives */

static uint64_t state;

static uint64_t random_word(void)
{
    uint64_t x = state += 0x9e3779b97f4a7c15u;
    x = (x ^ x >> 30) * 0xbf58476d1ce4e5b9u;
    x = (x ^ x >> 27) * 0x94d049bb133111ebu;
    return x ^ x >> 31;
}

static uint64_t below(uint64_t n)
{
    return random_word() % n;
}

/* ---- Words of the image */

static void store_word(uint8_t *p, uint64_t word)
{
    for (unsigned i = 0; i < 8; i++)
        p[i] = (uint8_t)(word >> (8 * i));
}

/* The number of a word to which some pointers lead from the trailer, or of any word. */
static size_t place(const uint8_t *image, size_t len)
{
    size_t blocks = len / BLOCK_BYTES;
    if (blocks == 0 || below(4) == 0)
        return below(len / 8);
    size_t block = blocks - 1;
    for (unsigned steps = (unsigned)below(7); steps > 0; steps--) {
        size_t word = block == blocks - 1 ? 0 : below(WORDS);
        uint64_t next = load_word(image + 8 * (WORDS * block + word)) / 8;
        if (next == 0 || next >= blocks)
            break;
        block = (size_t)next;
    }
    return WORDS * block + below(WORDS);
}

static uint64_t pointer(size_t len)
{
    return 8 * below(len / BLOCK_BYTES + 1) + (below(3) == 0 ? below(8) : 0);
}

static uint64_t new_word(const uint8_t *image, size_t len, uint64_t old)
{
    switch (below(8)) {
    case 0:
        return below(10);
    case 1:
        return bounds[below(COUNT(bounds))];
    case 2:
        return load_word(image + 8 * place(image, len));
    case 3:
        return old ^ (uint64_t)1 << below(64);
    case 4:
        return old + 8 - below(17);
    case 5:
        return below(32769);
    default:
        return pointer(len);
    }
}

static void change_word(uint8_t *image, size_t len)
{
    uint8_t *at = image + 8 * place(image, len);
    store_word(at, new_word(image, len, load_word(at)));
}

/* A root of any height and a size, in a pair of words as an inode has it. */
static void change_file(uint8_t *image, size_t len)
{
    size_t at = place(image, len) / 2 * 2;
    if (8 * at + 16 > len)
        return;
    store_word(image + 8 * at, 8 * below(len / BLOCK_BYTES + 1) + below(4));
    store_word(image + 8 * at + 8, below(2) == 0 ? below(32769) : bounds[below(20)]);
}

/* A block that is all zero is sound as a leaf and as a node. */
static void clear_block(uint8_t *image, size_t len)
{
    size_t start = place(image, len) / WORDS * BLOCK_BYTES;
    if (start + BLOCK_BYTES <= len)
        memset(image + start, 0, BLOCK_BYTES);
}

/* ---- The whole image */

/* Bytes, words or blocks more or fewer. The last block mostly stays the last. */
static size_t change_length(uint8_t *image, size_t len, size_t most)
{
    static const size_t steps[] = {1, 7, 8, 8, 56, 64, 64, 128, 640, 4096};
    uint8_t trailer[BLOCK_BYTES] = {0};
    size_t step = steps[below(COUNT(steps))], new_len;
    if (len >= BLOCK_BYTES)
        memcpy(trailer, image + len - BLOCK_BYTES, BLOCK_BYTES);
    if (below(2) == 0)
        new_len = step < len ? len - step : 0;
    else
        new_len = step < most - len ? len + step : most;
    if (new_len > len)
        memset(image + len, 0, new_len - len);
    if (new_len >= BLOCK_BYTES && below(4) != 0)
        memcpy(image + new_len - BLOCK_BYTES, trailer, BLOCK_BYTES);
    return new_len;
}

/* The trailer as the document has it, for this length. Word 0 stays if it can be an inode root, else is format's. */
static void repair_trailer(uint8_t *image, size_t len)
{
    const uint64_t rest[] = {512, len / BLOCK_BYTES, 1, 0, 0, 0, 0};
    if (len < BLOCK_BYTES)
        return;
    uint8_t *trailer = image + len - BLOCK_BYTES;
    uint64_t root = load_word(trailer);
    if (root % 8 != 1 || root / 8 < 1 || root / 8 > len / BLOCK_BYTES - 2)
        store_word(trailer, 9);
    for (unsigned j = 0; j < COUNT(rest); j++)
        store_word(trailer + 8 * (j + 1), rest[j]);
}

static size_t change_image(uint8_t *image, size_t len, size_t most)
{
    uint64_t way = below(16);
    if (way < 2 || len < 8)
        len = change_length(image, len, most);
    else if (way == 2)
        clear_block(image, len);
    else if (way < 6)
        change_file(image, len);
    else
        for (uint64_t n = below(3) + 1; n > 0; n--)
            change_word(image, len);
    if (below(2) == 0)
        len -= len % BLOCK_BYTES;
    if (below(8) != 0)
        repair_trailer(image, len);
    return len;
}

/* ---- What is asked */

static void change_request(uint8_t *request)
{
    switch (below(5)) {
    case 0:
        request[below(3)] = (uint8_t)random_word();
        break;
    case 1:
        request[FILE_CHOICE] = GIVEN;
        request[FILE_GIVEN] = (uint8_t)below(33);
        break;
    case 2:
        request[LENGTH_CHOICE] = GIVEN;
        request[LENGTH_GIVEN] = (uint8_t)random_word();
        request[LENGTH_GIVEN + 1] = (uint8_t)(below(2) == 0 ? 0 : below(129));
        break;
    case 3:
        request[OFFSET_CHOICE] = GIVEN;
        store_word(request + OFFSET_GIVEN, below(2) == 0 ? below(600) : below(32769));
        break;
    default:
        LLVMFuzzerMutate(request, REQUEST_BYTES, REQUEST_BYTES);
    }
}

size_t LLVMFuzzerCustomMutator(uint8_t *data, size_t size, size_t max_size, unsigned seed)
{
    state = seed;
    if (size < REQUEST_BYTES || max_size < REQUEST_BYTES || below(16) == 0)
        return LLVMFuzzerMutate(data, size, max_size);
    if (below(4) == 0)
        change_request(data);
    else
        size = REQUEST_BYTES + change_image(data + REQUEST_BYTES, size - REQUEST_BYTES, max_size - REQUEST_BYTES);
    return size;
}
