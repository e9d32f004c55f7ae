/*
 * Montebeech: the files on a cabinet's memory board, from C.
 *
 * Two forms. The calls on an image (libcabinet.a) read: an image is the bytes of a board, eight to a word, byte 0 of
 * each word first, 1,024 to 65,536 bytes, a multiple of 64. The calls on words (libhosts.a) read and change: a board
 * is 128 to 8,192 64-bit words, a multiple of 8. Any image and any words may be passed: a damaged board is refused by
 * each call that has refusal 3 in its list.
 *
 * Each function answers 0 or more, or -r for the refusal r: the first of enum montebeech_refusal that applies and that
 * the function has in its list. A refusal leaves every buffer, plan and board as it was.
 *
 * The caller sees to this:
 * - Each pointer points to as many elements as its length says, which can be read, or written where it is not const.
 *   Words are aligned as uint64_t is; bytes need no alignment. Where a length is 0 the pointer is not used and may be
 *   NULL.
 * - What a function writes overlaps nothing else that it is passed, and nothing else writes to any of it before the call
 *   returns.
 * - The call has its stack: at most MONTEBEECH_STACK_BYTES on an image, MONTEBEECH_WORDS_STACK_BYTES on words.
 *
 * Nothing is kept between calls. Threads may call at the same time, each on what the others do not write.
 */
#ifndef MONTEBEECH_H
#define MONTEBEECH_H

#include <stddef.h>
#include <stdint.h>

#ifdef __cplusplus
extern "C" {
#endif

#define MONTEBEECH_FILES 32            /* files on a board, numbered 0 to 31 */
#define MONTEBEECH_MOST_BYTES 65536    /* of an image */
#define MONTEBEECH_GREATEST_SIZE 32768 /* of a file */
#define MONTEBEECH_STACK_BYTES 81920   /* for one call on an image */
#define MONTEBEECH_WORDS_STACK_BYTES 65536 /* for one call on words */
#define MONTEBEECH_BARRIER UINT64_MAX  /* the address of a pair that is a barrier */
#define MONTEBEECH_FORMAT_WORDS 166    /* of a plan of format */
/* Words of a plan that are enough for every plan of a board of board_len words: with so many no call refuses 8. */
#define MONTEBEECH_PLAN_WORDS(board_len) (2 * (board_len))

enum montebeech_refusal {
    MONTEBEECH_WORD_COUNT = 1,  /* an image's bytes or a board's words are too few, too many or no whole blocks */
    MONTEBEECH_TRAILER = 2,     /* one of the eight words of the last block is not as it should be */
    MONTEBEECH_DAMAGED = 3,     /* the board is damaged anywhere else, in whichever file */
    MONTEBEECH_FILE_NUMBER = 4, /* file is above 31 */
    MONTEBEECH_OFFSET = 5,      /* no call answers it any more: an offset may lie past the size */
    MONTEBEECH_END = 6,         /* the write, or the length, ends above 32,768 */
    MONTEBEECH_FREE_BLOCKS = 7, /* fewer blocks are free than the plan takes */
    MONTEBEECH_PLAN_LENGTH = 8, /* plan_len is below two words for each pair; MONTEBEECH_PLAN_WORDS never is */
    MONTEBEECH_PAIR_COUNT = 9,  /* pairs is above half of plan_len */
    MONTEBEECH_ADDRESS = 10     /* an address is neither on the board nor MONTEBEECH_BARRIER */
};

/* ---- Calls on an image */

/* Tells whether the image is a sound board. Answers 0. Refuses 1, 2, 3. */
int64_t montebeech_check(const uint8_t *image, size_t image_len);

/* Answers the size of a file in bytes, 0 to 32,768. Refuses 1, 2, 3, 4. */
int64_t montebeech_size(const uint8_t *image, size_t image_len, uint64_t file);

/*
 * Copies bytes of a file, from offset on, to the start of out, and answers their count: out_len, or the bytes from
 * offset to the file's size if those are fewer. At or past the size the count is 0. Bytes of out after the count
 * keep their values. Refuses 1, 2, 3, 4; then all of out keeps its values.
 */
int64_t montebeech_read(const uint8_t *image, size_t image_len, uint64_t file, uint64_t offset, uint8_t *out,
                        size_t out_len);

/* ---- Calls on words */

/* Tells whether the words are a sound board. Answers 0. Refuses 1, 2, 3. */
int64_t montebeech_words_check(const uint64_t *board, size_t board_len);

/* Answers the number of free blocks. Refuses 1, 2, 3. */
int64_t montebeech_words_free_count(const uint64_t *board, size_t board_len);

/* Answers the size of a file in bytes, 0 to 32,768. Refuses 1, 2, 3, 4. */
int64_t montebeech_words_size(const uint64_t *board, size_t board_len, uint64_t file);

/* As montebeech_read. Refuses 1, 2, 3, 4. */
int64_t montebeech_words_read(const uint64_t *board, size_t board_len, uint64_t file, uint64_t offset, uint8_t *out,
                              size_t out_len);

/*
 * Answers the number of the data block in which a byte of a file lies, or 0 where the byte is in a hole. Block k is the
 * words 8 * k to 8 * k + 7 of the board. A byte at or past the size lies in a block where the file has one there and
 * that block's first byte lies below the size. In a file above 31 every byte is in a hole. Refuses nothing and tests no
 * board: on a board that montebeech_words_check refuses, the number may be that of any block, even of one off the board.
 */
int64_t montebeech_words_walk(const uint64_t *board, size_t board_len, uint64_t file, uint64_t byte);

/*
 * The next three plan a change and store nothing on the board. They write the plan to the start of plan and answer the
 * number of its pairs; words of plan past it keep their values. A pair is two words, an address on the board and the
 * value to store there, or MONTEBEECH_BARRIER and 0: a barrier, before which all stores must have arrived. The cabinet
 * performs the pairs in order, with a barrier of its own after the last store, before another plan is made. If the power
 * fails on the way, each file reads wholly as before or wholly as after. A plan holds for the board that it was made
 * from, and for no other. No plan has more pairs than the board has words, so a plan slice of
 * MONTEBEECH_PLAN_WORDS(board_len) words is never refused 8.
 */

/*
 * Plans a write of bytes_len bytes at offset of a file. The offset may lie past the file's size: the bytes between then
 * read 0, and the call is one change as any other. With bytes_len 0 the plan is empty and the file stays as it is,
 * wherever the offset lies up to 32,768; above it the call is refused 6. How many stores the plan has at most, by
 * bytes_len, is in docs/DATASHEET.md. Refuses 1, 2, 3, 4, 6, 7, 8.
 */
int64_t montebeech_words_write(const uint64_t *board, size_t board_len, uint64_t file, uint64_t offset,
                               const uint8_t *bytes, size_t bytes_len, uint64_t *plan, size_t plan_len);

/* Plans length as the size of a file: bytes past it are gone, new ones are 0. Refuses 1, 2, 3, 4, 6, 8. */
int64_t montebeech_words_set_length(const uint64_t *board, size_t board_len, uint64_t file, uint64_t length,
                                    uint64_t *plan, size_t plan_len);

/* Plans 32 empty files on a board of any contents: 83 pairs. Refuses 1, 8. */
int64_t montebeech_words_format(const uint64_t *board, size_t board_len, uint64_t *plan, size_t plan_len);

/* Performs the first pairs pairs of a plan on the board and answers their number. Refuses 1, 9, 10. */
int64_t montebeech_words_perform(uint64_t *board, size_t board_len, const uint64_t *plan, size_t plan_len,
                                 uint64_t pairs);

#ifdef __cplusplus
}
#endif

#endif
