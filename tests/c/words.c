/*
 * Makes the calls on words that words.py sends on standard input, and prints what they answer and leave, a line for each.
 *
 *   B length words                            a board, for the calls that follow
 *   C, F                                      check, free count
 *   S file                                    size
 *   T file byte                               the walk to a byte
 *   R file offset length fill                 read into a buffer of that length, each byte of which holds `fill`
 *   W file offset length bytes plan fill      write; the plan slice has that many words, each of which holds `fill`
 *   L file length plan fill                   length change
 *   M plan fill                               format
 *   P plan words pairs                        perform, on the board; the plan has that many words
 *
 * A letter is one byte; bytes are as they are; each number and each word has eight bytes, the lowest first. Of a plan and of
 * a board the hash of its words is printed.
 */
#define PROGRAM "words"
#include "montebeech.h"
#include "sent.h"

#include <inttypes.h>

static uint64_t *board;
static size_t board_len;

static uint64_t *get_words(size_t *length)
{
    *length = get_number();
    uint64_t *words = buffer(8 * *length);
    for (size_t i = 0; i < *length; i++)
        words[i] = get_number();
    return words;
}

/* FNV-1a over words. */
static uint64_t hash(const uint64_t *words, size_t length)
{
    uint64_t value = 14695981039346656037u;
    for (size_t i = 0; i < length; i++)
        value = (value ^ words[i]) * 1099511628211u;
    return value;
}

static int64_t read_board(uint64_t file, uint64_t offset, uint8_t *out, size_t out_len)
{
    return montebeech_words_read(board, board_len, file, offset, out, out_len);
}

static void walk_call(void)
{
    uint64_t file = get_number(), byte = get_number();
    printf("walk %" PRId64 "\n", montebeech_words_walk(board, board_len, file, byte));
}

/* A call that plans; `letter` says which. */
static void plan_call(int letter)
{
    uint64_t file = 0, number = 0, bytes_len = 0;
    uint8_t *bytes = NULL;
    if (letter != 'M') {
        file = get_number();
        number = get_number();
    }
    if (letter == 'W') {
        bytes_len = get_number();
        bytes = buffer(bytes_len);
        get(bytes, bytes_len);
    }
    size_t plan_len = get_number();
    uint64_t fill = get_number(), *plan = buffer(8 * plan_len), before = hash(board, board_len);
    for (size_t i = 0; i < plan_len; i++)
        plan[i] = fill;
    int64_t answer = letter == 'W'   ? montebeech_words_write(board, board_len, file, number, bytes, bytes_len, plan, plan_len)
                     : letter == 'L' ? montebeech_words_set_length(board, board_len, file, number, plan, plan_len)
                                     : montebeech_words_format(board, board_len, plan, plan_len);
    printf("plan %" PRId64 " %016" PRIx64 "%s\n", answer, hash(plan, plan_len),
           hash(board, board_len) == before ? "" : " and the board changed");
    free(plan);
    free(bytes);
}

static void perform_call(void)
{
    size_t plan_len;
    uint64_t *plan = get_words(&plan_len), pairs = get_number();
    int64_t answer = montebeech_words_perform(board, board_len, plan, plan_len, pairs);
    printf("perform %" PRId64 " %016" PRIx64 "\n", answer, hash(board, board_len));
    free(plan);
}

int main(void)
{
    for (int letter; (letter = getchar()) != EOF;) {
        switch (letter) {
        case 'B':
            free(board);
            board = get_words(&board_len);
            break;
        case 'C':
            printf("check %" PRId64 "\n", montebeech_words_check(board, board_len));
            break;
        case 'F':
            printf("free %" PRId64 "\n", montebeech_words_free_count(board, board_len));
            break;
        case 'S':
            printf("size %" PRId64 "\n", montebeech_words_size(board, board_len, get_number()));
            break;
        case 'T':
            walk_call();
            break;
        case 'R':
            read_call(read_board);
            break;
        case 'W':
        case 'L':
        case 'M':
            plan_call(letter);
            break;
        case 'P':
            perform_call();
            break;
        default:
            stop("a letter that is none of B, C, F, S, T, R, W, L, M, P");
        }
    }
    free(board);
    return 0;
}
