// The header in C++: it compiles, and its functions link under their C names.
#include "montebeech.h"

#include <cstdio>

// A plan for every call is declared by the words of the board.
static uint64_t plan[MONTEBEECH_PLAN_WORDS(128)];
static_assert(sizeof plan / sizeof plan[0] == 256, "twice the words of the board");

int main()
{
    int64_t answer = montebeech_check(nullptr, 0);
    if (answer != -MONTEBEECH_WORD_COUNT) {
        std::printf("check of no image: expected %d, found %lld\n", -MONTEBEECH_WORD_COUNT, static_cast<long long>(answer));
        return 1;
    }
    answer = montebeech_words_walk(nullptr, 0, 0, 0);
    if (answer != 0) {
        std::printf("walk on no words: expected a hole, found %lld\n", static_cast<long long>(answer));
        return 1;
    }
    const uint64_t board[128] = {};
    answer = montebeech_words_format(board, 128, plan, MONTEBEECH_PLAN_WORDS(128));
    if (answer != MONTEBEECH_FORMAT_WORDS / 2) {
        std::printf("format: expected %d pairs, found %lld\n", MONTEBEECH_FORMAT_WORDS / 2, static_cast<long long>(answer));
        return 1;
    }
    std::printf("the header in C++: 3 tests, 0 failed\n");
    return 0;
}
