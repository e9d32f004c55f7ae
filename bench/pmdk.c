/*
 * The time of the operations of costs.rs by this store and by transactions of PMDK's libpmemobj, both on files in the
 * folder that is named as the only argument. Both flush by libpmem: run it with PMEM_IS_PMEM_FORCE=1, so that libpmem
 * flushes by the processor's instructions and not by msync. Prints a Markdown table of medians.
 */
#define _POSIX_C_SOURCE 200809L

#include "montebeech.h"

#include <inttypes.h>
#include <libpmem.h>
#include <libpmemobj.h>
#include <stdatomic.h>
#include <stdio.h>
#include <stdlib.h>
#include <string.h>
#include <time.h>

enum { BOARD = 8192, PLAN = 12000, ROUNDS = 10001, MOST_WRITES = 4, LARGEST = 4096 };
enum { SCORES, COINS, LOG, PICTURE };

static _Noreturn void fail(const char *what)
{
    fprintf(stderr, "pmdk: %s\n", what);
    exit(1);
}

static int64_t done(int64_t answer)
{
    if (answer < 0) {
        fprintf(stderr, "pmdk: refused %" PRId64 "\n", -answer);
        exit(1);
    }
    return answer;
}

/* ---- The operations */

struct write {
    int file;
    uint64_t offset;
    size_t count;
    int with_next; /* in one transaction with the write after it */
};

struct operation {
    const char *name;
    uint64_t log_size; /* before it */
    int writes;
    struct write write[MOST_WRITES];
    int own_writes; /* this store's, where they are others; none if it does not offer the operation */
    struct write own;
};

#define SAME (-1)
#define SCORE {SCORES, 24, 8, 0}
#define INITIALS {SCORES, 36, 6, 0}
#define COIN {COINS, 0, 8, 0}
#define ENTRY {LOG, 2976, 24, 0}
#define NO_WRITE {0, 0, 0, 0}

static const struct operation operations[] = {
    {"one word of the score table", 2976, 1, {SCORE}, SAME, NO_WRITE},
    {"six bytes of initials across two words", 2976, 1, {INITIALS}, SAME, NO_WRITE},
    {"the coin meter's word", 2976, 1, {COIN}, SAME, NO_WRITE},
    {"24-byte append to the log", 2976, 1, {ENTRY}, SAME, NO_WRITE},
    {"the four in a row", 2976, 4, {SCORE, INITIALS, COIN, ENTRY}, SAME, NO_WRITE},
    {"the four as one change", 2976, 4,
     {{SCORES, 24, 8, 1}, {SCORES, 36, 6, 1}, {COINS, 0, 8, 1}, ENTRY}, 0, NO_WRITE},
    {"24-byte append that goes into a fresh block", 3000, 1, {{LOG, 3000, 24, 0}}, SAME, NO_WRITE},
    {"rewrite of 64 bytes", 2976, 1, {{PICTURE, 4096, 64, 0}}, SAME, NO_WRITE},
    {"rewrite of 512 bytes", 2976, 1, {{PICTURE, 4096, 512, 0}}, SAME, NO_WRITE},
    {"rewrite of 4,096 bytes", 2976, 1, {{PICTURE, 4096, 4096, 0}}, SAME, NO_WRITE},
    {"two words 96 bytes apart, together", 2976, 2,
     {{SCORES, 48, 8, 1}, {SCORES, 144, 8, 0}}, 1, {SCORES, 48, 104, 0}},
};

enum { OPERATIONS = sizeof operations / sizeof operations[0] };

static uint8_t bytes[LARGEST];

/* Other bytes in each round, the same for both. */
static void next_bytes(void)
{
    static uint64_t x = 88172645463325252;
    for (size_t i = 0; i < LARGEST; i += 8) {
        x ^= x << 13;
        x ^= x >> 7;
        x ^= x << 17;
        memcpy(bytes + i, &x, 8);
    }
}

/* ---- The clock */

/* Read after a fence, without which it is read before the flushes are over. */
static int64_t now(void)
{
    struct timespec time;
    atomic_thread_fence(memory_order_seq_cst);
    clock_gettime(CLOCK_MONOTONIC, &time);
    return time.tv_sec * (int64_t)1000000000 + time.tv_nsec;
}

static int64_t clock_cost;

static int compare(const void *a, const void *b)
{
    int64_t x = *(const int64_t *)a, y = *(const int64_t *)b;
    return (x > y) - (x < y);
}

static int64_t median(int64_t *figures)
{
    qsort(figures, ROUNDS, sizeof *figures, compare);
    return figures[ROUNDS / 2];
}

static void measure_clock(void)
{
    static int64_t figures[ROUNDS];
    for (int i = 0; i < ROUNDS; i++) {
        int64_t start = now();
        figures[i] = now() - start;
    }
    clock_cost = median(figures);
}

/* ---- This store */

static uint64_t *board, plan[2 * PLAN];

/* Performs a plan epoch by epoch. At each barrier, and after the last store, every line stored to is flushed. */
static void performed(uint64_t pairs)
{
    for (uint64_t i = 0; i < pairs; i++) {
        uint64_t first = i;
        while (i < pairs && plan[2 * i] != MONTEBEECH_BARRIER)
            i++;
        done(montebeech_words_perform(board, BOARD, plan + 2 * first, 2 * (i - first), i - first));
        uint64_t last_block = 0; /* no plan stores to block 0 */
        for (uint64_t j = first; j < i; j++) {
            uint64_t block = plan[2 * j] / 8;
            if (block != last_block)
                pmem_flush(board + 8 * block, 64);
            last_block = block;
        }
        pmem_drain();
    }
}

static uint64_t planned(const struct write *write, const uint8_t *from)
{
    uint64_t file = (uint64_t)write->file;
    return (uint64_t)done(
        montebeech_words_write(board, BOARD, file, write->offset, from, write->count, plan, 2 * PLAN));
}

struct times {
    int64_t planning, performing;
};

static struct times own_time(const struct operation *operation)
{
    struct times times = {0, 0};
    int writes = operation->own_writes == SAME ? operation->writes : operation->own_writes;
    for (int i = 0; i < writes; i++) {
        const struct write *write = operation->own_writes == SAME ? &operation->write[i] : &operation->own;
        int64_t start = now();
        uint64_t pairs = planned(write, bytes);
        int64_t middle = now();
        performed(pairs);
        int64_t end = now();
        times.planning += middle - start - clock_cost;
        times.performing += end - middle - clock_cost;
    }
    return times;
}

static void own_log_size(uint64_t size)
{
    performed((uint64_t)done(montebeech_words_set_length(board, BOARD, LOG, size, plan, 2 * PLAN)));
}

/* The board that costs.rs starts from, as far as its blocks go. */
static void make_board(const char *path)
{
    size_t mapped;
    int is_pmem;
    board = pmem_map_file(path, 8 * BOARD, PMEM_FILE_CREATE | PMEM_FILE_EXCL, 0600, &mapped, &is_pmem);
    if (board == NULL || !is_pmem)
        fail("the board cannot be mapped, or PMEM_IS_PMEM_FORCE is not 1");
    performed((uint64_t)done(montebeech_words_format(board, BOARD, plan, 2 * PLAN)));
    static const uint8_t zeros[16384];
    const struct write whole[] = {{SCORES, 0, 480, 0}, {COINS, 0, 8, 0}, {PICTURE, 0, 16384, 0}};
    for (int i = 0; i < 3; i++)
        performed(planned(&whole[i], zeros));
    for (uint64_t entry = 0; entry < 125; entry++)
        performed(planned(&(struct write){LOG, 24 * entry, 24, 0}, zeros));
}

/* ---- libpmemobj */

struct files {
    uint8_t scores[480];
    uint64_t coins;
    uint64_t log_size;
    uint8_t log[4096];
    uint8_t picture[16384];
};

static PMEMobjpool *pool;
static struct files *files;

static void make_pool(const char *path)
{
    pool = pmemobj_create(path, "montebeech", PMEMOBJ_MIN_POOL, 0600);
    if (pool == NULL)
        fail(pmemobj_errormsg());
    files = pmemobj_direct(pmemobj_root(pool, sizeof *files));
    if (files == NULL)
        fail(pmemobj_errormsg());
}

static uint8_t *place(int file)
{
    switch (file) {
    case SCORES:
        return files->scores;
    case COINS:
        return (uint8_t *)&files->coins;
    case LOG:
        return files->log;
    default:
        return files->picture;
    }
}

/* Inside a transaction. Bytes past the log's size need no snapshot, since nobody reads them before the size grows. */
static void stored(const struct write *write)
{
    uint8_t *to = place(write->file) + write->offset;
    if (write->file == LOG) {
        pmemobj_tx_xadd_range_direct(to, write->count, POBJ_XADD_NO_SNAPSHOT);
        pmemobj_tx_add_range_direct(&files->log_size, sizeof files->log_size);
        files->log_size = write->offset + write->count;
    } else {
        pmemobj_tx_add_range_direct(to, write->count);
    }
    memcpy(to, bytes, write->count);
}

static void transaction(const struct write *write)
{
    TX_BEGIN(pool) {
        const struct write *next = write;
        stored(next);
        while (next->with_next)
            stored(++next);
    } TX_ONABORT {
        fail(pmemobj_errormsg());
    } TX_END
}

static int64_t pmdk_time(const struct operation *operation)
{
    int64_t time = 0;
    for (int i = 0; i < operation->writes; i++) {
        if (i > 0 && operation->write[i - 1].with_next)
            continue;
        int64_t start = now();
        transaction(&operation->write[i]);
        time += now() - start - clock_cost;
    }
    return time;
}

static void pmdk_log_size(uint64_t size)
{
    files->log_size = size;
    pmemobj_persist(pool, &files->log_size, sizeof files->log_size);
}

/* One aligned word needs no transaction. */
static int64_t word_time(void)
{
    int64_t start = now();
    memcpy(files->scores + 24, bytes, 8);
    pmemobj_persist(pool, files->scores + 24, 8);
    return now() - start - clock_cost;
}

/* ---- Both */

/* What an operation wrote must read alike. This store's write of two words together is left out: it covers more. */
static void compare_files(const struct operation *operation)
{
    static uint8_t found[LARGEST];
    for (int i = 0; i < operation->writes && operation->own_writes == SAME; i++) {
        const struct write *write = &operation->write[i];
        uint64_t file = (uint64_t)write->file;
        done(montebeech_words_read(board, BOARD, file, write->offset, found, write->count));
        if (memcmp(found, place(write->file) + write->offset, write->count) != 0)
            fail("the files differ");
    }
    if ((uint64_t)done(montebeech_words_size(board, BOARD, LOG)) != files->log_size && operation->own_writes == SAME)
        fail("the logs differ");
}

static void print_figure(int64_t figure)
{
    if (figure >= 1000)
        printf(" %" PRId64 ",%03" PRId64 " |", figure / 1000, figure % 1000);
    else
        printf(" %" PRId64 " |", figure);
}

static void print_row(const struct operation *operation, int64_t own, int64_t performing, int64_t pmdk)
{
    printf("| %s |", operation->name);
    if (operation->own_writes == 0) {
        printf(" not offered | not offered |");
        print_figure(pmdk);
        printf(" | |\n");
        return;
    }
    print_figure(own);
    print_figure(performing);
    print_figure(pmdk);
    printf(" %.2f | %.2f |\n", (double)own / (double)pmdk, (double)performing / (double)pmdk);
}

static void measure(const struct operation *operation)
{
    static int64_t own[ROUNDS], performing[ROUNDS], pmdk[ROUNDS];
    for (int i = 0; i < ROUNDS; i++) {
        next_bytes();
        own_log_size(operation->log_size);
        pmdk_log_size(operation->log_size);
        struct times times = own_time(operation);
        own[i] = times.planning + times.performing;
        performing[i] = times.performing;
        pmdk[i] = pmdk_time(operation);
        compare_files(operation);
    }
    print_row(operation, median(own), median(performing), median(pmdk));
}

/* What a planning spends on the board's check, after a transaction as above. */
static int64_t check_time(void)
{
    transaction(&operations[0].write[0]);
    int64_t start = now();
    done(montebeech_words_check(board, BOARD));
    return now() - start - clock_cost;
}

static void measure_alone(const char *name, int64_t (*time)(void))
{
    static int64_t figures[ROUNDS];
    for (int i = 0; i < ROUNDS; i++) {
        next_bytes();
        figures[i] = time();
    }
    printf("%s: %" PRId64 " ns\n", name, median(figures));
}

int main(int count, char **arguments)
{
    char path[4096];
    if (count != 2 || snprintf(path, sizeof path, "%s/board", arguments[1]) >= (int)sizeof path - 8)
        fail("one argument is needed, a folder");
    make_board(path);
    snprintf(path, sizeof path, "%s/pool", arguments[1]);
    make_pool(path);
    measure_clock();
    printf("\n| | this store, ns | of that performing | libpmemobj, ns | ratio | performing's ratio |\n");
    printf("|---|---|---|---|---|---|\n");
    for (int i = 0; i < OPERATIONS; i++)
        measure(&operations[i]);
    printf("\n");
    measure_alone("one word by libpmemobj without a transaction", word_time);
    measure_alone("montebeech_words_check", check_time);
    pmemobj_close(pool);
    return 0;
}
