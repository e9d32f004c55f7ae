/* What the tests of the C interface share: counting, memory that ends at a wall, and how much stack a call takes. */
#ifndef TESTING_H
#define TESTING_H

#define _DEFAULT_SOURCE /* mmap and contexts */
#include "counting.h"

#include <stdint.h>
#include <stdlib.h>
#include <string.h>
#include <sys/mman.h>
#include <ucontext.h>
#include <unistd.h>

/* ---- Lent memory */

/* The end of memory behind which lies a page that cannot be touched: a byte used past the end stops the program. */
static uint8_t *memory_before_wall(size_t bytes)
{
    size_t page = (size_t)sysconf(_SC_PAGESIZE), whole = (bytes + page - 1) / page * page;
    uint8_t *at = mmap(NULL, whole + page, PROT_READ | PROT_WRITE, MAP_PRIVATE | MAP_ANONYMOUS, -1, 0);
    if (at == MAP_FAILED || mprotect(at + whole, page, PROT_NONE) != 0) {
        perror("memory for the tests");
        exit(2);
    }
    return at + whole;
}

/* ---- Stack */

/* How much of a painted stack the call writes to. */
static size_t stack_used(void (*call)(void))
{
    enum { ROOM = 1024 * 1024, PAINT = 0xc5 };
    static uint8_t stack[ROOM] __attribute__((aligned(64)));
    static ucontext_t here, there;
    memset(stack, PAINT, ROOM);
    if (getcontext(&there) != 0)
        exit(2);
    there.uc_stack.ss_sp = stack;
    there.uc_stack.ss_size = ROOM;
    there.uc_link = &here;
    makecontext(&there, call, 0);
    if (swapcontext(&here, &there) != 0)
        exit(2);
    size_t untouched = 0;
    while (untouched < ROOM && stack[untouched] == PAINT)
        untouched++;
    return ROOM - untouched;
}

#endif
