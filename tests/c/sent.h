/* What the programs share that make the calls sent on their standard input. PROGRAM is the name that they say. */
#ifndef SENT_H
#define SENT_H

#include <stdint.h>
#include <stdio.h>
#include <stdlib.h>

static void stop(const char *why)
{
    fprintf(stderr, PROGRAM ": %s\n", why);
    exit(2);
}

static void get(void *bytes, size_t length)
{
    if (length > 0 && fread(bytes, 1, length, stdin) != length)
        stop("the input ends too early");
}

/* Eight bytes, the lowest first. */
static uint64_t get_number(void)
{
    uint8_t bytes[8];
    uint64_t number = 0;
    get(bytes, sizeof bytes);
    for (unsigned i = 0; i < 8; i++)
        number |= (uint64_t)bytes[i] << (8 * i);
    return number;
}

/* Exactly as long as it is said to be, so that a tool that watches memory sees an element used past the end. */
static void *buffer(uint64_t bytes)
{
    void *at = malloc(bytes);
    if (at == NULL && bytes > 0)
        stop("no memory");
    return at;
}

/* The arguments of a read, a call of it, and a line of what it answers and leaves. */
static void read_call(int64_t (*read)(uint64_t file, uint64_t offset, uint8_t *out, size_t out_len))
{
    uint64_t file = get_number(), offset = get_number(), length = get_number(), fill = get_number();
    uint8_t *out = buffer(length);
    for (uint64_t i = 0; i < length; i++)
        out[i] = (uint8_t)fill;
    printf("read %lld ", (long long)read(file, offset, out, length));
    for (uint64_t i = 0; i < length; i++)
        printf("%02x", out[i]);
    printf("\n");
    free(out);
}

#endif
