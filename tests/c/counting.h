/* Tests counted, and what a failed one says. */
#ifndef COUNTING_H
#define COUNTING_H

#include <stdarg.h>
#include <stdbool.h>
#include <stdio.h>

static unsigned long tests, failed;
static char subject[200];

/* Names what the tests that follow are about. */
__attribute__((format(printf, 1, 2))) static void about(const char *format, ...)
{
    va_list args;
    va_start(args, format);
    vsnprintf(subject, sizeof subject, format, args);
    va_end(args);
}

/* Counts a test, and says whether it failed, so that the caller prints the rest of the line. */
static bool fails(bool as_expected)
{
    tests++;
    if (as_expected)
        return false;
    failed++;
    printf("%s: ", subject);
    return true;
}

#endif
