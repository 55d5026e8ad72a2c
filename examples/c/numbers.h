/* What the examples share that are called with numbers. */
#ifndef EXAMPLE_NUMBERS_H
#define EXAMPLE_NUMBERS_H

#include <errno.h>
#include <stdint.h>
#include <stdlib.h>

/* Reads a decimal number of at most 64 bits. */
static int read_number(const char *text, size_t *number)
{
    char *end;
    errno = 0;
    unsigned long long value = strtoull(text, &end, 10);
    *number = (size_t)value;
    return text[0] >= '0' && text[0] <= '9' && *end == '\0' && errno == 0 && value <= SIZE_MAX;
}

#endif
