/* What the examples share: the files plan.bin and data.bin of the folder that they are run in, the line of a refusal,
 * and the exit code. */
#ifndef EXAMPLE_FILES_H
#define EXAMPLE_FILES_H

#include "mavisglen.h"

#include <inttypes.h>
#include <stdio.h>

/* The exit codes: done, refused, or a file could not be read or the output not be written. */
enum { ACCEPTED, REFUSED, FAILED };

/* Sections of the greatest length that two bytes can tell, the edition byte before them, and one byte more, which shows
 * that a file is too long: of a longer file, what fits gets the answer of the whole. */
enum { MOST_SECTION = 2 + 65535, MOST_PLAN = 1 + 7 * MOST_SECTION + 1, MOST_DATA = 1 + 4 * MOST_SECTION + 1 };

static uint8_t plan[MOST_PLAN];
static uint8_t data[MOST_DATA];
static size_t plan_len;
static size_t data_len;

/* Reads a file, as much of it as the buffer holds; says on standard error why it cannot. */
static int read_file(const char *name, uint8_t *buffer, size_t size, size_t *length)
{
    FILE *file = fopen(name, "rb");
    if (file == NULL) {
        perror(name);
        return 0;
    }
    *length = fread(buffer, 1, size, file);
    int is_read = !ferror(file);
    if (!is_read) {
        perror(name);
    }
    fclose(file);
    return is_read;
}

/* Both files are read, so that both are named where neither can be. */
static int read_files(void)
{
    int plan_is_read = read_file("plan.bin", plan, sizeof plan, &plan_len);
    int data_is_read = read_file("data.bin", data, sizeof data, &data_len);
    return plan_is_read && data_is_read;
}

static void print_refusal(uint64_t answer)
{
    printf("refused %u %" PRIu64 "\n", mavisglen_number(answer), mavisglen_place(answer));
}

/* The exit code that goes with an answer, once all is printed. */
static int exit_code(uint64_t answer)
{
    if (fflush(stdout) != 0 || ferror(stdout)) {
        perror("standard output");
        return FAILED;
    }
    return mavisglen_accepted(answer) ? ACCEPTED : REFUSED;
}

#endif
