/* Evaluates the plan of the file plan.bin over the data set of the file data.bin, both of the folder that it is run in,
 * and prints the answer and, for each symbol and piece, the members: docs/FORMAT.md, "Report".
 *
 * Exit code: 0 accepted, 1 refused, 2 a file could not be read or the report not be written.
 *
 *     cc -std=c99 -I include examples/c/evaluate.c target/staticlib/libmavisglen.a -o target/evaluate
 */
#include "files.h"

enum { MOST_ELEMENTS = 512, WORDS_OF_A_PIECE = 8 };

static uint64_t words[MAVISGLEN_MOST_WORDS];

/* The body of a section of an accepted plan: behind the sections before it and its own length. */
static const uint8_t *section_body(unsigned section)
{
    const uint8_t *length = plan + 1;
    for (unsigned earlier = 1; earlier < section; earlier++) {
        length += 2 + length[0] * 256 + length[1];
    }
    return length + 2;
}

/* The line of a piece: symbol, piece, colon, members. Bits at or above the region's size are 0. */
static void print_piece(unsigned symbol, unsigned piece, const uint64_t *set)
{
    printf("%u %u:", symbol, piece);
    for (unsigned element = 0; element < MOST_ELEMENTS; element++) {
        if ((set[element / 64] >> (element % 64)) & 1) {
            printf(" %u", element);
        }
    }
    printf("\n");
}

/* The lines of all symbols' pieces. */
static void print_symbols(unsigned symbols)
{
    const uint8_t *assignments = section_body(6);
    unsigned pieces = data[3]; /* behind the edition byte and the first section's length */
    for (unsigned symbol = 0; symbol < symbols; symbol++) {
        for (unsigned piece = 0; piece < pieces; piece++) {
            print_piece(symbol, piece, words + (assignments[symbol] * pieces + piece) * WORDS_OF_A_PIECE);
        }
    }
}

int main(void)
{
    if (!read_files()) {
        return FAILED;
    }

    uint64_t answer = mavisglen_evaluate(plan, plan_len, data, data_len, words, MAVISGLEN_MOST_WORDS);
    if (mavisglen_accepted(answer)) {
        printf("accepted %u %u %u\n", mavisglen_symbols(answer), mavisglen_nodes(answer), mavisglen_steps(answer));
        print_symbols(mavisglen_symbols(answer));
    } else {
        print_refusal(answer);
    }
    return exit_code(answer);
}
