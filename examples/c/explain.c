/* Explains why an element is in a piece of a node, of the plan of the file plan.bin over the data set of the file
 * data.bin, both of the folder that it is run in, and prints the answer and, for each pair of the chain, its node and
 * its element: docs/FORMAT.md, "Explaining" and "Report".
 *
 *     explain NODE PIECE ELEMENT
 *
 * Exit code: 0 explained, 1 refused, 2 the arguments are not three numbers, a file could not be read or the chain not
 * be written.
 *
 *     cc -std=c99 -I include examples/c/explain.c target/staticlib/libmavisglen.a -o target/explain
 */
#include "files.h"
#include "numbers.h"

int main(int count, char **arguments)
{
    size_t node, piece, element;
    if (count != 4 || !read_number(arguments[1], &node) || !read_number(arguments[2], &piece) ||
        !read_number(arguments[3], &element)) {
        fprintf(stderr, "to be called as: explain NODE PIECE ELEMENT\n");
        return FAILED;
    }
    if (!read_files()) {
        return FAILED;
    }

    uint16_t nodes[MAVISGLEN_LONGEST_CHAIN];
    uint16_t elements[MAVISGLEN_LONGEST_CHAIN];
    uint64_t answer = mavisglen_explain(plan, plan_len, data, data_len, node, piece, element, nodes,
                                        MAVISGLEN_LONGEST_CHAIN, elements, MAVISGLEN_LONGEST_CHAIN);
    if (mavisglen_accepted(answer)) {
        printf("explained %" PRIu64 "\n", mavisglen_length(answer));
        for (uint64_t pair = 0; pair < mavisglen_length(answer); pair++) {
            printf("%u %u\n", (unsigned)nodes[pair], (unsigned)elements[pair]);
        }
    } else {
        print_refusal(answer);
    }
    return exit_code(answer);
}
