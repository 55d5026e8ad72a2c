/* Charges for what is accessed and not owned, of the plan of the file plan.bin over the data set of the file data.bin, both
 * of the folder that it is run in, and prints the number of elements, the whole cents and the remainder: docs/FORMAT.md,
 * "Charging" and "Report".
 *
 *     charge ACCESSED OWNED PRICE
 *
 * Exit code: 0 charged, 1 refused, 2 the arguments are not three numbers, a file could not be read or the charge not be
 * written.
 *
 *     cc -std=c99 -I include examples/c/charge.c target/staticlib/libmavisglen.a -o target/charge
 */
#include "files.h"
#include "numbers.h"

int main(int count, char **arguments)
{
    size_t accessed, owned, price;
    if (count != 4 || !read_number(arguments[1], &accessed) || !read_number(arguments[2], &owned) ||
        !read_number(arguments[3], &price)) {
        fprintf(stderr, "to be called as: charge ACCESSED OWNED PRICE\n");
        return FAILED;
    }
    if (!read_files()) {
        return FAILED;
    }

    uint64_t answer = mavisglen_charge(plan, plan_len, data, data_len, accessed, owned, price);
    if (mavisglen_accepted(answer)) {
        printf("charged %" PRIu32 " %" PRIu32 " %" PRIu32 "\n", mavisglen_count(answer), mavisglen_cents(answer),
               mavisglen_remainder(answer));
    } else {
        print_refusal(answer);
    }
    return exit_code(answer);
}
