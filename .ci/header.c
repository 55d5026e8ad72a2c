/* Tests the header, as C and as C++: its readers on known answers, null pointers where a length is 0, and explanations
 * and charges of the smallest plans. */
#include "mavisglen.h"

#include <stdio.h>

struct reading {
    uint64_t answer;
    unsigned number;
    uint64_t value;
    uint64_t place;
    uint64_t length;
    unsigned symbols, nodes, steps;
    uint32_t count, cents, remainder;
};

static const struct reading readings[] = {
    /* the greatest counts of a plan */
    {0x80304000, MAVISGLEN_ACCEPTED, 0x803040, 0, 0x803040, 64, 48, 128, 0x3040, 0x80, 0},
    /* the greatest length of a chain */
    {0x3000, MAVISGLEN_ACCEPTED, MAVISGLEN_LONGEST_CHAIN, 0, 48, 48, 0, 0, 48, 0, 0},
    /* the greatest charge, 8192 elements at the highest price; and one at a price just below, with what is left */
    {0x00007D0000200000, MAVISGLEN_ACCEPTED, 0x7D00002000, 0, 0x7D00002000, 0, 32, 0, 8192, 8192000, 0},
    {0x03287CFFF7200000, MAVISGLEN_ACCEPTED, 0x03287CFFF72000, 0, 0x03287CFFF72000, 0, 32, 247, 8192, 8191991, 808},
    /* a refusal has no counts, no length and no charge, whatever its place */
    {0x05020105, MAVISGLEN_INVALID_RECORD, 0x050201, 0x050201, 0, 0, 0, 0, 0, 0, 0},
    {0x180000 + 15, MAVISGLEN_OUTPUT_TOO_SMALL, MAVISGLEN_MOST_WORDS, 6144, 0, 0, 0, 0, 0, 0, 0},
    {0x3000 + 15, MAVISGLEN_OUTPUT_TOO_SMALL, MAVISGLEN_LONGEST_CHAIN, 48, 0, 0, 0, 0, 0, 0, 0},
    {0x0400 + 16, MAVISGLEN_NOT_FOUND, 4, 4, 0, 0, 0, 0, 0, 0, 0},
    {0x0300 + 17, MAVISGLEN_INVALID_CHARGE, 3, 3, 0, 0, 0, 0, 0, 0, 0},
    /* all bits of a value are read */
    {0xFFFFFFFFFFFFFFFF, 255, 0xFFFFFFFFFFFFFF, 0xFFFFFFFFFFFFFF, 0, 0, 0, 0, 0, 0, 0},
    {0xFFFFFFFFFFFFFF00, MAVISGLEN_ACCEPTED, 0xFFFFFFFFFFFFFF, 0, 0xFFFFFFFFFFFFFF, 255, 255, 255, 0xFFFF, 0xFFFFFF,
     0xFFFF},
};

static int reads(struct reading it)
{
    return mavisglen_accepted(it.answer) == (it.number == 0) && mavisglen_number(it.answer) == it.number &&
           mavisglen_value(it.answer) == it.value && mavisglen_place(it.answer) == it.place &&
           mavisglen_length(it.answer) == it.length && mavisglen_symbols(it.answer) == it.symbols &&
           mavisglen_nodes(it.answer) == it.nodes && mavisglen_steps(it.answer) == it.steps &&
           mavisglen_count(it.answer) == it.count && mavisglen_cents(it.answer) == it.cents &&
           mavisglen_remainder(it.answer) == it.remainder;
}

/* One region, and a node of it in equal pieces; one piece of one element. */
static const uint8_t plan[] = {1, 0, 1, 1, 0, 0, 0, 0, 0, 0, 0, 4, 1, 0, 0, 0, 0, 0, 0, 0};
static const uint8_t data[] = {1, 0, 1, 1, 0, 2, 0, 1, 0, 0, 0, 0};

/* What is lent at null, with a length of 0, is taken for nothing. */
static int takes_null(void)
{
    return mavisglen_check(NULL, 0) == MAVISGLEN_TRUNCATED &&
           mavisglen_evaluate(NULL, 0, NULL, 0, NULL, 0) == MAVISGLEN_TRUNCATED &&
           mavisglen_evaluate(plan, sizeof plan, NULL, 0, NULL, 0) == MAVISGLEN_INVALID_DATA &&
           mavisglen_evaluate(plan, sizeof plan, data, sizeof data, NULL, 0) == 0x0800 + MAVISGLEN_OUTPUT_TOO_SMALL &&
           mavisglen_explain(NULL, 0, NULL, 0, 0, 0, 0, NULL, 0, NULL, 0) == MAVISGLEN_TRUNCATED &&
           mavisglen_explain(plan, sizeof plan, NULL, 0, 0, 0, 0, NULL, 0, NULL, 0) == MAVISGLEN_INVALID_DATA &&
           mavisglen_explain(plan, sizeof plan, data, sizeof data, 0, 0, 0, NULL, 0, NULL, 0) ==
               0x0100 + MAVISGLEN_OUTPUT_TOO_SMALL &&
           mavisglen_charge(NULL, 0, NULL, 0, 0, 0, 0) == MAVISGLEN_TRUNCATED &&
           mavisglen_charge(plan, sizeof plan, NULL, 0, 0, 0, 0) == MAVISGLEN_INVALID_DATA;
}

/* What is asked for and does not exist, by numbers of every bit; and what does exist. */
static int explains(void)
{
    uint16_t nodes[2] = {7, 7};
    uint16_t elements[2] = {8, 8};
    const struct {
        size_t node, piece, element;
        uint64_t answer;
    } asked[] = {
        {SIZE_MAX, SIZE_MAX, SIZE_MAX, 0x0100 + MAVISGLEN_NOT_FOUND},
        {1, 0, 0, 0x0100 + MAVISGLEN_NOT_FOUND},
        {0, SIZE_MAX, 0, 0x0200 + MAVISGLEN_NOT_FOUND},
        {0, 0, SIZE_MAX, 0x0300 + MAVISGLEN_NOT_FOUND},
        {0, 0, 0, 0x0100},
    };
    for (size_t i = 0; i < sizeof asked / sizeof asked[0]; i++) {
        if (nodes[0] != 7 || elements[0] != 8 ||
            mavisglen_explain(plan, sizeof plan, data, sizeof data, asked[i].node, asked[i].piece, asked[i].element,
                              nodes, 2, elements, 2) != asked[i].answer) {
            return 0;
        }
    }
    return nodes[0] == 0 && elements[0] == 0 && nodes[1] == 7 && elements[1] == 8;
}

/* Two regions: of one, two nodes, equal pieces and nothing; of the other equal pieces. Two pieces of five elements and
 * one. */
static const uint8_t regions_plan[] = {1, 0, 2, 1, 1, 0, 0, 0, 0, 0, 0, 0, 12, 1, 0, 0, 0, 4, 0, 0, 0, 1, 1, 0, 0,
                                       0, 0, 0, 0};
static const uint8_t regions_data[] = {1, 0, 1, 2, 0, 4, 0, 5, 0, 1, 0, 0, 0, 0};

/* What cannot be charged, by numbers of every bit and the lowest place; and what can. */
static int charges(void)
{
    const struct {
        size_t accessed, owned;
        uint64_t price;
        uint64_t answer;
    } asked[] = {
        {SIZE_MAX, SIZE_MAX, UINT64_MAX, 0x0100 + MAVISGLEN_INVALID_CHARGE},
        {3, 0, 0, 0x0100 + MAVISGLEN_INVALID_CHARGE},
        {0, 3, 0, 0x0100 + MAVISGLEN_INVALID_CHARGE},
        {0, SIZE_MAX, 0, 0x0100 + MAVISGLEN_INVALID_CHARGE},
        {0, 2, UINT64_MAX, 0x0200 + MAVISGLEN_INVALID_CHARGE},
        {2, 1, 0, 0x0200 + MAVISGLEN_INVALID_CHARGE},
        {0, 1, MAVISGLEN_HIGHEST_PRICE + 1, 0x0300 + MAVISGLEN_INVALID_CHARGE},
        {0, 1, UINT64_MAX, 0x0300 + MAVISGLEN_INVALID_CHARGE},
        {0, 1, MAVISGLEN_HIGHEST_PRICE, 5 << 8 | (uint64_t)5000 << 24},
        {0, 1, 1999, 5 << 8 | (uint64_t)9 << 24 | (uint64_t)995 << 48},
        {1, 0, MAVISGLEN_HIGHEST_PRICE, 0},
        {2, 2, 0, 0},
    };
    for (size_t i = 0; i < sizeof asked / sizeof asked[0]; i++) {
        if (mavisglen_charge(regions_plan, sizeof regions_plan, regions_data, sizeof regions_data, asked[i].accessed,
                             asked[i].owned, asked[i].price) != asked[i].answer) {
            return 0;
        }
    }
    return 1;
}

int main(void)
{
    for (size_t i = 0; i < sizeof readings / sizeof readings[0]; i++) {
        if (!reads(readings[i])) {
            fprintf(stderr, "known answer %u is read wrongly\n", (unsigned)i);
            return 1;
        }
    }
    if (!takes_null()) {
        fprintf(stderr, "nothing at null is answered wrongly\n");
        return 1;
    }
    if (!explains()) {
        fprintf(stderr, "the smallest plan is explained wrongly\n");
        return 1;
    }
    if (!charges()) {
        fprintf(stderr, "a small plan is charged for wrongly\n");
        return 1;
    }
    return 0;
}
