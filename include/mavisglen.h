/* Partition plans: checking, evaluating over a data set, explaining why an element is in a piece, and charging for what
 * is accessed and not owned. docs/FORMAT.md has the byte formats, the words, the chains, the charges and the table of
 * refusals. Link with libmavisglen.a (x86-64).
 *
 * The functions keep no state and allocate nothing. Threads may call them at the same time, each with memory of its own
 * to write into.
 *
 * SPDX-License-Identifier: MIT OR Apache-2.0
 */
#ifndef MAVISGLEN_H
#define MAVISGLEN_H

#include <stddef.h>
#include <stdint.h>

#ifdef __cplusplus
extern "C" {
#endif

/* As many words as any plan needs: 48 nodes of 16 pieces of 8 words. */
#define MAVISGLEN_MOST_WORDS 6144

/* As many pairs as any chain has: one of each of 48 nodes. */
#define MAVISGLEN_LONGEST_CHAIN 48

/* The highest price that is charged, in cents per thousand elements. */
#define MAVISGLEN_HIGHEST_PRICE 1000000

/* The number of an answer: 0, or a refusal's. Behind the meaning of each refusal stands what its place is; the first in
 * the order of docs/FORMAT.md is given. */
enum mavisglen_answer_number {
    MAVISGLEN_ACCEPTED = 0,
    MAVISGLEN_TRUNCATED = 1,          /* the plan ends before a section does: the section, 0 for no bytes */
    MAVISGLEN_UNKNOWN_EDITION = 2,    /* the plan's first byte is not 1: 0 */
    MAVISGLEN_TRAILING_BYTES = 3,     /* bytes follow the plan's last section: their offset */
    MAVISGLEN_INVALID_LENGTH = 4,     /* a section is not of whole records, or of too many or too few: the section */
    MAVISGLEN_INVALID_RECORD = 5,     /* a record's value is out of range: section * 256 + record */
    MAVISGLEN_REGION_MISMATCH = 6,    /* a record's regions disagree: section * 256 + record */
    MAVISGLEN_DUPLICATE_NODE = 7,     /* a node equals an earlier one: its record */
    MAVISGLEN_NOT_PARALLELIZABLE = 8, /* a loop is not parallelizable: its FOR's record */
    MAVISGLEN_ASSIGNMENT_COUNT = 9,   /* there is not one assignment for each symbol: the number of symbols */
    MAVISGLEN_UNLICENSED_STEP = 10,   /* a step does not follow by its lemma: the step */
    MAVISGLEN_UNMET_NEED = 11,        /* no step concludes a need: the symbol that has it */
    MAVISGLEN_INVALID_DATA = 12,      /* the data set's edition, lengths, pieces or sizes are wrong: 0 */
    MAVISGLEN_INVALID_ENTRY = 13,     /* a map's entry is out of range, or none in a total map: map * 512 + element */
    MAVISGLEN_INVALID_PARTITION = 14, /* a supplied partition breaks a declared flag or has a bit past its last element:
                                         its number */
    MAVISGLEN_OUTPUT_TOO_SMALL = 15,  /* fewer words are lent than nodes * pieces * 8: that product;
                                         or fewer places than the chain's length: that length */
    MAVISGLEN_NOT_FOUND = 16,         /* the node (1), the piece (2) or the element (3) does not exist, or the element
                                         is not in the piece (4): the lowest of these */
    MAVISGLEN_INVALID_CHARGE = 17     /* a node does not exist (1), the two differ in region (2), or the price is above
                                         the highest (3): the lowest of these */
};

/* Checks a plan: an acceptance, or a refusal of the plan (1 to 11).
 * Asks: plan_len bytes can be read at plan; plan may be null where plan_len is 0.
 * Writes: nothing. */
uint64_t mavisglen_check(const uint8_t *plan, size_t plan_len);

/* Evaluates a plan over a data set into the lent words: an acceptance, or a refusal of the plan (1 to 11), of the data
 * set (12 to 14) or of the number of words (15).
 * Asks: plan_len bytes can be read at plan and data_len at data, which may overlap each other; words_len words, aligned
 * as uint64_t is, can be read and written at words, and overlap neither; a pointer may be null where its length is 0.
 * The words may hold anything.
 * Writes: after an acceptance the first nodes * pieces * 8 words, the nodes' subregions; after a refusal nothing. */
uint64_t mavisglen_evaluate(const uint8_t *plan, size_t plan_len, const uint8_t *data, size_t data_len,
                            uint64_t *words, size_t words_len);

/* Explains why an element is in a piece of a node, by a chain of pairs of a node and an element, from the pair asked
 * for to one of a supplied or an equal node: the chain's length, or a refusal of the plan (1 to 11), of the data set
 * (12 to 14), of what is asked for (16) or of the number of places (15). Any node, piece and element may be asked for.
 * Asks: plan_len bytes can be read at plan and data_len at data, which may overlap each other; nodes_len numbers at
 * nodes and elements_len at elements, aligned as uint16_t is, can be read and written, and overlap neither each other
 * nor plan and data; a pointer may be null where its length is 0. The numbers at nodes and elements may be any.
 * Writes: if it is explained, as many numbers as the chain is long, its nodes at nodes and its elements at elements;
 * after a refusal nothing. */
uint64_t mavisglen_explain(const uint8_t *plan, size_t plan_len, const uint8_t *data, size_t data_len, size_t node,
                           size_t piece, size_t element, uint16_t *nodes, size_t nodes_len, uint16_t *elements,
                           size_t elements_len);

/* Charges for what is accessed and not owned, at a price in cents per thousand elements: the number of elements, over
 * all pieces, that a piece of the accessed node has and the same piece of the owned node lacks, and what they cost, in
 * whole cents and the remainder; or a refusal of the plan (1 to 11), of the data set (12 to 14) or of what is charged
 * for (17). Any nodes and any price may be asked for.
 * Asks: plan_len bytes can be read at plan and data_len at data, which may overlap each other; a pointer may be null
 * where its length is 0.
 * Writes: nothing. */
uint64_t mavisglen_charge(const uint8_t *plan, size_t plan_len, const uint8_t *data, size_t data_len, size_t accessed,
                          size_t owned, uint64_t price);

/* Every answer is a number in the low 8 bits, and above them the value that goes with it. */

static inline unsigned mavisglen_number(uint64_t answer)
{
    return (unsigned)(answer & 0xFF);
}

static inline uint64_t mavisglen_value(uint64_t answer)
{
    return answer >> 8;
}

static inline int mavisglen_accepted(uint64_t answer)
{
    return mavisglen_number(answer) == MAVISGLEN_ACCEPTED;
}

/* A refusal's place; 0 for an acceptance. */
static inline uint64_t mavisglen_place(uint64_t answer)
{
    return mavisglen_accepted(answer) ? 0 : mavisglen_value(answer);
}

/* What stands in so many bits of an acceptance's value, from this one on; 0 for a refusal. */
static inline uint32_t mavisglen_part(uint64_t answer, unsigned from, unsigned bits)
{
    uint64_t mask = ((uint64_t)1 << bits) - 1;
    return mavisglen_accepted(answer) ? (uint32_t)((mavisglen_value(answer) >> from) & mask) : 0;
}

/* The length of what was written, of an explanation; 0 for a refusal. */
static inline uint64_t mavisglen_length(uint64_t answer)
{
    return mavisglen_accepted(answer) ? mavisglen_value(answer) : 0;
}

/* The counts of an accepted plan, checked or evaluated; 0 for a refusal. */

static inline unsigned mavisglen_symbols(uint64_t answer)
{
    return mavisglen_part(answer, 0, 8);
}

static inline unsigned mavisglen_nodes(uint64_t answer)
{
    return mavisglen_part(answer, 8, 8);
}

static inline unsigned mavisglen_steps(uint64_t answer)
{
    return mavisglen_part(answer, 16, 8);
}

/* A charge; 0 for a refusal. Count times price is 1,000 times the cents, and the remainder, which is below 1,000. */

static inline uint32_t mavisglen_count(uint64_t answer)
{
    return mavisglen_part(answer, 0, 16);
}

static inline uint32_t mavisglen_cents(uint64_t answer)
{
    return mavisglen_part(answer, 16, 24);
}

static inline uint32_t mavisglen_remainder(uint64_t answer)
{
    return mavisglen_part(answer, 40, 16);
}

#ifdef __cplusplus
}
#endif

#endif
