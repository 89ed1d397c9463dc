/* Zuccarvento for C and C++: claim tables checked, reduced and decided, by functions that are proved to answer as their definitions say.
 *
 * The library is libexports.a (`rt lib` in crates/exports writes it to out/ there). It needs nothing but memcpy and memset, keeps no
 * state, and takes no lock: calls from several threads do not meet.
 *
 * A slice is a pointer and the number of its elements. No words are altered but those of `out` and `row`, as said below. Whatever the
 * words, the numbers and the lengths are, a call ends and answers. The caller sees to the pointers: each is not null and aligned for its
 * type, also where its length is 0, has as many elements behind it as said, and `out` and `row` overlap no other slice of the call.
 *
 * An answer is a row of ZUCCARVENTO_ROW numbers. A longer row keeps what it held behind them; a shorter one gets those that fit.
 *
 *   row[0]      the outcome, an enum zuccarvento_outcome
 *   row[1..2]   the refusal's number and place; 0, 0 if nothing is refused
 *   row[3..6]   the values of an answer, as each function says; 0 where it has none, and in every refusal
 *
 * Refusals, the first that applies. L is the number of words, and words and nodes count from 0.
 *
 *   number  when                                                                            place
 *   1       L < 4, or the last word is not 2005                                             0
 *   2       node count not from 1 to 1,024, else quantifier count not from 0 to 32          L - 3, L - 2
 *   3       L is not 3 * nodes + quantifiers + 4                                            0
 *   4       a quantifier word not from 1 to 6                                               the first such word
 *   5       a ninth set quantifier                                                          its word
 *   6       a node not as its kind asks                                                     the first word of the first such node
 *   7       the root is no node's number, or no formula                                     L - 4
 *   12      zuccarvento_reduce: an emitted node or quantifier number over 2,147,483,647     0
 *   8       zuccarvento_reduce: `out` is shorter than the emission                          the words needed
 *   9       zuccarvento_decide: the size is over 4,096                                      0
 *   10      zuccarvento_decide: a quantifier over numbers                                   the first such word
 *   11      zuccarvento_decide: a term's bound is over 1,000,000,000                        the first word of the first such node
 */
#ifndef ZUCCARVENTO_H
#define ZUCCARVENTO_H

#include <stddef.h>
#include <stdint.h>

#ifdef __cplusplus
extern "C" {
#endif

#define ZUCCARVENTO_ROW 7

enum zuccarvento_outcome {
    ZUCCARVENTO_REFUSED = 0,
    ZUCCARVENTO_ACCEPTED = 1, /* of zuccarvento_check */
    ZUCCARVENTO_EMITTED = 1,  /* of zuccarvento_reduce */
    ZUCCARVENTO_TRUE = 1,     /* of zuccarvento_decide, and the two below */
    ZUCCARVENTO_FALSE = 2,
    ZUCCARVENTO_SPENT = 3
};

/* Whether the words are a claim. Accepted: row[3..6] are its nodes, quantifiers, set quantifiers and root. Refusals 1 to 7. */
void zuccarvento_check(const int32_t *words, size_t words_len, uint64_t *row, size_t row_len);

/* The counting claim that the words' claim becomes. Emitted: the first row[3] words of `out` are its words, and the rest of `out` is as it
 * was. Refused: all of `out` is as it was. Refusals 1 to 7, then 12, then 8. No emission has more than 1,593,376 words. */
void zuccarvento_reduce(const int32_t *words, size_t words_len, int32_t *out, size_t out_len, uint64_t *row, size_t row_len);

/* Whether the claim is true over `size` elements, in at most `allowance` evaluations of its matrix. True and false: row[3] is the
 * evaluations taken. Spent: the allowance did not suffice, and row[3] is the allowance. Refusals 1 to 7, then 9 to 11. */
void zuccarvento_decide(const int32_t *words, size_t words_len, uint32_t size, uint64_t allowance, uint64_t *row, size_t row_len);

#ifdef __cplusplus
}
#endif

#endif
