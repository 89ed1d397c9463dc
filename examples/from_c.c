/* A claim asked from C: exists y, |y| = 1. Prints its counts, how many words its counting claim has, and whether it is true over 3 elements. */
#include <inttypes.h>
#include <stdio.h>
#include "zuccarvento.h"

/* nodes (kind, a, b): set y, its cardinality, the constant 1, equal; the quantifier exists set; root, nodes, quantifiers, 2005 */
static const int32_t words[] = {1, 0, 0, 16, 0, 0, 11, 1, 0, 20, 1, 2, 3, 3, 4, 1, 2005};

enum { LENGTH = sizeof words / sizeof words[0] };

int main(void) {
    static int32_t out[64];
    uint64_t row[ZUCCARVENTO_ROW];
    zuccarvento_check(words, LENGTH, row, ZUCCARVENTO_ROW);
    if (row[0] == ZUCCARVENTO_REFUSED) {
        printf("refused %" PRIu64 " %" PRIu64 "\n", row[1], row[2]);
        return 1;
    }
    printf("nodes %" PRIu64 ", quantifiers %" PRIu64 ", over sets %" PRIu64 "\n", row[3], row[4], row[5]);
    zuccarvento_reduce(words, LENGTH, out, 64, row, ZUCCARVENTO_ROW);
    printf("counting claim of %" PRIu64 " words\n", row[3]);
    zuccarvento_decide(words, LENGTH, 3, 1000, row, ZUCCARVENTO_ROW);
    printf("%s after %" PRIu64 " steps\n", row[0] == ZUCCARVENTO_TRUE ? "true" : row[0] == ZUCCARVENTO_FALSE ? "false" : "spent", row[3]);
    return 0;
}
