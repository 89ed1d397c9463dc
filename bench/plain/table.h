/* Claim tables in plain C: their check, and the patterns of their sets. Written to be measured, with no thought of proof. */
#include <stddef.h>
#include <stdint.h>

enum { MAX_NODES = 1024, MAX_QUANTIFIERS = 32, MAX_SETS = 8, WORDS = 4 };

/* What the fields a and b of each kind of node must be. */
static const int8_t NEED[28][2] = {
    {9, 9}, {5, 0}, {0, 0}, {0, 0}, {1, 1}, {1, 1}, {1, 0}, {9, 9}, {9, 9}, {9, 9}, {6, 0}, {4, 0}, {0, 0}, {2, 2},
    {2, 2}, {4, 2}, {1, 0}, {9, 9}, {9, 9}, {9, 9}, {2, 2}, {2, 2}, {4, 2}, {1, 1}, {1, 1}, {3, 3}, {3, 3}, {3, 0},
};

typedef struct {
    const int32_t *words;
    int nodes, quantifiers, sets, root;
} Table;

static int sort_of(int32_t kind) {
    if (kind >= 1 && kind <= 6) return 1;
    if (kind >= 10 && kind <= 16) return 2;
    if (kind >= 20 && kind <= 27) return 3;
    return 0;
}

static int serves(const Table *t, int i, int need, int32_t v) {
    switch (need) {
    case 0: return v == 0;
    case 4: return 1;
    case 1: case 2: case 3: return v >= 0 && v < i && sort_of(t->words[3 * v]) == need;
    case 5: case 6: {
        if (v < 0 || v >= t->quantifiers) return 0;
        int32_t q = t->words[3 * t->nodes + v];
        return (q == 3 || q == 4) == (need == 5);
    }
    default: return 0;
    }
}

/* 0 where the table is refused */
static inline int check(const int32_t *words, size_t len, Table *t) {
    if (len < 4 || words[len - 1] != 2005) return 0;
    int32_t n = words[len - 3], q = words[len - 2];
    if (n < 1 || n > MAX_NODES || q < 0 || q > MAX_QUANTIFIERS) return 0;
    if (len != 3 * (size_t)n + q + 4) return 0;
    *t = (Table){words, n, q, 0, words[len - 4]};
    for (int j = 0; j < q; j++) {
        int32_t k = words[3 * n + j];
        if (k < 1 || k > 6) return 0;
        if (k == 3 || k == 4) t->sets++;
    }
    if (t->sets > MAX_SETS) return 0;
    for (int i = 0; i < n; i++) {
        int32_t k = words[3 * i];
        if (sort_of(k) == 0) return 0;
        if (!serves(t, i, NEED[k][0], words[3 * i + 1]) || !serves(t, i, NEED[k][1], words[3 * i + 2])) return 0;
    }
    return t->root >= 0 && t->root < n && sort_of(words[3 * t->root]) == 3;
}

/* Word j of all regions, and of those inside the set at a position. */
static uint64_t whole(int sets, int j) {
    int left = (1 << sets) - 64 * j;
    return left <= 0 ? 0 : left < 64 ? ~0ull >> (64 - left) : ~0ull;
}

static uint64_t variable(int position, int j) {
    static const uint64_t bits[6] = {
        0xAAAAAAAAAAAAAAAA, 0xCCCCCCCCCCCCCCCC, 0xF0F0F0F0F0F0F0F0,
        0xFF00FF00FF00FF00, 0xFFFF0000FFFF0000, 0xFFFFFFFF00000000,
    };
    return position < 6 ? bits[position] : -(uint64_t)(j >> (position - 6) & 1);
}

static int inside(const Table *t, int q) {
    int n = 0;
    for (int j = q + 1; j < t->quantifiers; j++) {
        int32_t k = t->words[3 * t->nodes + j];
        n += k == 3 || k == 4;
    }
    return n;
}

/* The words of a pattern. */
static inline int words_of(const Table *t) { return t->sets <= 6 ? 1 : 1 << (t->sets - 6); }

/* Word j of node i's pattern, from the words j of the nodes before. */
static inline uint64_t word_of(const Table *t, const uint64_t *pats, int i, int j) {
    const int32_t *w = t->words + 3 * i;
    switch (w[0]) {
    case 1: return variable(inside(t, w[1]), j) & whole(t->sets, j);
    case 3: return whole(t->sets, j);
    case 4: return pats[w[1]] | pats[w[2]];
    case 5: return pats[w[1]] & pats[w[2]];
    case 6: return whole(t->sets, j) & ~pats[w[1]];
    case 16: return pats[w[1]];
    case 23: return pats[w[1]] ^ pats[w[2]];
    case 24: return pats[w[1]] & ~pats[w[2]];
    default: return 0;
    }
}

static inline void put_pattern(const Table *t, uint64_t pats[WORDS][MAX_NODES], int i) {
    for (int j = 0; j < words_of(t); j++) pats[j][i] = word_of(t, pats[j], i, j);
}

/* Whether a field of such a node is a term or a formula. */
static inline int uses(int32_t kind, int field) {
    int need = NEED[kind][field];
    return need == 2 || need == 3;
}
