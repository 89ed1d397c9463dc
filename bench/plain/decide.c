/* The decider in plain C: the same splits in the same order, regions without ports passed over, values of settled nodes kept. */
#include <string.h>
#include "table.h"

enum { REGIONS = 256 };

typedef struct {
    const int32_t *words;
    uint64_t patterns[WORDS][MAX_NODES];
    int32_t values[MAX_NODES];
    int order[MAX_NODES];
    int ready[REGIONS];
    uint8_t some[REGIONS];
    uint32_t counts[2 * REGIONS];
    int rows, root, regions;
    uint32_t size;
    uint64_t left, taken;
} Search;

static uint32_t ports_in(const Search *s, int i, const uint32_t *counts, int n) {
    uint32_t sum = 0;
    for (int j = 0; 64 * j < n; j++)
        for (uint64_t left = s->patterns[j][i]; left; left &= left - 1) sum += counts[64 * j + __builtin_ctzll(left)];
    return sum;
}

static void evaluate(Search *s, const uint32_t *counts, int n, int known, int to) {
    int32_t *v = s->values;
    for (int k = known; k < to; k++) {
        int i = s->order[k];
        const int32_t *w = s->words + 3 * i;
        int32_t a = w[1], b = w[2];
        switch (w[0]) {
        case 11: v[i] = a; break;
        case 12: v[i] = (int32_t)s->size; break;
        case 13: v[i] = v[a] + v[b]; break;
        case 14: v[i] = v[a] - v[b]; break;
        case 15: v[i] = a * v[b]; break;
        case 16: v[i] = (int32_t)ports_in(s, i, counts, n); break;
        case 20: v[i] = v[a] == v[b]; break;
        case 21: v[i] = v[a] < v[b]; break;
        case 22: v[i] = a != 0 && v[b] % a == 0; break;
        case 23: case 24: v[i] = ports_in(s, i, counts, n) == 0; break;
        case 25: v[i] = v[a] & v[b]; break;
        case 26: v[i] = v[a] | v[b]; break;
        case 27: v[i] = !v[a]; break;
        default: v[i] = 0;
        }
    }
}

/* 0 false, 1 true, 2 spent */
static int splits(Search *s, int known, int h) {
    for (; h < s->regions && s->counts[h] == 0; h++) s->counts[2 * h] = s->counts[2 * h + 1] = 0;
    if (h == s->regions) {
        if (s->left == 0) return 2;
        s->left--;
        s->taken++;
        evaluate(s, s->counts + h, h, known, s->rows);
        return s->values[s->root];
    }
    int to = s->ready[h];
    if (known < to) {
        int start = 2 * h < s->regions ? 2 * h : s->regions;
        evaluate(s, s->counts + start, 2 * h - start, known, to);
        known = to;
    }
    int some = s->some[h];
    uint32_t all = s->counts[h];
    for (uint32_t k = 0; k <= all; k++) {
        s->counts[2 * h] = all - k;
        s->counts[2 * h + 1] = k;
        int r = splits(s, known, h + 1);
        if (r == 2 || r == some) return r;
    }
    return !some;
}

/* The nodes that the root needs, those that few regions settle first. */
static void arrange(Search *s, const Table *t) {
    uint8_t needed[MAX_NODES] = {0};
    int settled[MAX_NODES];
    needed[t->root] = 1;
    for (int i = t->root; i >= 0; i--) {
        if (!needed[i]) continue;
        const int32_t *w = t->words + 3 * i;
        for (int f = 0; f < 2; f++)
            if (uses(w[0], f)) needed[w[1 + f]] = 1;
    }
    for (int i = 0; i < t->nodes; i++) {
        const int32_t *w = t->words + 3 * i;
        settled[i] = 0;
        for (int j = 0; j < words_of(t); j++) {
            uint64_t word = s->patterns[j][i];
            if (word) settled[i] = 64 * (j + 1) - __builtin_clzll(word);
        }
        for (int f = 0; f < 2; f++)
            if (uses(w[0], f) && settled[w[1 + f]] > settled[i]) settled[i] = settled[w[1 + f]];
    }
    int upto[REGIONS + 1];
    s->rows = 0;
    for (int e = 0; e <= s->regions; e++) {
        for (int i = 0; i < t->nodes; i++)
            if (needed[i] && settled[i] == e) s->order[s->rows++] = i;
        upto[e] = s->rows;
    }
    for (int h = 1; h < s->regions; h++) s->ready[h] = upto[2 * h > s->regions ? 2 * h - s->regions : 0];
}

/* refusals 9 to 11 */
static int admit(const Table *t, uint32_t size) {
    uint64_t bounds[MAX_NODES];
    if (size > 4096 || t->sets < t->quantifiers) return 0;
    for (int i = 0; i < t->nodes; i++) {
        const int32_t *w = t->words + 3 * i;
        uint64_t magnitude = w[1] < 0 ? -(int64_t)w[1] : w[1];
        switch (w[0]) {
        case 11: bounds[i] = magnitude; break;
        case 12: case 16: bounds[i] = size; break;
        case 13: case 14: bounds[i] = bounds[w[1]] + bounds[w[2]]; break;
        case 15: bounds[i] = magnitude * bounds[w[2]]; break;
        default: bounds[i] = 0;
        }
        if (bounds[i] > 1000000000) return 0;
    }
    return 1;
}

void plain_c_decide(const int32_t *words, size_t len, uint32_t size, uint64_t allowance, uint64_t *row) {
    Table t;
    Search s;
    if (!check(words, len, &t) || !admit(&t, size)) { row[0] = 0; return; }
    s.words = words;
    s.size = size;
    s.root = t.root;
    s.regions = 1;
    for (int j = 0; j < t.quantifiers; j++) {
        memset(s.some + s.regions, words[3 * t.nodes + j] == 3, s.regions);
        s.regions *= 2;
    }
    for (int i = 0; i < t.nodes; i++) put_pattern(&t, s.patterns, i);
    arrange(&s, &t);
    s.counts[1] = size;
    s.left = allowance;
    s.taken = 0;
    int r = splits(&s, 0, 1);
    row[0] = r == 1 ? 1 : r == 0 ? 2 : 3;
    row[3] = s.taken;
}
