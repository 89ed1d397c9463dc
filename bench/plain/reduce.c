/* The reducer in plain C: the same emission, counted and then written. */
#include "table.h"

typedef struct {
    int32_t *out;
    int at;
} Writer;

static void put(Writer *w, int32_t kind, int32_t a, int32_t b) {
    int32_t *o = w->out + 3 * (size_t)w->at++;
    o[0] = kind;
    o[1] = a;
    o[2] = b;
}

static void put_region(Writer *w, int level, int first, int r) {
    if (level == 0) put(w, 12, 0, 0);
    else put(w, 10, first + r, 0);
}

static int is_set(int32_t quantifier) { return quantifier == 3 || quantifier == 4; }

typedef struct {
    Table t;
    const int32_t *prefix;
    uint64_t pats[WORDS][MAX_NODES];
    int last[MAX_NODES];           /* the emitted node that stands for each */
    int number[MAX_QUANTIFIERS];   /* the first emitted quantifier of each */
    int quantifiers, level, first; /* those emitted, and the final regions' */
} Reduction;

/* Word j of what node a's pattern covers and node b's does not; b is -1 where all that a's covers is meant. */
static uint64_t word(const Reduction *r, int j, int a, int b) { return r->pats[j][a] & ~(b < 0 ? 0 : r->pats[j][b]); }

static void put_card(Writer *w, const Reduction *r, int a, int b) {
    int start = w->at;
    for (int j = 0; j < words_of(&r->t); j++)
        for (uint64_t p = word(r, j, a, b); p; p &= p - 1) {
            put_region(w, r->level, r->first, 64 * j + __builtin_ctzll(p));
            if (start + 1 < w->at) put(w, 13, w->at - 2, w->at - 1);
        }
    if (start == w->at) put(w, 11, 0, 0);
}

static void put_empty(Writer *w, const Reduction *r, int a, int b) {
    put_card(w, r, a, b);
    put(w, 11, 0, 0);
    put(w, 20, w->at - 2, w->at - 1);
}

static int card_nodes(const Reduction *r, int a, int b) {
    int regions = 0;
    for (int j = 0; j < words_of(&r->t); j++) regions += __builtin_popcountll(word(r, j, a, b));
    return regions ? 2 * regions - 1 : 1;
}

static void number_quantifiers(Reduction *r) {
    r->quantifiers = r->level = r->first = 0;
    for (int j = 0; j < r->t.quantifiers; j++) {
        r->number[j] = r->quantifiers;
        if (is_set(r->prefix[j])) {
            r->first = r->quantifiers;
            r->quantifiers += 1 << ++r->level;
        } else r->quantifiers++;
    }
}

static size_t words_needed(Reduction *r) {
    const Table *t = &r->t;
    size_t nodes = 6 * ((1u << t->sets) - 1);
    for (int j = 0; j < t->quantifiers; j++) nodes += r->prefix[j] == 4;
    for (int i = 0; i < t->nodes; i++) {
        const int32_t *w = t->words + 3 * i;
        put_pattern(t, r->pats, i);
        if (w[0] == 16) nodes += card_nodes(r, i, -1);
        else if (w[0] == 24) nodes += card_nodes(r, i, -1) + 2;
        else if (w[0] == 23) nodes += card_nodes(r, w[1], w[2]) + card_nodes(r, w[2], w[1]) + 5;
        else if (w[0] > 6) nodes++;
    }
    return 3 * nodes + r->quantifiers + 4;
}

static void put_nodes(Reduction *r, Writer *o) {
    for (int i = 0; i < r->t.nodes; i++) {
        const int32_t *w = r->t.words + 3 * i;
        if (w[0] <= 6) continue;
        if (w[0] == 16) put_card(o, r, i, -1);
        else if (w[0] == 24) put_empty(o, r, i, -1);
        else if (w[0] == 23) {
            put_empty(o, r, w[1], w[2]);
            int one = o->at - 1;
            put_empty(o, r, w[2], w[1]);
            put(o, 25, one, o->at - 1);
        } else if (w[0] == 10) put(o, 10, r->number[w[1]], 0);
        else put(o, w[0], uses(w[0], 0) ? r->last[w[1]] : w[1], uses(w[0], 1) ? r->last[w[2]] : w[2]);
        r->last[i] = o->at - 1;
    }
}

/* Set quantifier j's constraint around a body: the new body. */
static int put_constraint(const Reduction *r, Writer *o, int j, int body) {
    int outer = 0, from = 0;
    for (int e = 0; e < j; e++)
        if (is_set(r->prefix[e])) { outer++; from = r->number[e]; }
    for (int h = 0; h < 1 << outer; h++) {
        put_region(o, outer, from, h);
        put(o, 10, r->number[j] + 2 * h, 0);
        put(o, 10, r->number[j] + 2 * h + 1, 0);
        put(o, 13, o->at - 2, o->at - 1);
        put(o, 20, o->at - 4, o->at - 1);
        if (h) put(o, 25, o->at - 6, o->at - 1);
    }
    if (r->prefix[j] == 3) put(o, 25, o->at - 1, body);
    else { put(o, 27, o->at - 1, 0); put(o, 26, o->at - 1, body); }
    return o->at - 1;
}

static int32_t *put_quantifiers(const Reduction *r, int32_t *q) {
    int level = 0;
    for (int j = 0; j < r->t.quantifiers; j++) {
        int32_t k = r->prefix[j];
        if (is_set(k)) for (int h = 0, n = 1 << ++level; h < n; h++) *q++ = k + 2;
        else *q++ = k;
    }
    return q;
}

void plain_c_reduce(const int32_t *words, size_t len, int32_t *out, size_t out_len, uint64_t *row) {
    Reduction r;
    if (!check(words, len, &r.t)) { row[0] = 0; return; }
    r.prefix = words + 3 * r.t.nodes;
    number_quantifiers(&r);
    size_t needed = words_needed(&r);
    if (out_len < needed) { row[0] = 0; row[1] = 8; row[2] = needed; return; }
    Writer o = {out, 0};
    put_nodes(&r, &o);
    int body = r.last[r.t.root];
    for (int j = r.t.quantifiers - 1; j >= 0; j--)
        if (is_set(r.prefix[j])) body = put_constraint(&r, &o, j, body);
    int32_t *q = put_quantifiers(&r, out + 3 * (size_t)o.at);
    q[0] = body;
    q[1] = o.at;
    q[2] = r.quantifiers;
    q[3] = 2005;
    row[0] = 1;
    row[3] = needed;
}
