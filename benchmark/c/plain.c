/* A fresh run as one would write it in plain C: rows decoded into structs, ranges beside them. */

#include <stddef.h>
#include <stdint.h>
#include <string.h>

struct plain_answer { uint64_t refusal, row, removed, touched, compared; };

enum { CONST = 1, VAR, SHIFT, SUM, DIFF, NEG, READ, FRESH, WRITE };
enum { HEADER = 6, ROW = 30, SOURCE = 26, MOST_ROWS = 1024, HIGHEST_LIMIT = 1024 };

/* A base is kept as the row that writes it: CONST for nothing, SHIFT for one. */
struct row { uint8_t kind; uint16_t a, b, c; uint64_t k, h; };

/* From low up to high; where high is below low, over the largest word: two pieces. */
struct range { uint64_t low, high; };

/* What a comparison asks of a row: its base as one number, its offset, its range. */
struct known { uint64_t base, offset; struct range range; };

struct state {
    uint64_t largest;
    unsigned most_pieces; /* of a range: 2, or 1 as the rule was before */
    uint64_t limit, compared; /* stores that a read may compare, and that all have compared */
    struct row rows[MOST_ROWS];
    struct known known[MOST_ROWS];
};

/* The first rows of names, in a chain for each name modulo 256; one more than their numbers. */
struct names { uint16_t heads[256], next[MOST_ROWS]; };

/* Written out, so that the compiler sees one load or store. */
static uint16_t get16(const uint8_t *p) { return (uint16_t)(p[0] | p[1] << 8); }

static uint32_t get32(const uint8_t *p) {
    return (uint32_t)p[0] | (uint32_t)p[1] << 8 | (uint32_t)p[2] << 16 | (uint32_t)p[3] << 24;
}

static uint64_t get64(const uint8_t *p) {
    return (uint64_t)p[0] | (uint64_t)p[1] << 8 | (uint64_t)p[2] << 16 | (uint64_t)p[3] << 24
        | (uint64_t)p[4] << 32 | (uint64_t)p[5] << 40 | (uint64_t)p[6] << 48 | (uint64_t)p[7] << 56;
}

static void put16(uint8_t *p, uint16_t v) { p[0] = (uint8_t)v; p[1] = (uint8_t)(v >> 8); }

static void put32(uint8_t *p, uint32_t v) {
    p[0] = (uint8_t)v; p[1] = (uint8_t)(v >> 8); p[2] = (uint8_t)(v >> 16);
    p[3] = (uint8_t)(v >> 24);
}

static void put64(uint8_t *p, uint64_t v) {
    p[0] = (uint8_t)v; p[1] = (uint8_t)(v >> 8); p[2] = (uint8_t)(v >> 16);
    p[3] = (uint8_t)(v >> 24); p[4] = (uint8_t)(v >> 32); p[5] = (uint8_t)(v >> 40);
    p[6] = (uint8_t)(v >> 48); p[7] = (uint8_t)(v >> 56);
}

static struct row decode(const uint8_t *p) {
    struct row r = { p[2], get16(p + 4), get16(p + 6), get16(p + 8), get64(p + 10), get64(p + 18) };
    return r;
}

static void encode(uint8_t *p, struct row r, uint32_t source) {
    p[0] = 0x52; p[1] = 0x4f; p[2] = r.kind; p[3] = 0;
    put16(p + 4, r.a); put16(p + 6, r.b); put16(p + 8, r.c);
    put64(p + 10, r.k); put64(p + 18, r.h);
    put32(p + SOURCE, source);
}

static int is_array(uint8_t kind) { return kind >= FRESH; }

/* For each kind how many of a, b, c it uses, how many of these are references (a of VAR is a name)
   and whether it uses k and h; a of READ and WRITE is an array. */
static const uint8_t uses[10] = { 0, 0, 1, 1, 2, 2, 1, 2, 0, 3 };
static const uint8_t references[10] = { 0, 0, 0, 1, 2, 2, 1, 2, 0, 3 };
static const uint8_t uses_k[10] = { 0, 1, 1, 1, 1, 1, 1, 0, 0, 0 };
static const uint8_t uses_h[10] = { 0, 0, 1, 0, 0, 0, 0, 0, 0, 0 };

static uint64_t row_fault(const struct row *rows, unsigned i, const uint8_t *p, uint64_t largest) {
    struct row r = rows[i];
    uint16_t named[3] = { r.a, r.b, r.c };
    if (p[0] != 0x52 || p[1] != 0x4f || p[3] != 0) return 9;
    if (r.kind < CONST || r.kind > WRITE) return 10;
    for (int j = uses[r.kind]; j < 3; j++) if (named[j] != 0) return 11;
    if ((!uses_k[r.kind] && r.k != 0) || (!uses_h[r.kind] && r.h != 0)) return 11;
    if (r.k > largest || r.h > largest) return 12;
    for (int j = 0; j < references[r.kind]; j++) if (named[j] >= i) return 13;
    for (int j = 0; j < references[r.kind]; j++) {
        int array_wanted = j == 0 && (r.kind == READ || r.kind == WRITE);
        if (is_array(rows[named[j]].kind) != array_wanted) return 14;
    }
    if (r.kind == VAR && r.k > r.h) return 15;
    return 0;
}

/* The first row of the name of row i, which it becomes where there is none. */
static unsigned first_of_name(struct names *names, const struct row *rows, unsigned i) {
    uint16_t *link = &names->heads[rows[i].a % 256];
    for (; *link != 0; link = &names->next[*link - 1]) {
        if (rows[*link - 1].a == rows[i].a) return *link - 1u;
    }
    *link = (uint16_t)(i + 1);
    names->next[i] = 0;
    return i;
}

static struct row word(uint8_t kind, uint16_t a, uint16_t b, uint64_t k) {
    struct row r = { kind, a, b, 0, k, 0 };
    return r;
}

/* The base and offset of a word row, as the row that writes them. */
static struct row normal(const struct state *s, uint16_t i) {
    struct row r = s->rows[i];
    return r.kind == VAR || r.kind == READ ? word(SHIFT, i, 0, 0) : r;
}

static struct row shift(const struct state *s, uint16_t a, uint64_t k) {
    struct row r = normal(s, a);
    r.k = (r.k + k) & s->largest;
    return r;
}

static struct row opened(const struct state *s, uint16_t i) {
    struct row r = normal(s, i);
    return r.kind == SHIFT ? r : word(SHIFT, i, 0, 0);
}

static struct row sum(const struct state *s, uint16_t a, uint16_t b, uint64_t k) {
    if (s->rows[a].kind == CONST) return shift(s, b, s->rows[a].k + k);
    if (s->rows[b].kind == CONST) return shift(s, a, s->rows[b].k + k);
    struct row x = opened(s, a), y = opened(s, b);
    uint64_t offset = (x.k + y.k + k) & s->largest;
    return x.a <= y.a ? word(SUM, x.a, y.a, offset) : word(SUM, y.a, x.a, offset);
}

static struct row neg(const struct state *s, uint16_t a, uint64_t k) {
    struct row r = normal(s, a);
    uint64_t rest = (k - r.k) & s->largest;
    switch (r.kind) {
    case CONST: return word(CONST, 0, 0, rest);
    case SHIFT: return word(NEG, r.a, 0, rest);
    case NEG: return shift(s, r.a, rest);
    case DIFF: return word(DIFF, r.b, r.a, rest);
    default: return word(NEG, a, 0, k & s->largest);
    }
}

static struct row diff(const struct state *s, uint16_t a, uint16_t b, uint64_t k) {
    struct row p = normal(s, a), q = normal(s, b);
    if (s->known[a].base == s->known[b].base) return word(CONST, 0, 0, (p.k - q.k + k) & s->largest);
    if (q.kind == CONST) return shift(s, a, k - q.k);
    if (p.kind == CONST) return neg(s, b, k + p.k);
    struct row x = opened(s, a), y = opened(s, b);
    return word(DIFF, x.a, y.a, (x.k - y.k + k) & s->largest);
}

static uint16_t plain_name(const struct state *s, uint16_t i) {
    return s->rows[i].kind == SHIFT && s->rows[i].k == 0 ? s->rows[i].a : i;
}

enum relation { NOT_KNOWN, SAME, APART };

static int apart(struct range x, struct range y) {
    int x_two = x.high < x.low, y_two = y.high < y.low;
    int below = x.high < y.low, above = y.high < x.low;
    if (!x_two && !y_two) return below || above;
    return !(x_two && y_two) && below && above;
}

static enum relation relation(const struct state *s, uint16_t i, uint16_t j) {
    const struct known *x = &s->known[i], *y = &s->known[j];
    if (x->base == y->base) return x->offset == y->offset ? SAME : APART;
    return apart(x->range, y->range) ? APART : NOT_KNOWN;
}

static struct row read_row(struct state *s, uint16_t array, uint16_t index) {
    uint64_t left = s->limit;
    enum relation found = APART;
    while (found == APART && left > 0 && s->rows[array].kind == WRITE) {
        left--;
        found = relation(s, s->rows[array].b, index);
        if (found == APART) array = s->rows[array].a;
    }
    s->compared += s->limit - left;
    if (found == SAME) return shift(s, s->rows[array].c, 0);
    return word(READ, array, plain_name(s, index), 0);
}

static struct row write_row(const struct state *s, struct row r) {
    struct row below = s->rows[r.a];
    if (below.kind == WRITE && relation(s, below.b, r.b) == SAME) r.a = below.a;
    r.b = plain_name(s, r.b);
    r.c = plain_name(s, r.c);
    return r;
}

static uint64_t size(const struct state *s, struct range x) { return (x.high - x.low) & s->largest; }

static struct range stretch(const struct state *s, int all_round, uint64_t low, uint64_t high) {
    struct range full = { 0, s->largest }, r = { low & s->largest, high & s->largest };
    return all_round || (s->most_pieces == 1 && r.high < r.low) ? full : r;
}

static struct range add(const struct state *s, struct range x, struct range y) {
    return stretch(s, size(s, x) >= s->largest - size(s, y), x.low + y.low, x.high + y.high);
}

static struct range negated(const struct state *s, struct range x) {
    return stretch(s, size(s, x) == s->largest, 0 - x.high, 0 - x.low);
}

static struct range range_of(const struct state *s, struct row r) {
    struct range full = { 0, s->largest }, only = { r.k, r.k }, var = { r.k, r.h };
    switch (r.kind) {
    case CONST: return only;
    case VAR: return var;
    case SHIFT: return add(s, s->known[r.a].range, only);
    case SUM: return add(s, add(s, s->known[r.a].range, s->known[r.b].range), only);
    case DIFF: return add(s, add(s, s->known[r.a].range, negated(s, s->known[r.b].range)), only);
    case NEG: return add(s, only, negated(s, s->known[r.a].range));
    default: return full;
    }
}

static void settle(struct state *s, uint16_t i, struct row r) {
    s->rows[i] = r;
    struct row n = normal(s, i);
    struct known known = { (uint64_t)n.kind << 32 | (uint64_t)n.a << 16 | n.b, n.k, range_of(s, r) };
    s->known[i] = known;
}

static struct row simplified(struct state *s, struct row r) {
    switch (r.kind) {
    case SHIFT: return shift(s, r.a, r.k);
    case SUM: return sum(s, r.a, r.b, r.k);
    case DIFF: return diff(s, r.a, r.b, r.k);
    case NEG: return neg(s, r.a, r.k);
    case READ: return read_row(s, r.a, r.b);
    case WRITE: return write_row(s, r);
    default: return r;
    }
}

static struct plain_answer refused(uint64_t number, uint64_t row) {
    struct plain_answer answer = { number, row, 0, 0, 0 };
    return answer;
}

struct plain_answer plain_run(const uint8_t *table, size_t table_len,
                              uint8_t *result, size_t result_len, uint64_t limit,
                              unsigned most_pieces) {
    struct state s;
    struct names names;
    if (table_len < HEADER) return refused(1, 0);
    if (table[0] != 0x46 || table[1] != 0x54 || table[3] != 0) return refused(2, 0);
    if (table[2] == 0 || table[2] > 64) return refused(3, 0);
    unsigned n = get16(table + 4);
    if (n > MOST_ROWS) return refused(4, 0);
    if (table_len != HEADER + (size_t)ROW * n) return refused(5, 0);
    if (result_len < table_len) return refused(6, 0);
    if (limit > HIGHEST_LIMIT) return refused(19, 0);
    s.largest = UINT64_MAX >> (64 - table[2]);
    s.most_pieces = most_pieces;
    s.limit = limit;
    s.compared = 0;
    memset(names.heads, 0, sizeof names.heads);
    for (unsigned i = 0; i < n; i++) {
        const uint8_t *p = table + HEADER + ROW * i;
        s.rows[i] = decode(p);
        uint64_t fault = row_fault(s.rows, i, p, s.largest);
        if (fault != 0) return refused(fault, i);
        if (s.rows[i].kind != VAR || s.rows[i].a == 0) continue;
        unsigned first = first_of_name(&names, s.rows, i);
        if (first == i) continue;
        if (s.rows[i].k != s.rows[first].k || s.rows[i].h != s.rows[first].h) return refused(18, i);
        s.rows[i] = word(SHIFT, (uint16_t)first, 0, 0);
    }
    uint64_t removed = 0;
    memcpy(result, table, HEADER);
    for (unsigned i = 0; i < n; i++) {
        struct row new_row = simplified(&s, s.rows[i]);
        removed += s.rows[i].kind == READ && new_row.kind != READ;
        settle(&s, (uint16_t)i, new_row);
        unsigned at = HEADER + ROW * i;
        encode(result + at, new_row, get32(table + at + SOURCE));
    }
    struct plain_answer answer = { 0, 0, removed, n, s.compared };
    return answer;
}
