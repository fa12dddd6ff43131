/* A verifier in C and C++ that does the work of the panel: the same checks in the same order, the same sums and products, on one
   struct in place. First a session and its steps, then judging two files in one pass over each. */
#pragma once
#include <stddef.h>
#include <stdint.h>
#include <string.h>

/* How a step is compiled: into its caller, unless the program says otherwise. */
#ifndef STEP
#define STEP static inline
#endif

static const uint32_t PRIME = 2147483647;

/* An answer as one number: below this the value, this for none, this plus k for the refusal k. */
static const uint64_t NO_VALUE = 4294967296;
static inline uint64_t refusal(int why) { return NO_VALUE + (uint64_t)why; }

/* Two points, or the products at them. */
struct pair { uint32_t first, second; };

/* A list of arcs: how many they are, and their products at the two points. */
struct stream { uint32_t count; struct pair print; };

/* phase: 1 reading is under way, 2 reading has just ended, 3 a claim stands, 0 void or ended. */
struct session {
    uint8_t phase, question, n, s, t, claim, given;
    struct pair point;
    struct stream read, repeated;
    int32_t potentials[255];
    uint64_t marks[4];
    int64_t balances[255], cost, cut;
};

/* s and t: the number of pumps and 0 for question 3, both 0 for question 4, else two vertices. */
static inline int ends_ok(uint32_t question, uint32_t n, uint32_t s, uint32_t t) {
    if (question == 3) return s >= 1 && s < n && t == 0;
    if (question == 4) return s == 0 && t == 0;
    return s < n && t < n && s != t;
}

/* A check or a step gives 0, or the number of the refusal. */
static inline int opening_check(uint32_t question, uint32_t n, uint32_t s, uint32_t t, struct pair point) {
    if (question < 1 || question > 4) return 1;
    if (n < 2 || n > 255) return 2;
    if (!ends_ok(question, n, s, t)) return 3;
    return point.first >= PRIME || point.second >= PRIME ? 4 : 0;
}

static inline int arc_check(const struct session *x, uint32_t a, uint32_t b, uint32_t w) {
    if (a >= x->n || b >= x->n) return 7;
    if (x->question == 3 && (a >= x->s || b < x->s)) return 7;
    return w > 32767 ? 8 : 0;
}

static inline uint32_t extended(uint32_t point, uint32_t product, uint32_t key) {
    uint64_t factor = ((uint64_t)point + (PRIME - key)) % PRIME;
    return (uint32_t)(factor * product % PRIME);
}

static inline void extend(struct stream *m, struct pair point, uint32_t a, uint32_t b, uint32_t w) {
    uint32_t key = a * 8388608u + b * 32768u + w;
    m->print.first = extended(point.first, m->print.first, key);
    m->print.second = extended(point.second, m->print.second, key);
    m->count++;
}

static inline int is_marked(const struct session *x, uint32_t v) { return x->marks[v >> 6] >> (v & 63) & 1; }

/* The bits of word k that belong to the vertices below v. */
static inline uint64_t mask_below(uint32_t v, uint32_t k) {
    if (v <= 64 * k) return 0;
    return v - 64 * k < 64 ? ((uint64_t)1 << (v - 64 * k)) - 1 : ~(uint64_t)0;
}

/* How many of the vertices from low to high - 1 are not marked. */
static inline int count_unmarked(const struct session *x, uint32_t low, uint32_t high) {
    int count = 0;
    for (uint32_t k = 0; k < 4; k++) count += __builtin_popcountll(~x->marks[k] & mask_below(high, k) & ~mask_below(low, k));
    return count;
}

static inline int balance_ok(const struct session *x, uint32_t v) {
    int64_t b = x->balances[v];
    if (x->question == 1) return b == (v == x->s) - (v == x->t);
    if (x->question == 2) return v == x->s || v == x->t || b == 0;
    if (x->question == 4) return b == 0;
    return v < x->s ? b == 0 || b == 1 : b == -1;
}

static inline int balances_ok(const struct session *x) {
    if (x->claim != (x->question == 4 ? 2 : 1)) return 1;
    for (uint32_t v = 0; v < x->n; v++)
        if (!balance_ok(x, v)) return 0;
    return 1;
}

/* The sum of the node numbers of sites, less that of pumps. */
static inline int64_t potential_gap(const struct session *x) {
    int64_t gap = 0;
    for (uint32_t v = 0; v < x->n; v++) gap += v < x->s ? -x->potentials[v] : x->potentials[v];
    return gap;
}

static inline int sums_ok(const struct session *x) {
    if (x->question == 2) return x->balances[x->s] == x->cut;
    if (x->question == 4) return x->claim == 1 || x->cost > 0;
    if (x->claim == 1) return x->cost == (x->question == 1 ? x->potentials[x->t] : potential_gap(x));
    return x->question == 1 || count_unmarked(x, x->s, x->n) > count_unmarked(x, 0, x->s);
}

static inline int finishing_check(const struct session *x) {
    if (x->repeated.count < x->read.count) return 13;
    if (x->repeated.print.first != x->read.print.first || x->repeated.print.second != x->read.print.second) return 14;
    if (!balances_ok(x)) return 15;
    return sums_ok(x) ? 0 : 16;
}

/* Once a claim stands, a refusal other than 5 ends the session. */
static inline int refuse(struct session *x, int why) {
    if (x->phase == 3 && why != 5) memset(x, 0, sizeof *x);
    return why;
}

STEP int open_session(struct session *x, uint32_t question, uint32_t n, uint32_t s, uint32_t t, struct pair point) {
    memset(x, 0, sizeof *x);
    int why = opening_check(question, n, s, t, point);
    if (why) return why;
    x->phase = 1;
    x->question = (uint8_t)question;
    x->n = (uint8_t)n;
    x->s = (uint8_t)s;
    x->t = (uint8_t)t;
    x->point = point;
    x->read.print.first = x->read.print.second = x->repeated.print.first = x->repeated.print.second = 1;
    return 0;
}

STEP int read_channel(struct session *x, uint32_t a, uint32_t b, uint32_t w) {
    if (x->phase != 1) return refuse(x, 5);
    if (x->read.count >= 4096) return refuse(x, 6);
    int why = arc_check(x, a, b, w);
    if (why) return refuse(x, why);
    extend(&x->read, x->point, a, b, w);
    return 0;
}

STEP int end_reading(struct session *x) {
    if (x->phase != 1) return refuse(x, 5);
    x->phase = 2;
    return 0;
}

STEP int make_claim(struct session *x, uint32_t claim) {
    if (x->phase != 2) return refuse(x, 5);
    if (claim < 1 || claim > 2 || (claim == 2 && x->question == 2)) return refuse(x, 9);
    x->phase = 3;
    x->claim = (uint8_t)claim;
    return 0;
}

STEP int node_number(struct session *x, int32_t y) {
    if (x->phase != 3 || x->given >= x->n) return refuse(x, 5);
    uint32_t v = x->given;
    int cut = x->question == 2 || x->claim == 2;
    int32_t most = cut ? x->question != 4 : 8322818, least = cut ? 0 : -8322818;
    if (y < least || y > most) return refuse(x, 10);
    if (x->question < 3) {
        if (v == x->s && y != cut) return refuse(x, 10);
        if (cut && v == x->t && y != 0) return refuse(x, 10);
    }
    if (x->question == 3 && v < x->s && y < 0) return refuse(x, 10);
    x->potentials[v] = y;
    if (y == 1) x->marks[v >> 6] |= (uint64_t)1 << (v & 63);
    x->given++;
    return 0;
}

STEP int repeat_channel(struct session *x, uint32_t a, uint32_t b, uint32_t w, uint32_t amount) {
    if (x->phase != 3 || x->given != x->n) return refuse(x, 5);
    if (x->repeated.count >= x->read.count) return refuse(x, 6);
    int why = arc_check(x, a, b, w);
    if (why) return refuse(x, why);
    uint32_t most = x->question == 2 ? w : x->claim == (x->question == 4 ? 2 : 1);
    if (amount > most) return refuse(x, 11);
    int out = is_marked(x, a) && !is_marked(x, b);
    if (x->question == 4) {
        if (x->claim == 1 && x->potentials[a] >= x->potentials[b]) return refuse(x, 12);
    } else if (x->question != 2) {
        int bad = x->claim == 1 ? x->potentials[b] > (int64_t)x->potentials[a] + w : out;
        if (bad) return refuse(x, 12);
    }
    x->balances[a] += amount;
    x->balances[b] -= amount;
    extend(&x->repeated, x->point, a, b, w);
    x->cost += (int64_t)amount * (x->question == 4 ? 1 : w);
    if (out) x->cut += w;
    return 0;
}

/* Gives the answer as one number. */
STEP uint64_t finish(struct session *x) {
    if (x->phase != 3 || x->given != x->n) return refusal(refuse(x, 5));
    int why = finishing_check(x);
    if (why) return refusal(refuse(x, why));
    uint64_t answer = x->claim == 2 ? NO_VALUE : (uint64_t)(x->question == 2 ? x->cut : x->question == 4 ? 0 : x->cost);
    memset(x, 0, sizeof *x);
    return answer;
}

/* Fields have their most significant byte first. */
static inline uint32_t number16(const uint8_t *at) { return at[0] * 256u + at[1]; }
static inline int32_t number32(const uint8_t *at) { return (int32_t)(number16(at) * 65536u + number16(at + 2)); }

/* Both headers end in the count of records. */
static inline int layout_check(const uint8_t *file, size_t size, char letter, size_t header, size_t numbers, size_t record) {
    if (size < header || file[0] != 'D' || file[1] != 'R' || file[2] != letter) return 17;
    if (number16(file + 3) != 1) return 18;
    return size != header + numbers + record * number16(file + header - 2) ? 19 : 0;
}

static inline int network_steps(struct session *x, const uint8_t *file, size_t size, struct pair point) {
    int why = layout_check(file, size, 'N', 11, 0, 4);
    if (!why) why = open_session(x, file[5], file[6], file[7], file[8], point);
    for (size_t i = 11; !why && i < size; i += 4) why = read_channel(x, file[i], file[i + 1], number16(file + i + 2));
    return why;
}

/* All steps of an annotation but finishing. */
static inline int annotation_steps(struct session *x, const uint8_t *file, size_t size) {
    size_t i = 8, arcs = 8 + 4u * x->n;
    int why = layout_check(file, size, 'A', 8, 4u * x->n, 6);
    if (!why) why = end_reading(x);
    if (!why) why = make_claim(x, file[5]);
    for (; !why && i < arcs; i += 4) why = node_number(x, number32(file + i));
    for (; !why && i < size; i += 6) why = repeat_channel(x, file[i], file[i + 1], number16(file + i + 2), number16(file + i + 4));
    return why;
}

/* The answer of two files at a pair of points, as one number. */
static inline uint64_t judge_files(const uint8_t *net, size_t net_size, const uint8_t *ann, size_t ann_size, struct pair point) {
    struct session x;
    int why = network_steps(&x, net, net_size, point);
    if (!why) why = annotation_steps(&x, ann, ann_size);
    return why ? refusal(why) : finish(&x);
}
