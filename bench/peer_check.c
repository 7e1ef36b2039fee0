/* The check in plain C. */
#include "bench.h"

struct asked {
    const u8 *table;
    u64 length, states, operations, start, looms;
    const u64 *seats;
};

static inline u64 side_of(const struct asked *c, u64 loom) { return c->seats[2 * loom]; }
static inline u64 operation_of(const struct asked *c, u64 loom) { return c->seats[2 * loom + 1]; }
static inline const u8 *row_of(const struct asked *c, u64 loom) { return c->table + operation_of(c, loom) * c->states; }

static inline u64 looms_of(const struct asked *c, u64 side) {
    u64 found = 0;
    for (u64 j = 0; j < c->looms; j++) found += side_of(c, j) == side;
    return found;
}

struct fault {
    u64 code, place;
};
static const struct fault none = {0, 0};

/* The lowest entry that isn't below states, or the length. */
static inline u64 first_wrong(const struct asked *c) {
    u64 i = 0;
    while (i < c->length && c->table[i] < c->states) i++;
    return i;
}

/* Whether there is none, by way of the highest, which needs no stop. */
static inline int all_right(const struct asked *c) {
    u8 high = 0;
    for (u64 i = 0; i < c->length; i++) high = c->table[i] > high ? c->table[i] : high;
    return high < c->states;
}

static inline struct fault entries_fault(const struct asked *c, int at_once) {
    if (at_once && all_right(c)) return none;
    u64 wrong = first_wrong(c);
    return wrong < c->length ? (struct fault){5, wrong} : none;
}

static inline struct fault looms_fault(const struct asked *c, u64 words) {
    if (c->looms < 2 || c->looms > SEATS) return (struct fault){7, 0};
    for (u64 j = 0; j < c->looms; j++)
        if (side_of(c, j) > 1 || operation_of(c, j) >= c->operations) return (struct fault){8, j};
    u64 of_a = looms_of(c, 0);
    if (of_a == 0 || of_a == c->looms) return (struct fault){9, 0};
    return (struct fault){words < 2ul << c->looms ? 40 : 0, 0};
}

/* Codes 2 to 9 and 40; entries one by one, or all at once. */
static inline struct fault fault(const struct asked *c, u64 words, int at_once) {
    if (c->states < 1 || c->states > 64) return (struct fault){2, 0};
    if (c->operations < 1 || c->operations > 16) return (struct fault){3, 0};
    if (c->length != c->states * c->operations) return (struct fault){4, 0};
    struct fault f = entries_fault(c, at_once);
    if (f.code) return f;
    if (c->start >= c->states) return (struct fault){6, 0};
    return looms_fault(c, words);
}

/* Codes 20, 21 and 22, and the sizes. */
static inline void verdict(const struct asked *c, u64 a, u64 b, u64 out[4]) {
    u64 of_a = looms_of(c, 0), of_b = c->looms - of_a, both = a & b;
    if (both) out[0] = 20, out[1] = __builtin_ctzl(both);
    else if (a >> c->start & 1 && of_b != 1) out[0] = 21, out[1] = c->start;
    else if (b >> c->start & 1 && of_a != 1) out[0] = 22, out[1] = c->start;
    out[2] = __builtin_popcountl(a);
    out[3] = __builtin_popcountl(b);
}

/* Fills both halves of the area, and gives the sets of A and B. */
typedef void filler(const struct asked *c, u64 *area, u64 sets[2]);

static inline __attribute__((always_inline)) void check(struct asked c, u64 *area, u64 words, u64 out[4], filler fill,
                                                        int at_once) {
    struct fault f = fault(&c, words, at_once);
    out[0] = f.code, out[1] = f.place, out[2] = out[3] = 0;
    if (f.code) return;
    u64 sets[2];
    fill(&c, area, sets);
    verdict(&c, sets[0], sets[1], out);
}

static inline u64 advance_every(const u8 *row, u64 states, u64 set) {
    u64 out = 0;
    for (u64 q = 0; q < states; q++)
        if (set >> q & 1) out |= 1ul << row[q];
    return out;
}

static inline u64 advance_members(const u8 *row, u64 set) {
    u64 out = 0;
    for (; set; set &= set - 1) out |= 1ul << row[__builtin_ctzl(set)];
    return out;
}

/* Each word of a side from the words with one loom less. */
static inline __attribute__((always_inline)) u64 by_loom(const struct asked *c, u64 side, u64 *area, int members) {
    u64 set = 0;
    for (u64 m = 0; m < 1ul << c->looms; m++) {
        u64 word = 0;
        for (u64 left = m; left; left &= left - 1) {
            u64 j = __builtin_ctzl(left), rest = m & ~(1ul << j);
            const u8 *row = row_of(c, j);
            if (rest) word |= members ? advance_members(row, area[rest]) : advance_every(row, c->states, area[rest]);
            else if (side_of(c, j) == side) word = 1ul << row[c->start];
        }
        area[m] = word;
        set |= word;
    }
    return set;
}

static inline void fill_every(const struct asked *c, u64 *area, u64 sets[2]) {
    sets[0] = by_loom(c, 0, area, 0);
    sets[1] = by_loom(c, 1, area + (1ul << c->looms), 0);
}

/* The operations that the looms have, each once: its row, and the looms that have it. */
struct operations {
    u64 count;
    const u8 *rows[SEATS];
    u64 looms[SEATS];
};

static void distinct(const struct asked *c, struct operations *all) {
    all->count = 0;
    for (u64 j = 0; j < c->looms; j++) {
        const u8 *row = row_of(c, j);
        u64 k = 0;
        while (k < all->count && all->rows[k] != row) k++;
        if (k == all->count) all->rows[all->count++] = row, all->looms[k] = 0;
        all->looms[k] |= 1ul << j;
    }
}

/* The words without a loom that has the operation, together; then the operation once. */
static inline u64 last_by(const struct operations *all, u64 k, const u64 *area, u64 m) {
    u64 before = 0;
    for (u64 left = m & all->looms[k]; left; left &= left - 1) before |= area[m & ~(left & -left)];
    return advance_members(all->rows[k], before);
}

/* Each word of a side, every operation once. */
static u64 by_operation(const struct asked *c, const struct operations *all, u64 side, u64 *area) {
    u64 set = 0, size = 1ul << c->looms;
    area[0] = 0;
    for (u64 m = 1; m < size; m++) {
        u64 word = 0;
        if (m & (m - 1)) {
            for (u64 k = 0; k < all->count; k++) word |= last_by(all, k, area, m);
        } else {
            u64 j = __builtin_ctzl(m);
            word = side_of(c, j) == side ? 1ul << row_of(c, j)[c->start] : 0;
        }
        area[m] = word;
        set |= word;
    }
    return set;
}

/* By operation where many looms share few; else by loom. Only members are walked. */
static inline void fill_fastest(const struct asked *c, u64 *area, u64 sets[2]) {
    struct operations all = {.count = SEATS};
    u64 *second = area + (1ul << c->looms);
    if (c->looms > 4) distinct(c, &all);
    if (2 * all.count <= c->looms) {
        sets[0] = by_operation(c, &all, 0, area);
        sets[1] = by_operation(c, &all, 1, second);
    } else {
        sets[0] = by_loom(c, 0, area, 1);
        sets[1] = by_loom(c, 1, second, 1);
    }
}

void check_every(const u8 *table, u64 length, u64 states, u64 operations, u64 start, u64 looms, const u64 seats[16], u64 *area,
                 u64 words, u64 out[4]) {
    check((struct asked){table, length, states, operations, start, looms, seats}, area, words, out, fill_every, 0);
}

void check_fastest(const u8 *table, u64 length, u64 states, u64 operations, u64 start, u64 looms, const u64 seats[16], u64 *area,
                   u64 words, u64 out[4]) {
    check((struct asked){table, length, states, operations, start, looms, seats}, area, words, out, fill_fastest, 1);
}
