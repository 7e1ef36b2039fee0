/* Cells, certificates, schedules and files that are measured. */
#include "bench.h"

static u64 state = 0x9e3779b97f4a7c15;

/* Always the same numbers, in the same order. */
static u64 any(u64 below) {
    state ^= state << 13, state ^= state >> 7, state ^= state << 17;
    return (state >> 11) % below;
}

static void seat(struct fitting *f, u64 loom, u64 side, u64 operation) { f->seats[2 * loom] = side, f->seats[2 * loom + 1] = operation; }

/* Nothing moves. */
static void still(struct fitting *f, const char *kind, u64 looms, u64 states, u64 operations) {
    *f = (struct fitting){.kind = kind, .looms = looms, .states = states, .operations = operations};
    for (u64 o = 0; o < operations; o++)
        for (u64 q = 0; q < states; q++) f->table[o * states + q] = q;
}

/* The first operation stays: one state in every set. Sides in turn. */
void sticky(struct fitting *f, u64 looms, u64 states) {
    still(f, "sticky", looms, states, 2);
    f->table[0] = 1, f->table[states] = 2;
    for (u64 j = 0; j < looms; j++) seat(f, j, j % 2, j % 2);
}

/* Document 01's catalogue cell of size n for n looms, in a table of at least 2n states. */
void catalogue(struct fitting *f, u64 n, u64 states) {
    still(f, "catalogue", n, states, 2);
    f->start = n;
    for (u64 r = 0; r < n; r++) {
        u8 *zero = f->table, *one = f->table + states;
        zero[r] = n;
        one[r] = r + 1 < n ? r + 1 : n;
        one[n + r] = r + 1 < n ? n + r + 1 : n;
    }
    f->table[n] = 0;
    seat(f, 0, 0, 0);
    for (u64 j = 1; j < n; j++) seat(f, j, 1, 1);
}

/* Any table of sixteen operations, an operation of its own for each loom: the words fill up. */
void dense(struct fitting *f, u64 looms, u64 states) {
    still(f, "dense", looms, states, 16);
    for (u64 i = 0; i < 16 * states; i++) f->table[i] = any(states);
    for (u64 j = 0; j < looms; j++) seat(f, j, j % 2, 2 * j);
}

/* Looms in any order, with a restart once in eight entries, and of all once in a hundred. */
void busy_schedule(u8 schedule[SCHEDULE], u64 looms) {
    for (u64 k = 0; k < SCHEDULE; k++) {
        u64 loom = any(looms);
        schedule[k] = any(100) == 0 ? 32 : any(8) == 0 ? 16 + loom : loom;
    }
}

static u64 put(u8 *file, u64 at, u32 word) {
    word = __builtin_bswap32(word);
    memcpy(file + at, &word, 4);
    return at + 4;
}

static u64 put_bytes(u8 *file, u64 at, const u8 *items, u64 count) {
    at = put(file, at, count);
    for (u64 i = 0; i < count; i++) at = put(file, at, items[i]);
    return at;
}

static u64 put_label(u8 *file, u64 at, const char *label, u64 length) {
    at = put(file, at, length);
    memset(file + at, 0, (length + 3) / 4 * 4);
    memcpy(file + at, label, length);
    return at + (length + 3) / 4 * 4;
}

static u64 put_fitting(u8 *file, const struct fitting *f) {
    u64 at = put(file, put(file, 0, f->states), f->operations);
    at = put_bytes(file, at, f->table, f->states * f->operations);
    at = put(file, put(file, at, f->start), f->looms);
    for (u64 i = 0; i < 2 * f->looms; i++) at = put(file, at, f->seats[i]);
    return put(file, put(file, at, 501), 733);
}

/* Document 01's order of 152 bytes. */
u64 worked_file(u8 file[FILE_LENGTH]) {
    static const u8 schedule[13] = {1, 1, 1, 0, 0, 1, 17, 0, 0, 0, 1, 1, 1};
    struct fitting f;
    catalogue(&f, 2, 4);
    u64 at = put_fitting(file, &f);
    at = put_label(file, at, "W501", 4);
    at = put_label(file, at, "W733 ", 5);
    return put_bytes(file, at, schedule, 13);
}

/* Every field at its limit: 20,648 bytes. */
u64 longest_file(u8 file[FILE_LENGTH]) {
    u8 schedule[SCHEDULE];
    struct fitting f;
    dense(&f, SEATS, 64);
    busy_schedule(schedule, SEATS);
    u64 at = put_fitting(file, &f);
    at = put_label(file, at, "a label of thirty-two bytes: abc", 32);
    at = put_label(file, at, "another with spaces at its end  ", 32);
    return put_bytes(file, at, schedule, SCHEDULE);
}
