/* Reading an order file in plain C: every field judged, then table and schedule written, so that a refusal writes nothing. */
#include "bench.h"

struct reader {
    const u8 *file;
    u64 length, at, code, place;
};

static inline u32 word_at(const u8 *from) {
    u32 word;
    memcpy(&word, from, 4);
    return __builtin_bswap32(word);
}

/* Notes the first refusal; true, so that callers can go back at once. */
static inline int refused(struct reader *r, u64 code, u64 place) {
    r->code = code, r->place = place;
    return 1;
}

/* The next word, which has to lie from low to high; true where it is refused. */
static inline int field(struct reader *r, u64 code, u32 low, u32 high, u64 *value) {
    if (r->length - r->at < 4) return refused(r, 1, r->at);
    u32 word = word_at(r->file + r->at);
    if (word < low || word > high) return refused(r, code, r->at);
    r->at += 4;
    *value = word;
    return 0;
}

/* A word as it lies in the file: its last byte is the highest here. Bounds fit that byte. */
static inline u32 raw_at(const u8 *from) {
    u32 raw;
    memcpy(&raw, from, 4);
    return raw;
}

typedef u32 misfit(u32 raw, u32 bound);

static inline u32 no_state(u32 raw, u32 states) { return (raw & 0xffffff) | (raw >> 24 >= states); }
static inline u32 no_act(u32 raw, u32 looms) {
    u32 entry = raw >> 24;
    return (raw & 0xffffff) | ((entry >= looms) & (entry - 16 >= looms) & (entry != 32));
}

/* Whether none of so many words is a misfit, which needs no stop. */
static inline __attribute__((always_inline)) int all_right(const u8 *from, u64 count, misfit wrong, u32 bound) {
    u32 any = 0;
    for (u64 i = 0; i < count; i++) any |= wrong(raw_at(from + 4 * i), bound);
    return !any;
}

/* So many words, one by one or all at once; true where one is refused. */
static inline __attribute__((always_inline)) int items(struct reader *r, u64 count, u64 code, misfit wrong, u32 bound, int at_once) {
    u64 there = (r->length - r->at) / 4, reach = count < there ? count : there, k = 0;
    const u8 *from = r->file + r->at;
    if (at_once && all_right(from, reach, wrong, bound)) k = reach;
    while (k < reach && !wrong(raw_at(from + 4 * k), bound)) k++;
    r->at += 4 * k;
    return k < count ? refused(r, k < reach ? code : 1, r->at) : 0;
}

static int label(struct reader *r, u64 at_and_length[2]) {
    u64 length;
    if (field(r, 11, 0, 32, &length)) return 1;
    u64 padded = (length + 3) / 4 * 4;
    if (r->length - r->at < padded) return refused(r, 1, r->at);
    u32 any = 0;
    for (u64 i = 0; i < length; i++) any |= (u8)(r->file[r->at + i] - 32) > 94;
    if (any) return refused(r, 11, r->at);
    at_and_length[0] = r->at, at_and_length[1] = length;
    r->at += padded;
    return 0;
}

static int seats(struct reader *r, u64 operations, u64 looms, u64 count_at, u64 *to) {
    u64 of_b = 0;
    for (u64 j = 0; j < looms; j++) {
        if (field(r, 8, 0, 1, to + 2 * j) || field(r, 8, 0, operations - 1, to + 2 * j + 1)) return 1;
        of_b += to[2 * j];
    }
    return of_b == 0 || of_b == looms ? refused(r, 9, count_at) : 0;
}

/* Every field in file order; the table and the schedule begin at those two places. True where one is refused. */
static inline __attribute__((always_inline)) int judged(struct reader *r, u64 out[ORDER], u64 *table_at, u64 *schedule_at, int at_once) {
    if (field(r, 2, 1, 64, out + 2) || field(r, 3, 1, 16, out + 3)) return 1;
    u64 entries = out[2] * out[3];
    if (field(r, 4, entries, entries, out + 4)) return 1;
    *table_at = r->at;
    if (items(r, entries, 5, no_state, out[2], at_once) || field(r, 6, 0, out[2] - 1, out + 5)) return 1;
    u64 count_at = r->at;
    if (field(r, 7, 2, SEATS, out + 6) || seats(r, out[3], out[6], count_at, out + 7)) return 1;
    if (field(r, 10, 1, ~0u, out + 23) || field(r, 10, 1, ~0u, out + 24)) return 1;
    if (label(r, out + 25) || label(r, out + 27) || field(r, 12, 0, SCHEDULE, out + 29)) return 1;
    *schedule_at = r->at;
    if (items(r, out[29], 13, no_act, out[6], at_once)) return 1;
    return r->at < r->length ? refused(r, 14, r->at) : 0;
}

static inline void narrowed(u8 *restrict to, const u8 *restrict from, u64 count) {
    for (u64 i = 0; i < count; i++) to[i] = raw_at(from + 4 * i) >> 24;
}

static inline __attribute__((always_inline)) void reading(const u8 *file, u64 length, u8 *table, u64 table_room, u8 *schedule,
                                                          u64 schedule_room, u64 out[ORDER], int at_once) {
    struct reader r = {file, length, 0, 40, 0};
    u64 order[ORDER] = {0}, table_at, schedule_at;
    if (table_room < TABLE || schedule_room < SCHEDULE || judged(&r, order, &table_at, &schedule_at, at_once)) {
        memset(out, 0, sizeof order);
        out[0] = r.code, out[1] = r.place;
        return;
    }
    memcpy(out, order, sizeof order);
    narrowed(table, file + table_at, order[4]);
    narrowed(schedule, file + schedule_at, order[29]);
}

void read_plain(const u8 *file, u64 length, u8 *table, u64 table_room, u8 *schedule, u64 schedule_room, u64 out[ORDER]) {
    reading(file, length, table, table_room, schedule, schedule_room, out, 0);
}

void read_fastest(const u8 *file, u64 length, u8 *table, u64 table_room, u8 *schedule, u64 schedule_room, u64 out[ORDER]) {
    reading(file, length, table, table_room, schedule, schedule_room, out, 1);
}
