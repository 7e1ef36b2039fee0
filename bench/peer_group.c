/* One step, and a run, in plain C. Groups have numbers in their ranges here. */
#include "bench.h"

enum place { BEGIN, POSTED, LOOKING, READY, APPLIED, BOUND, BOUND_B, ANSWERED, ANSWERED_B };

struct loom {
    u8 side, operation, place, steps;
};

/* A group as a record. */
struct group {
    u64 count, sets[2];
    u32 registers[2], numbers[2];
    u8 cell, start;
    struct loom looms[SEATS];
};

static inline struct group group_of(const u64 n[GROUP]) {
    struct group g = {.count = n[0], .cell = n[1], .registers = {n[2], n[3]}, .numbers = {n[4], n[5]}, .start = n[6], .sets = {n[7], n[8]}};
    for (u64 i = 0; i < SEATS; i++) {
        const u64 *l = n + 9 + 4 * i;
        g.looms[i] = (struct loom){l[0], l[1], l[2], l[3]};
    }
    return g;
}

static inline void numbers_of(const struct group *g, u64 n[GROUP]) {
    u64 head[9] = {g->count, g->cell, g->registers[0], g->registers[1], g->numbers[0], g->numbers[1], g->start, g->sets[0], g->sets[1]};
    memcpy(n, head, sizeof head);
    for (u64 i = 0; i < SEATS; i++) {
        u64 *l = n + 9 + 4 * i;
        l[0] = g->looms[i].side, l[1] = g->looms[i].operation, l[2] = g->looms[i].place, l[3] = g->looms[i].steps;
    }
}

static inline u64 leading(u64 start, u64 set_b) { return start < 64 && set_b >> start & 1; }

static inline int looks(const struct group *g, u64 side, u64 lead) {
    u64 same = 0;
    for (u64 i = 0; i < g->count; i++) same += g->looms[i].side == side;
    return side != lead && same == 1;
}

static inline u64 decided(u64 lead, u64 set, u64 cell) { return set >> cell & 1 ? lead : 1 - lead; }

/* What a step says: its mark, whether it applied, its number. */
struct said {
    u64 mark, applied, piece;
};

/* The table of places. `alone`: a loom of its side looks. */
static inline struct said turn(struct group *g, struct loom *l, u64 lead, int alone, u8 next) {
    u8 to = l->place;
    struct said said = {0, 0, 0};
    switch (l->place) {
    case BEGIN: g->registers[l->side] = g->numbers[l->side], to = POSTED; break;
    case POSTED: to = g->cell != g->start ? BOUND + decided(lead, g->sets[lead], g->cell) : alone ? LOOKING : READY; break;
    case LOOKING: to = g->registers[1 - l->side] ? BOUND + 1 - l->side : READY; break;
    case READY: g->cell = next, to = APPLIED, said.applied = 1; break;
    case APPLIED: to = BOUND + decided(lead, g->sets[lead], g->cell); break;
    default: to = l->place + 2, said.mark = l->place - BOUND + 1, said.piece = g->registers[l->place - BOUND];
    }
    l->place = to;
    l->steps += l->steps < 255;
    return said;
}

static inline u8 unfit(const u8 *table, u64 length, u64 states, u64 operations, u64 cell, u64 operation) {
    if (states < 1 || states > 64 || operations < 1 || operations > 16 || length != states * operations) return 1;
    return cell >= states || operation >= operations || table[operation * states + cell] >= states;
}

static inline void say(u64 out[4], struct said said, u64 steps) {
    out[0] = said.mark, out[1] = said.applied, out[2] = said.piece, out[3] = steps;
}

u8 step_copied(const u8 *table, u64 length, u64 states, u64 operations, u64 loom, u64 n[GROUP], u64 out[4]) {
    struct group g = group_of(n);
    u8 code = 0;
    struct said said = {0, 0, 0};
    u64 steps = 0;
    if (g.count > SEATS || loom >= g.count) code = 30;
    else if (unfit(table, length, states, operations, g.cell, g.looms[loom].operation)) code = 32;
    else if (g.looms[loom].place >= ANSWERED) code = 31;
    else {
        struct loom *l = g.looms + loom;
        u64 lead = leading(g.start, g.sets[1]);
        said = turn(&g, l, lead, looks(&g, l->side, lead), table[l->operation * states + g.cell]);
        steps = l->steps;
    }
    numbers_of(&g, n);
    say(out, said, steps);
    return code;
}

/* The numbers of a group and of a loom, by name. */
#define CELL n[1]
#define REGISTER(side) n[2 + (side)]
#define NUMBER(side) n[4 + (side)]
#define START n[6]
#define SET(side) n[7 + (side)]
#define SIDE l[0]
#define OPERATION l[1]
#define PLACE l[2]
#define COUNT l[3]

static u64 place_from_posted(const u64 n[GROUP], const u64 *l) {
    u64 lead = leading(START, SET(1)), same = 0;
    if (CELL != START) return BOUND + decided(lead, SET(lead), CELL);
    for (u64 i = 0; i < n[0]; i++) same += n[9 + 4 * i] == SIDE;
    return SIDE != lead && same == 1 ? LOOKING : READY;
}

u8 step_fastest(const u8 *table, u64 length, u64 states, u64 operations, u64 loom, u64 n[GROUP], u64 out[4]) {
    struct said said = {0, 0, 0};
    u64 *l = n + 9 + 4 * loom;
    say(out, said, 0);
    if (n[0] > SEATS || loom >= n[0]) return 30;
    if (unfit(table, length, states, operations, CELL, OPERATION)) return 32;
    if (PLACE >= ANSWERED) return 31;
    switch (PLACE) {
    case BEGIN: REGISTER(SIDE) = NUMBER(SIDE), PLACE = POSTED; break;
    case POSTED: PLACE = place_from_posted(n, l); break;
    case LOOKING: PLACE = REGISTER(1 - SIDE) ? BOUND + 1 - SIDE : READY; break;
    case READY: CELL = table[OPERATION * states + CELL], PLACE = APPLIED, said.applied = 1; break;
    case APPLIED: {
        u64 lead = leading(START, SET(1));
        PLACE = BOUND + decided(lead, SET(lead), CELL);
        break;
    }
    default: said.mark = PLACE - BOUND + 1, said.piece = REGISTER(PLACE - BOUND), PLACE += 2;
    }
    COUNT += COUNT < 255;
    say(out, said, COUNT);
    return 0;
}

static inline int no_act(u8 entry, u64 looms) { return entry >= looms && (u8)(entry - 16) >= looms && entry != 32; }

/* Codes 10, 12, 13 and 40. */
static u64 refusal(u64 looms, u32 a, u32 b, const u8 *schedule, u64 entries, u64 room) {
    if (!a || !b) return 10;
    if (entries > SCHEDULE) return 12;
    u8 wrong = 0;
    for (u64 k = 0; k < entries; k++) wrong |= no_act(schedule[k], looms);
    return wrong ? 13 : room < entries ? 40 : 0;
}

static u64 set_of(const u64 *area, u64 words) {
    u64 set = 0;
    for (u64 m = 0; m < words; m++) set |= area[m];
    return set;
}

static struct group opened(u64 start, u64 looms, const u64 *seats, u32 a, u32 b, const u64 *area) {
    u64 words = 1ul << looms;
    struct group g = {.count = looms, .cell = start, .start = start, .numbers = {a, b}};
    g.sets[0] = set_of(area, words);
    g.sets[1] = set_of(area + words, words);
    for (u64 j = 0; j < looms; j++) g.looms[j] = (struct loom){seats[2 * j], seats[2 * j + 1], BEGIN, 0};
    return g;
}

static inline void restart(struct loom *l) { l->place = BEGIN, l->steps = 0; }

/* Every entry in order. */
static void taken(const u8 *table, u64 states, struct group *g, const u8 *schedule, u64 entries, u8 *marks, u64 out[6]) {
    u64 lead = leading(g->start, g->sets[1]), answers[4] = {0}, applied = 0, longest = 0;
    int alone[2] = {looks(g, 0, lead), looks(g, 1, lead)};
    for (u64 k = 0; k < entries; k++) {
        u8 entry = schedule[k], mark = 0;
        struct loom *l = g->looms + (entry & 7);
        if (entry == 32) {
            for (u64 j = 0; j < g->count; j++) restart(g->looms + j);
        } else if (entry >= 16) {
            restart(l);
        } else if (l->place >= ANSWERED) {
            mark = 3;
        } else {
            struct said said = turn(g, l, lead, alone[l->side], table[l->operation * states + g->cell]);
            applied += said.applied;
            mark = said.mark;
            longest = l->steps > longest ? l->steps : longest;
        }
        answers[mark]++;
        marks[k] = mark;
    }
    out[1] = entries, out[2] = answers[1], out[3] = answers[2], out[4] = applied, out[5] = longest;
}

static inline __attribute__((always_inline)) void run(const u8 *table, u64 length, u64 states, u64 operations, u64 start, u64 looms,
                                                      const u64 seats[16], u32 a, u32 b, const u8 *schedule, u64 entries, u8 *marks,
                                                      u64 room, u64 *area, u64 words, u64 n[GROUP], u64 out[6], check_call check) {
    u64 checked[4];
    struct group g = {0};
    memset(out, 0, 6 * sizeof *out);
    check(table, length, states, operations, start, looms, seats, area, words, checked);
    out[0] = checked[0] ? checked[0] : refusal(looms, a, b, schedule, entries, room);
    if (!out[0]) {
        g = opened(start, looms, seats, a, b, area);
        taken(table, states, &g, schedule, entries, marks, out);
    }
    numbers_of(&g, n);
}

void run_every(const u8 *table, u64 length, u64 states, u64 operations, u64 start, u64 looms, const u64 seats[16], u32 a, u32 b,
               const u8 *schedule, u64 entries, u8 *marks, u64 room, u64 *area, u64 words, u64 n[GROUP], u64 out[6]) {
    run(table, length, states, operations, start, looms, seats, a, b, schedule, entries, marks, room, area, words, n, out, check_every);
}

void run_fastest(const u8 *table, u64 length, u64 states, u64 operations, u64 start, u64 looms, const u64 seats[16], u32 a, u32 b,
                 const u8 *schedule, u64 entries, u8 *marks, u64 room, u64 *area, u64 words, u64 n[GROUP], u64 out[6]) {
    run(table, length, states, operations, start, looms, seats, a, b, schedule, entries, marks, room, area, words, n, out, check_fastest);
}
