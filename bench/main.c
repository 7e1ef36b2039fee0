/* Our times beside those of the same jobs in plain C. */
#include "bench.h"

static u64 area[AREA], group[GROUP], opened[GROUP], out[ORDER];
static u8 marks[SCHEDULE], schedule[SCHEDULE], table_room[TABLE], schedule_room[SCHEDULE];
static u8 file[FILE_LENGTH];
static int unequal;

static void clear(void) {
    memset(area, 0, sizeof area);
    memset(group, 0, sizeof group);
    memset(out, 0, sizeof out);
    memset(marks, 0, sizeof marks);
    memset(table_room, 0, sizeof table_room);
    memset(schedule_room, 0, sizeof schedule_room);
}

/* All that a job writes, so that contestants can be compared. */
struct written {
    u64 area[AREA], group[GROUP], out[ORDER];
    u8 marks[SCHEDULE], table[TABLE], schedule[SCHEDULE];
};

static void done_by(const struct contest *c, int who, struct written *w) {
    clear();
    c->once(c->job, who);
    memset(w, 0, sizeof *w);
    memcpy(w->area, area, sizeof area);
    memcpy(w->group, group, sizeof group);
    memcpy(w->out, out, sizeof out);
    memcpy(w->marks, marks, sizeof marks);
    memcpy(w->table, table_room, sizeof table_room);
    memcpy(w->schedule, schedule_room, sizeof schedule_room);
}

/* Whether all contestants write the same; nothing is timed where they don't. */
static int equal(const struct contest *c, const char *what) {
    static struct written ours, theirs;
    done_by(c, 0, &ours);
    for (int who = 1; who < c->contestants; who++) {
        done_by(c, who, &theirs);
        if (memcmp(&ours, &theirs, sizeof ours) == 0) continue;
        printf("UNEQUAL: %s, contestant %d\n", what, who);
        unequal = 1;
        return 0;
    }
    return 1;
}

/* The times of a row, with so many decimals and each for a part of the job, and behind them the ratios to the peers. */
static void show_times(const struct timing *t, int contestants, int decimals, double parts) {
    for (int who = 0; who < contestants; who++) printf(" %.*f ±%.0f%% |", decimals, t[who].median / parts, t[who].spread);
}

static void show_ratios(const struct timing *t, int contestants) {
    for (int who = 1; who < contestants; who++) printf(" %.2f |", t[who].ratio);
    printf("\n");
}

static void check_once(const void *job, int who) {
    static check_call *const calls[MOST] = {linuktabay_check, check_every, check_fastest};
    const struct fitting *f = job;
    calls[who](f->table, f->states * f->operations, f->states, f->operations, f->start, f->looms, f->seats, area, AREA, out);
}

/* What trying every state takes: for each word and each loom in it but a lone one, all states. */
static u64 tries_of(const struct fitting *f) { return (f->looms * (1ul << f->looms) - 2 * f->looms) * f->states; }

/* What the definition needs: for each word and each loom in it, the states present in the word without the loom. */
static u64 moves_of(const struct fitting *f) {
    u64 moves = 0, size = 1ul << f->looms;
    clear();
    check_once(f, 0);
    for (u64 m = 0; m < 2 * size; m++)
        for (u64 left = m % size; left; left &= left - 1) moves += __builtin_popcountl(area[m & ~(left & -left)]);
    return moves;
}

/* Kept for what is said of growth, by kind, looms and size: the least times, since rows are far apart in time. */
enum { KINDS = 3, SIZES = 3 };
static struct measured {
    u64 looms, states, tries, moves;
    double ours, every, fastest;
} measured[KINDS][SEATS + 1][SIZES];

static void check_row(struct fitting *f, int kind, int size) {
    struct contest c = {check_once, clear, f, 3};
    struct timing t[MOST];
    u64 tries = tries_of(f), moves = moves_of(f);
    if (!equal(&c, "check")) return;
    hold(&c, t);
    measured[kind][f->looms][size] = (struct measured){f->looms, f->states, tries, moves, t[0].least, t[1].least, t[2].least};
    printf("| %s | %lu | %lu | %lu | %lu |", f->kind, f->looms, f->states, tries, moves);
    show_times(t, 3, 0, 1);
    show_ratios(t, 3);
}

static void (*const kinds[KINDS])(struct fitting *, u64, u64) = {sticky, catalogue, dense};

static void growth_row(int kind, struct measured from, struct measured to) {
    static const char *const names[KINDS] = {"sticky", "catalogue", "dense"};
    printf("| %s | %lu, %lu | %lu, %lu |", names[kind], from.looms, from.states, to.looms, to.states);
    printf(" × %.1f | × %.1f | × %.1f |", to.ours / from.ours, to.every / from.every, (double)to.tries / from.tries);
    printf(" × %.1f | × %.1f |", to.fastest / from.fastest, (double)to.moves / from.moves);
    printf(" %.2f | %.2f |\n", to.ours / to.tries, to.ours / to.moves);
}

static void growth(void) {
    printf("\nHow the check grows, by the least times. A try is a word, a loom in it and a state; a move is a word, a loom in it and a\n"
           "state present, which is what the definition needs.\n\n"
           "| cell | from looms, states | to | ours | C, every state | tries | C, fastest | moves | ours, ns a try | ours, ns a move |\n"
           "|---|---|---|---|---|---|---|---|---|---|\n");
    for (int kind = 0; kind < KINDS; kind++) {
        struct measured(*by)[SIZES] = measured[kind];
        for (u64 looms = 2; looms < SEATS; looms += 2) growth_row(kind, by[looms][2], by[looms + 2][2]);
        growth_row(kind, by[5][0], by[5][2]);
        growth_row(kind, by[8][1], by[8][2]);
    }
}

/* The catalogue cell has 2n states at least. */
static void checks(void) {
    static const u64 sizes[SIZES] = {3, 16, 64};
    struct fitting f;
    printf("\nCheck, nanoseconds.\n\n"
           "| cell | looms | states | tries | moves | ours | C, every state | C, fastest | to every | to fastest |\n"
           "|---|---|---|---|---|---|---|---|---|---|\n");
    for (int kind = 0; kind < KINDS; kind++)
        for (u64 looms = 2; looms <= SEATS; looms++)
            for (int size = 0; size < SIZES; size++) {
                u64 states = kind == 1 && size == 0 ? 2 * looms : sizes[size];
                kinds[kind](&f, looms, states);
                check_row(&f, kind, size);
            }
    growth();
}

/* Five steps of each of eight looms in turn, from the opening to the answers. */
enum { STEPS = 40 };

static void steps_once(const void *job, int who) {
    static step_call *const calls[MOST] = {linuktabay_step, step_copied, step_fastest};
    const struct fitting *f = job;
    memcpy(group, opened, sizeof group);
    for (u64 k = 0; k < STEPS; k++)
        area[k] = calls[who](f->table, f->states * f->operations, f->states, f->operations, k % f->looms, group, out + 4 * (k % 4));
}

/* The group as it opens, by the check's area. */
static void open_group(const struct fitting *f) {
    clear();
    check_once(f, 0);
    memset(opened, 0, sizeof opened);
    opened[0] = f->looms, opened[1] = opened[6] = f->start, opened[4] = 501, opened[5] = 733;
    for (u64 m = 0; m < 2ul << f->looms; m++) opened[7 + (m >> f->looms)] |= area[m];
    for (u64 j = 0; j < f->looms; j++) opened[9 + 4 * j] = f->seats[2 * j], opened[10 + 4 * j] = f->seats[2 * j + 1];
}

static void steps(void) {
    struct fitting f;
    catalogue(&f, SEATS, 2 * SEATS);
    open_group(&f);
    struct contest c = {steps_once, clear, &f, 3};
    struct timing t[MOST];
    if (!equal(&c, "step")) return;
    hold(&c, t);
    printf("\nOne step of a group of eight looms held as 41 numbers, nanoseconds (a fortieth of forty steps).\n\n"
           "| ours | C, copied | C, in place | to copied | to in place |\n|---|---|---|---|---|\n|");
    show_times(t, 3, 1, STEPS);
    show_ratios(t, 3);
}

static void run_once(const void *job, int who) {
    static run_call *const calls[MOST] = {linuktabay_run, run_every, run_fastest};
    const struct fitting *f = job;
    calls[who](f->table, f->states * f->operations, f->states, f->operations, f->start, f->looms, f->seats, 501, 733, schedule, SCHEDULE,
               marks, SCHEDULE, area, AREA, group, out);
}

static void run_row(u64 looms) {
    struct fitting f;
    struct timing t[MOST];
    catalogue(&f, looms, 2 * looms);
    busy_schedule(schedule, looms);
    struct contest c = {run_once, clear, &f, 3};
    if (!equal(&c, "run")) return;
    hold(&c, t);
    printf("| %lu |", looms);
    show_times(t, 3, 0, 1);
    printf(" %.1f |", t[0].median / SCHEDULE);
    show_ratios(t, 3);
}

static void runs(void) {
    printf("\nA run of 4,096 entries over the catalogue's cell, its check included, nanoseconds.\n\n"
           "| looms | ours | C, every state | C, fastest check | ours an entry | to every | to fastest |\n|---|---|---|---|---|---|---|\n");
    run_row(2);
    run_row(5);
    run_row(8);
}

struct reading {
    u64 length;
};

static void read_once(const void *job, int who) {
    static read_call *const calls[MOST] = {linuktabay_read, read_plain, read_fastest};
    const struct reading *r = job;
    calls[who](file, r->length, table_room, TABLE, schedule_room, SCHEDULE, out);
}

static void read_row(u64 length) {
    struct reading r = {length};
    struct contest c = {read_once, clear, &r, 3};
    struct timing t[MOST];
    if (!equal(&c, "read")) return;
    hold(&c, t);
    printf("| %lu |", length);
    show_times(t, 3, 0, 1);
    printf(" %.2f |", t[0].median / length);
    show_ratios(t, 3);
}

static void readings(void) {
    printf("\nReading an order file, nanoseconds.\n\n"
           "| bytes | ours | C, one by one | C, all at once | ours a byte | to one by one | to all at once |\n"
           "|---|---|---|---|---|---|---|\n");
    read_row(worked_file(file));
    read_row(longest_file(file));
}

static void stack_row(const char *what, const struct contest *c) { printf("| %s | %lu |\n", what, stack_of(c, 0)); }

static void stacks(void) {
    struct fitting f;
    struct reading r = {longest_file(file)};
    catalogue(&f, SEATS, 2 * SEATS);
    open_group(&f);
    busy_schedule(schedule, SEATS);
    printf("\nStack of a call, bytes. Nothing is allocated.\n\n| call | bytes |\n|---|---|\n");
    stack_row("check", &(struct contest){check_once, clear, &f, 1});
    if (linuktabay_step) stack_row("step", &(struct contest){steps_once, clear, &f, 1});
    if (linuktabay_run) stack_row("run", &(struct contest){run_once, clear, &f, 1});
    if (linuktabay_read) stack_row("read", &(struct contest){read_once, clear, &r, 1});
}

static struct part {
    const char *name;
    void (*show)(void);
    int there;
} parts[] = {{"check", checks, 1}, {"step", steps, 0}, {"run", runs, 0}, {"read", readings, 0}, {"stack", stacks, 1}};

static int named(const char *name, int words, char **word) {
    for (int i = 1; i < words; i++)
        if (strcmp(word[i], name) == 0) return 1;
    return words == 1;
}

/* The parts named, or all; one that the archive lacks is said to be left out. */
int main(int words, char **word) {
    parts[1].there = linuktabay_step != 0;
    parts[2].there = linuktabay_run != 0;
    parts[3].there = linuktabay_read != 0;
    for (u64 i = 0; i < sizeof parts / sizeof *parts; i++) {
        if (!named(parts[i].name, words, word)) continue;
        if (parts[i].there) parts[i].show();
        else printf("\nLeft out, since the archive hasn't the call: %s.\n", parts[i].name);
    }
    return unequal;
}
