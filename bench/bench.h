/* What the parts of the benchmark share: the library's calls, the peers in plain C, cases and timing. */
#ifndef BENCH_H
#define BENCH_H

typedef unsigned char u8;
typedef unsigned int u32;
typedef unsigned long u64;

/* The few functions of C's library that are called: an Arm machine has no headers for x86-64. */
struct timespec {
    long seconds, nanoseconds;
};
int clock_gettime(int clock, struct timespec *now);
int printf(const char *form, ...);
int memcmp(const void *one, const void *other, u64 length);
int strcmp(const char *one, const char *other);
void *memcpy(void *to, const void *from, u64 length);
void *memset(void *to, int byte, u64 length);

enum { SEATS = 8, GROUP = 41, TABLE = 1024, SCHEDULE = 4096, AREA = 512, ORDER = 30, FILE_LENGTH = 20648 };

/* The crate `boundary`. A slice is passed as where it begins and how long it is. What the archive lacks, but for the check, is null. */
#define IF_THERE __attribute__((weak))
typedef void check_call(const u8 *table, u64 length, u64 states, u64 operations, u64 start, u64 looms, const u64 seats[16], u64 *area,
                        u64 words, u64 out[4] /* code, place, size A, size B */);
/* A group: count, cell, registers A and B, numbers A and B, start, sets A and B, then 8 × (side, operation, place, steps). */
typedef u8 step_call(const u8 *table, u64 length, u64 states, u64 operations, u64 loom, u64 group[GROUP],
                     u64 out[4] /* mark, applied, piece, steps */);
typedef void run_call(const u8 *table, u64 length, u64 states, u64 operations, u64 start, u64 looms, const u64 seats[16], u32 a, u32 b,
                      const u8 *schedule, u64 entries, u8 *marks, u64 room, u64 *area, u64 words, u64 group[GROUP],
                      u64 out[6] /* code, entries, answers A, answers B, applied, longest */);
/* code, place, states, operations, entries, start, looms, 16 of seats, numbers A and B, label A at, length, label B at, length, schedule */
typedef void read_call(const u8 *file, u64 length, u8 *table, u64 table_room, u8 *schedule, u64 schedule_room, u64 out[ORDER]);

check_call linuktabay_check;
IF_THERE step_call linuktabay_step;
IF_THERE run_call linuktabay_run;
IF_THERE read_call linuktabay_read;

/* The check: every state of a word tried, as the library does; and the fastest, which walks a word's members. */
check_call check_every, check_fastest;
/* A step: the numbers taken into a record and back, as the library does; and in place. */
step_call step_copied, step_fastest;
/* A run with the check that tries every state, and with the fastest. */
run_call run_every, run_fastest;
/* Reading: items judged one by one, as the library does; and all at once. */
read_call read_plain, read_fastest;

/* A cell with its certificate, and what else a run is given. */
struct fitting {
    const char *kind;
    u8 table[TABLE];
    u64 states, operations, start, looms, seats[2 * SEATS];
};
void sticky(struct fitting *f, u64 looms, u64 states);
void catalogue(struct fitting *f, u64 looms, u64 states);
void dense(struct fitting *f, u64 looms, u64 states);
void busy_schedule(u8 schedule[SCHEDULE], u64 looms);
u64 worked_file(u8 file[FILE_LENGTH]);
u64 longest_file(u8 file[FILE_LENGTH]);

/* What is timed: `once` does the job a single time by contestant `who`, on what `job` says; `clear` clears what it writes. */
struct contest {
    void (*once)(const void *job, int who);
    void (*clear)(void);
    const void *job;
    int contestants;
};
enum { MOST = 3, ROUNDS = 61 };
/* Nanoseconds for a single time: the median of the rounds, half the distance of the quartiles in hundredths of it, and the least. The
 * ratio is the median of the rounds' ratios of the first contestant's time to this one's. */
struct timing {
    double median, spread, least, ratio;
};
void hold(const struct contest *contest, struct timing timings[MOST]);

/* Bytes of stack that `once` touches, 256 or more: those of the call that it makes and of its own few. */
u64 stack_of(const struct contest *contest, int who);
#endif
