/* Contests timed, and the stack that a call touches. */
#include "bench.h"

static double now(void) {
    struct timespec time;
    clock_gettime(1, &time); /* the clock that is never set */
    return time.seconds * 1e9 + time.nanoseconds;
}

/* One contestant, so many times over, from cleared buffers. */
static double timed(const struct contest *c, int who, u64 times) {
    c->clear();
    double began = now();
    for (u64 i = 0; i < times; i++) c->once(c->job, who);
    return (now() - began) / times;
}

/* So often that the first contestant takes a tenth of a millisecond or more. */
static u64 often_enough(const struct contest *c) {
    u64 times = 1;
    while (times < 1 << 20 && timed(c, 0, times) * times < 100e3) times *= 2;
    return times;
}

static void sorted(double *items, int count) {
    for (int i = 1; i < count; i++)
        for (int k = i; k > 0 && items[k] < items[k - 1]; k--) {
            double item = items[k];
            items[k] = items[k - 1], items[k - 1] = item;
        }
}

static double median(double *items) {
    sorted(items, ROUNDS);
    return items[ROUNDS / 2];
}

/* In every round each contestant in turn, another one first each time. */
void hold(const struct contest *c, struct timing timings[MOST]) {
    double times[MOST][ROUNDS], ratios[MOST][ROUNDS];
    u64 often = often_enough(c);
    for (int round = 0; round < ROUNDS; round++) {
        for (int i = 0; i < c->contestants; i++) {
            int who = (round + i) % c->contestants;
            times[who][round] = timed(c, who, often);
        }
        for (int who = 0; who < c->contestants; who++) ratios[who][round] = times[0][round] / times[who][round];
    }
    for (int who = 0; who < c->contestants; who++) {
        double middle = median(times[who]), quartiles = times[who][3 * ROUNDS / 4] - times[who][ROUNDS / 4];
        timings[who] = (struct timing){middle, 50 * quartiles / middle, times[who][0], median(ratios[who])};
    }
}

enum { DEEP = 1 << 14, NEAR = 32 };
static const u64 paint = 0xa5c3a5c3a5c3a5c3;

/* Paints the words below its own frame, does the job, and looks how far down the paint is gone. */
static __attribute__((noinline)) u64 touched(const struct contest *c, int who) {
    volatile u64 *top = (volatile u64 *)__builtin_frame_address(0) - NEAR;
    for (long i = 1; i <= DEEP; i++) top[-i] = paint;
    c->once(c->job, who);
    long deep = DEEP;
    while (deep > 0 && top[-deep] == paint) deep--;
    return 8 * (deep + NEAR);
}

u64 stack_of(const struct contest *c, int who) {
    c->clear();
    touched(c, who); /* the loader binds what is called first */
    return touched(c, who);
}
