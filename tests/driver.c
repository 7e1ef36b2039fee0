/* Our side of the comparison: answers framed calls on standard input through the archive of the crate `boundary`.
 * A frame is a 32-bit little-endian length and so many bytes. A call is a function's number and its arguments; a number is
 * eight bytes, little-endian; a slice is a 32-bit count and its bytes or words. An answer has the results in order, and then each lent
 * slice as the function left it. */
typedef unsigned char u8;
typedef unsigned int u32;
typedef unsigned long u64;

/* The few functions of C's library that are called: an Arm machine has no headers for x86-64. */
long read(int file, void *room, u64 length);
long write(int file, const void *bytes, u64 length);
void exit(int status) __attribute__((noreturn));
void *memcpy(void *to, const void *from, u64 length);

/* The crate `boundary`. A slice is passed as where it begins and how long it is. */
_Bool linuktabay_has(u64 set, u64 state);
u64 linuktabay_union(u64 a, u64 b);
u64 linuktabay_common(u64 a, u64 b);
u64 linuktabay_insert(u64 set, u64 state);
u64 linuktabay_size(u64 set);
u64 linuktabay_lowest(u64 set);
u8 linuktabay_catalogue(u64 n, u8 *room, u64 length);
u8 linuktabay_form_code(const u8 *table, u64 length, u64 states, u64 operations);
u64 linuktabay_form_place(const u8 *table, u64 length, u64 states, u64 operations);
u64 linuktabay_next(const u8 *table, u64 length, u64 states, u64 operation, u64 state);
void linuktabay_check(const u8 *table, u64 length, u64 states, u64 operations, u64 start, u64 looms, const u64 seats[16], u64 *area, u64 words,
                      u64 out[4]);
u8 linuktabay_open(const u8 *table, u64 length, u64 states, u64 operations, u64 start, u64 looms, const u64 seats[16], u32 a, u32 b, u64 *area,
                   u64 words, u64 group[41]);
u8 linuktabay_step(const u8 *table, u64 length, u64 states, u64 operations, u64 loom, u64 group[41], u64 out[4]);
u8 linuktabay_restart(u64 loom, u64 group[41]);
u8 linuktabay_restart_all(u64 group[41]);
void linuktabay_run(const u8 *table, u64 length, u64 states, u64 operations, u64 start, u64 looms, const u64 seats[16], u32 a, u32 b,
                    const u8 *schedule, u64 entries, u8 *marks, u64 marks_room, u64 *area, u64 words, u64 group[41], u64 out[6]);
void linuktabay_read(const u8 *file, u64 length, u8 *table, u64 entries, u8 *schedule, u64 acts, u64 out[30]);
u8 linuktabay_step_lent(const u8 *table, u64 length, u64 states, u64 operations, u64 own[12], u64 out[4]);
void linuktabay_reading(const u8 *file, u64 length, u64 at, u64 count, u64 out[6]);
u64 linuktabay_label(const u8 *a, u64 length_a, const u8 *b, u64 length_b, u64 side);

enum { ROOM = 1 << 20 };

static u8 call[ROOM], answer[ROOM];
static u64 room[ROOM / 8];
static u32 called, at, answered;

/* A call that is cut short, or of no known function, is a fault of the test: it ends the run. */
static void stop(const char *why, u64 length) {
    write(2, why, length);
    exit(3);
}
#define STOP(why) stop(why "\n", sizeof why)

static const u8 *taken(u32 count) {
    if (called - at < count) STOP("driver: a call ends too soon");
    at += count;
    return call + at - count;
}

static u64 number(void) {
    u64 n;
    memcpy(&n, taken(8), 8);
    return n;
}

struct bytes {
    u8 *first;
    u64 length;
};

static u32 count(void) {
    u32 n;
    memcpy(&n, taken(4), 4);
    return n;
}

/* A slice of bytes, lent where it lies in the call. */
static struct bytes bytes(void) {
    u32 n = count();
    return (struct bytes){(u8 *)taken(n), n};
}

/* So many numbers, in order. */
static void numbers(u64 *to, u32 n) {
    for (u32 i = 0; i < n; i++) to[i] = number();
}

struct words {
    u64 *first;
    u64 length;
};

/* A slice of words, copied to where words may lie. */
static struct words words(void) {
    u32 n = count();
    if (n > ROOM / 8) STOP("driver: a slice is too long");
    memcpy(room, taken(n * 8), n * 8);
    return (struct words){room, n};
}

static void put(const void *from, u32 length) {
    if (ROOM - answered < length) STOP("driver: an answer is too long");
    memcpy(answer + answered, from, length);
    answered += length;
}

static void say(u64 n) { put(&n, 8); }

static void say_bytes(struct bytes b) {
    u32 n = b.length;
    put(&n, 4);
    put(b.first, n);
}

static void say_numbers(const u64 *from, u32 n) {
    for (u32 i = 0; i < n; i++) say(from[i]);
}

static void say_words(struct words w) {
    u32 n = w.length;
    put(&n, 4);
    put(w.first, n * 8);
}

static void of_sets(u8 function) {
    u64 a = number();
    if (function == 4) return say(linuktabay_size(a));
    if (function == 5) return say(linuktabay_lowest(a));
    u64 b = number();
    if (function == 1) return say(linuktabay_has(a, b));
    if (function == 2) return say(linuktabay_union(a, b));
    if (function == 3) return say(linuktabay_insert(a, b));
    say(linuktabay_common(a, b));
}

static void catalogue(void) {
    u64 n = number();
    struct bytes room = bytes();
    say(linuktabay_catalogue(n, room.first, room.length));
    say_bytes(room);
}

static void next(void) {
    struct bytes table = bytes();
    u64 states = number(), operation = number(), state = number();
    u64 moved = linuktabay_next(table.first, table.length, states, operation, state);
    say(moved != 0);
    say(moved != 0 ? moved - 1 : 0);
}

static void form(void) {
    struct bytes table = bytes();
    u64 states = number(), operations = number();
    say(linuktabay_form_code(table.first, table.length, states, operations));
    say(linuktabay_form_place(table.first, table.length, states, operations));
}

/* What a certificate is checked over, and the certificate itself. */
struct given {
    struct bytes table;
    u64 states, operations, start, looms, seats[16];
};

static struct given given(void) {
    struct given g = {.table = bytes()};
    g.states = number();
    g.operations = number();
    g.start = number();
    g.looms = number();
    numbers(g.seats, 16);
    return g;
}

static void check(void) {
    struct given g = given();
    struct words area = words();
    u64 out[4] = {0};
    linuktabay_check(g.table.first, g.table.length, g.states, g.operations, g.start, g.looms, g.seats, area.first, area.length, out);
    say_numbers(out, 4);
    say_words(area);
}

static void open_group(void) {
    struct given g = given();
    u32 a = number(), b = number();
    struct words area = words();
    u64 group[41] = {0};
    say(linuktabay_open(g.table.first, g.table.length, g.states, g.operations, g.start, g.looms, g.seats, a, b, area.first, area.length, group));
    say_numbers(group, 41);
    say_words(area);
}

/* What a step says, as the calls have it: nothing, an application or an answer; the answer's side and number; the step count. */
static void say_said(const u64 out[4]) {
    u64 mark = out[0], applied = out[1], piece = out[2], steps = out[3];
    say(mark != 0 ? 2 : applied);
    say(mark == 2);
    say(piece);
    say(steps);
}

static void step(void) {
    struct bytes table = bytes();
    u64 states = number(), operations = number(), loom = number(), group[41], out[4] = {0};
    numbers(group, 41);
    say(linuktabay_step(table.first, table.length, states, operations, loom, group, out));
    say_said(out);
    say_numbers(group, 41);
}

/* Where the numbers of a group stand. */
enum { COUNT, CELL, REGISTER_A, REGISTER_B, NUMBER_A, NUMBER_B, START, SET_A, SET_B, SLOTS };

/* The numbers of a loom and of what it steps on and goes by, out of its group's; 0 where there is no such loom. */
static int own_of(const u64 group[41], u64 loom, u64 own[12]) {
    u64 count = group[COUNT];
    if (count > 8 || loom >= count) return 0;
    const u64 *slot = group + SLOTS + 4 * loom;
    u64 leading = linuktabay_has(group[SET_B], group[START]), of_yielding = 0;
    for (u64 k = 0; k < count; k++) of_yielding += group[SLOTS + 4 * k] != leading;
    own[0] = group[START];
    own[1] = leading;
    own[2] = leading ? group[SET_B] : group[SET_A];
    own[3] = of_yielding == 1;
    own[4] = slot[0] ? group[NUMBER_B] : group[NUMBER_A];
    for (int i = 0; i < 3; i++) own[5 + i] = group[CELL + i];
    for (int i = 0; i < 4; i++) own[8 + i] = slot[i];
    return 1;
}

/* A step of a group whose memory is lent: as `step`, through the record. */
static void step_lent(void) {
    struct bytes table = bytes();
    u64 states = number(), operations = number(), loom = number(), group[41], own[12], out[4] = {0};
    numbers(group, 41);
    u8 code = own_of(group, loom, own) ? linuktabay_step_lent(table.first, table.length, states, operations, own, out) : 30;
    for (int i = 0; i < 3 && code != 30; i++) group[CELL + i] = own[5 + i];
    for (int i = 0; i < 4 && code != 30; i++) group[SLOTS + 4 * loom + i] = own[8 + i];
    if (code != 0) out[3] = 0;
    say(code);
    say_said(out);
    say_numbers(group, 41);
}

static void restart(u8 function) {
    u64 loom = function == 32 ? number() : 0, group[41];
    numbers(group, 41);
    say(function == 32 ? linuktabay_restart(loom, group) : linuktabay_restart_all(group));
    say_numbers(group, 41);
}

static void run(void) {
    struct given g = given();
    u32 a = number(), b = number();
    struct bytes schedule = bytes(), marks = bytes();
    struct words area = words();
    u64 group[41] = {0}, out[6] = {0};
    linuktabay_run(g.table.first, g.table.length, g.states, g.operations, g.start, g.looms, g.seats, a, b, schedule.first, schedule.length, marks.first,
                   marks.length, area.first, area.length, group, out);
    say_numbers(out, 6);
    say_numbers(group, 41);
    say_bytes(marks);
    say_words(area);
}

static void read_order(void) {
    struct bytes file = bytes(), table = bytes(), schedule = bytes();
    u64 out[30] = {0};
    linuktabay_read(file.first, file.length, table.first, table.length, schedule.first, schedule.length, out);
    say_numbers(out, 30);
    say_bytes(table);
    say_bytes(schedule);
}

/* An order read field by field through the library's reader: what it hands out is judged here. */
struct through {
    struct bytes file;
    u64 at, code, place;
};

static u64 refuse(struct through *r, u64 code, u64 place) {
    if (r->code == 0) r->code = code, r->place = place;
    return 0;
}

/* The next word, if it is from low to high; else a refusal, after which nothing is read. */
static u64 word(struct through *r, u64 code, u64 low, u64 high) {
    u64 said[6];
    if (r->code != 0) return 0;
    linuktabay_reading(r->file.first, r->file.length, r->at, 4, said);
    if (said[0] != 0) return refuse(r, said[0], said[1]);
    if (said[1] < low || said[1] > high) return refuse(r, code, r->at);
    r->at = said[4];
    return said[1];
}

/* A label: its length, then its bytes with padding; the place of its bytes and its length. */
static void opaque(struct through *r, u64 label[2]) {
    u64 length = word(r, 11, 0, 32), said[6];
    if (r->code != 0) return;
    linuktabay_reading(r->file.first, r->file.length, r->at, length, said);
    if (said[2] != 0) return (void)refuse(r, said[2], said[3]);
    for (u64 i = 0; i < length; i++)
        if (r->file.first[r->at + i] < 32 || r->file.first[r->at + i] > 126) return (void)refuse(r, 11, r->at);
    label[0] = r->at;
    label[1] = length;
    r->at = said[4];
}

static int is_act(u64 act, u64 looms) { return act < looms || (act >= 16 && act < 16 + looms) || act == 32; }

static void looms_through(struct through *r, u64 out[30]) {
    u64 place = r->at, sides[2] = {0};
    u64 looms = out[6] = word(r, 7, 2, 8);
    for (u64 k = 0; k < looms && r->code == 0; k++) {
        out[7 + 2 * k] = word(r, 8, 0, 1);
        out[8 + 2 * k] = word(r, 8, 0, out[3] - 1);
        if (r->code == 0) sides[out[7 + 2 * k]]++;
    }
    if (r->code == 0 && (sides[0] == 0 || sides[1] == 0)) refuse(r, 9, place);
}

static void fields_through(struct through *r, u8 *table, u8 *schedule, u64 out[30]) {
    out[2] = word(r, 2, 1, 64);
    out[3] = word(r, 3, 1, 16);
    out[4] = word(r, 4, out[2] * out[3], out[2] * out[3]);
    for (u64 i = 0; i < out[4] && r->code == 0; i++) table[i] = word(r, 5, 0, out[2] - 1);
    out[5] = r->code == 0 ? word(r, 6, 0, out[2] - 1) : 0;
    if (r->code == 0) looms_through(r, out);
    out[23] = word(r, 10, 1, 0xffffffff);
    out[24] = word(r, 10, 1, 0xffffffff);
    opaque(r, out + 25);
    opaque(r, out + 27);
    out[29] = word(r, 12, 0, 4096);
    for (u64 i = 0; i < out[29] && r->code == 0; i++) {
        u64 place = r->at, act = word(r, 13, 0, 0xffffffff);
        if (r->code == 0 && !is_act(act, out[6])) refuse(r, 13, place);
        schedule[i] = act;
    }
    if (r->code == 0 && r->at < r->file.length) refuse(r, 14, r->at);
}

static void read_through(void) {
    static u8 read_table[1024], read_schedule[4096];
    struct bytes file = bytes(), table = bytes(), schedule = bytes();
    struct through r = {file, 0, 0, 0};
    u64 out[30] = {0}, refused[30] = {0};
    if (table.length < 1024 || schedule.length < 4096) refuse(&r, 40, 0);
    fields_through(&r, read_table, read_schedule, out);
    refused[0] = r.code;
    refused[1] = r.place;
    if (r.code == 0) {
        memcpy(table.first, read_table, out[4]);
        memcpy(schedule.first, read_schedule, out[29]);
    }
    say_numbers(r.code == 0 ? out : refused, 30);
    say_bytes(table);
    say_bytes(schedule);
}

/* The part lies at the beginning of its side's label, of A's for no side: the library's contract says so. */
static void label(void) {
    struct bytes a = bytes(), b = bytes();
    u64 side = number();
    say(side == 1);
    say(0);
    say(linuktabay_label(a.first, a.length, b.first, b.length, side));
}

static void answer_call(void) {
    u8 function = *taken(1);
    switch (function) {
    case 0: return say(1);
    case 1: case 2: case 3: case 4: case 5: case 6: return of_sets(function);
    case 10: return catalogue();
    case 11: return next();
    case 12: return form();
    case 20: return check();
    case 30: return open_group();
    case 31: return step();
    case 32: case 33: return restart(function);
    case 34: return step_lent();
    case 40: return run();
    case 50: return read_order();
    case 51: return read_through();
    case 60: return label();
    default: STOP("driver: no such function");
    }
}

static int filled(void *room, u32 length) {
    for (u32 got = 0; got < length;) {
        long n = read(0, (u8 *)room + got, length - got);
        if (n <= 0) return 0;
        got += n;
    }
    return 1;
}

static void written(const void *from, u32 length) {
    for (u32 done = 0; done < length;) {
        long n = write(1, (const u8 *)from + done, length - done);
        if (n <= 0) STOP("driver: nobody reads the answers");
        done += n;
    }
}

int main(void) {
    while (filled(&called, 4)) {
        if (called > ROOM || !filled(call, called)) STOP("driver: a frame ends too soon");
        at = 0;
        answered = 4;
        answer_call();
        u32 length = answered - 4;
        memcpy(answer, &length, 4);
        written(answer, answered);
    }
    return 0;
}
