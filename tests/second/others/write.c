/* Writes orders by the routines that rpcgen makes from order.x: `write DIR` gives DIR/worked.order, document 01's of 152 bytes, and
 * DIR/size-N.order for each catalogue cell, with a schedule of up to 4,096 entries. */
#include "order.h"
#include <stdio.h>
#include <stdlib.h>
#include <string.h>

enum { ROOM = 32768 };

static u_int table[32], schedule[4096];
static seat looms[8];

/* State r is (A, r) and state n + r is (B, r). */
static void catalogue(u_int n) {
    u_int *zero = table, *one = table + 2 * n;
    for (u_int r = 0; r < n; r++) {
        zero[r] = n;
        zero[n + r] = r == 0 ? 0 : n + r;
        one[r] = r + 1 < n ? r + 1 : n;
        one[n + r] = r + 1 < n ? n + r + 1 : n;
        looms[r] = (seat){r != 0, r != 0};
    }
}

static order sized(u_int n, char *label_a, char *label_b, u_int entries) {
    order o = {.states = 2 * n, .operations = 2, .start = n, .number_a = 501, .number_b = 733};
    catalogue(n);
    o.table.table_len = 4 * n, o.table.table_val = table;
    o.looms.looms_len = n, o.looms.looms_val = looms;
    o.label_a.label_a_len = strlen(label_a), o.label_a.label_a_val = label_a;
    o.label_b.label_b_len = strlen(label_b), o.label_b.label_b_val = label_b;
    o.schedule.schedule_len = entries, o.schedule.schedule_val = schedule;
    return o;
}

static void save(const char *directory, const char *name, order *o) {
    static char room[ROOM], path[4096];
    XDR xdr;
    xdrmem_create(&xdr, room, ROOM, XDR_ENCODE);
    snprintf(path, sizeof path, "%s/%s.order", directory, name);
    FILE *file = fopen(path, "wb");
    if (!file || !xdr_order(&xdr, o) || fwrite(room, xdr_getpos(&xdr), 1, file) != 1 || fclose(file)) {
        fprintf(stderr, "%s isn't written\n", path);
        exit(1);
    }
}

int main(int words, char **word) {
    static const u_int worked[13] = {1, 1, 1, 0, 0, 1, 17, 0, 0, 0, 1, 1, 1};
    if (words != 2) return 2;
    memcpy(schedule, worked, sizeof worked);
    order o = sized(2, "W501", "W733 ", 13);
    save(word[1], "worked", &o);
    for (u_int n = 2; n <= 8; n++) {
        char name[16];
        u_int entries = 4096 >> (2 * (8 - n));
        for (u_int k = 0; k < entries; k++) schedule[k] = k % 97 == 96 ? 32 : k % 11 == 10 ? 16 + k % n : k * k % n;
        o = sized(n, "a label of thirty-two bytes: abc", "b  ", entries);
        snprintf(name, sizeof name, "size-%u", n);
        save(word[1], name, &o);
    }
    return 0;
}
