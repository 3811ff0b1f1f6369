/* Loads a start list, takes a late rider in, and lists who started.
   cc examples/start_list.c target/staticlib/libreadstore.a -o start_list (scripts/archive makes the archive) */
#include <inttypes.h>
#include <stdio.h>
#include "../include/readstore.h"

static int refused(const char *what, const uint64_t a[8]) {
    if (a[0]) fprintf(stderr, "%s: refused %" PRIu64 " at %" PRIu64 "\n", what, a[0], a[1]);
    return a[0] != 0;
}

int main(void) {
    /* a rider every 30 s, times in microseconds; room for 64 reads, 16 segments and buffers of 4 slots */
    uint64_t keys[64] = {36000012000, 36030004000, 36060021000, 36090010000, 36120008000, 36150015000};
    uint64_t table[5 * 16] = {0}, buffers[4 * 16] = {0}, list[64], a[8], e = 1, b = 4, n = 6, s;
    readstore_build(keys, 64, table, 80, buffers, 64, e, b, n, a);
    if (refused("build", a)) return 1;
    s = a[3];
    /* the fourth rider of the second wave tied a shoe: his read turns up between two others */
    readstore_insert(keys, 64, table, 80, buffers, 64, e, b, n, s, 36107400000, a);
    if (refused("insert", a)) return 1;
    if (a[2] == 2) n = a[5], s = a[6]; /* the segment was merged */
    readstore_range(keys, 64, table, 80, buffers, 64, e, b, n, s, 36000000000, 36200000000, list, 64, a);
    if (refused("range", a)) return 1;
    printf("%" PRIu64 " started:\n", a[3]);
    for (uint64_t i = 0; i < a[3]; i++) printf("  %" PRIu64 ".%06" PRIu64 " s\n", list[i] / 1000000, list[i] % 1000000);
    return 0;
}
