/* One public call, OPS times, on race-like keys: usage: calls CALL KIND N OPS [E [B]]. It prints a checksum.
   Instructions are counted outside, less those of OPS=0. */
#include <stdio.h>
#include <string.h>
#include "../include/readstore.h"
#include "workload.h"
enum { KEYS = 32768, SEGMENTS = 8192, SLOTS = 8192 * 64 };
static uint64_t keys[KEYS], table[5 * SEGMENTS], buffers[SLOTS], other[KEYS], out[KEYS];
static uint8_t image[10 + 7 * (KEYS + SLOTS) + 18 * SEGMENTS];
int main(int argc, char **argv) {
    if (argc < 5) return 2;
    const char *call = argv[1]; int kind = atoi(argv[2]); size_t n = atoi(argv[3]), ops = atoi(argv[4]);
    uint64_t e = argc > 5 ? atoi(argv[5]) : 16, b = argc > 6 ? atoi(argv[6]) : 32, a[8], sum = 0;
    n = wl_make(kind, 7, keys, n);
    size_t rest = 0;
    if (!strcmp(call, "insert")) { /* every second key is loaded, the others are taken in, in a shuffled order */
        size_t half = 0;
        for (size_t i = 0; i < n; i++) if (i % 2) other[rest++] = keys[i]; else keys[half++] = keys[i];
        n = half; wl_s = 12345;
        for (size_t i = rest; i > 1; i--) { size_t j = wl_b(i); uint64_t k = other[i - 1]; other[i - 1] = other[j]; other[j] = k; }
        if (ops > rest) ops = rest;
    }
    readstore_build(keys, KEYS, table, 5 * SEGMENTS, buffers, SLOTS, e, b, n, a);
    if (a[0]) { printf("refused %llu at %llu\n", (unsigned long long)a[0], (unsigned long long)a[1]); return 1; }
    uint64_t s = a[3];
    wl_s = 12345;
    if (!strcmp(call, "none")) for (size_t i = 0; i < ops; i++) { uint64_t q = keys[wl_b(n)]; sum += (wl_r() & 1) ? q : q + 1; }
    else if (!strcmp(call, "build")) for (size_t i = 0; i < ops; i++) { readstore_build(keys, KEYS, table, 5 * SEGMENTS, buffers, SLOTS, e, b, n, a); sum += a[3]; }
    else if (!strcmp(call, "check")) for (size_t i = 0; i < ops; i++) { readstore_check(keys, KEYS, table, 5 * SEGMENTS, buffers, SLOTS, e, b, n, s, a); sum += a[2]; }
    else if (!strcmp(call, "lookup")) for (size_t i = 0; i < ops; i++) {
        uint64_t q = keys[wl_b(n)]; q = (wl_r() & 1) ? q : q + 1;
        readstore_lookup(keys, KEYS, table, 5 * SEGMENTS, buffers, SLOTS, e, b, n, s, q, a); sum += a[2] != 0;
    }
    else if (!strcmp(call, "insert")) {
        for (size_t i = 0; i < ops; i++) {
            readstore_insert(keys, KEYS, table, 5 * SEGMENTS, buffers, SLOTS, e, b, n, s, other[i], a);
            sum += a[0] == 0;
            if (a[2] == 2) { n = a[5]; s = a[6]; }
        }
        fprintf(stderr, "n %zu s %llu\n", n, (unsigned long long)s);
    }
    else if (!strcmp(call, "range")) for (size_t i = 0; i < ops; i++) { readstore_range(keys, KEYS, table, 5 * SEGMENTS, buffers, SLOTS, e, b, n, s, keys[0], keys[n - 1], out, KEYS, a); sum += a[3]; }
    else if (!strcmp(call, "write")) for (size_t i = 0; i < ops; i++) { readstore_image_write(keys, KEYS, table, 5 * SEGMENTS, buffers, SLOTS, e, b, n, s, image, sizeof image, a); sum += a[3]; }
    else if (!strcmp(call, "read")) {
        readstore_image_write(keys, KEYS, table, 5 * SEGMENTS, buffers, SLOTS, e, b, n, s, image, sizeof image, a);
        size_t length = a[3];
        for (size_t i = 0; i < ops; i++) { readstore_image_read(image, length, keys, KEYS, table, 5 * SEGMENTS, buffers, SLOTS, a); sum += a[5]; }
    }
    else return 2;
    printf("%llu\n", (unsigned long long)sum);
    return 0;
}
