/* The read store's public calls. All numbers are uint64_t; each slice is a pointer and its length in elements; the answer goes to eight
   numbers that the caller lends:
     answer[0]  the refusal's number (below), 0 if the call was accepted
     answer[1]  the refusal's place, 0 unless stated
     answer[2]  a kind, where the call has several answers
     answer[3].. values; what a call does not use is 0
   The refusals: 1 e, B, n or s outside its limits, or a slice too short for them; 2 a key given is not below 2^44; 3 a key not above the one before;
   4 low above high; 5 the key is there already; 6 no room for the keys; 7 no room for the segments; 8 the out slice is too short; 9 the store is
   wrong, at this segment; 10 the image is malformed, at the record that starts at this byte.
   Every call ends on every input; a refusal changes nothing that was lent, but for the answer itself. */
#ifndef READSTORE_H
#define READSTORE_H
#include <stddef.h>
#include <stdint.h>
#ifdef __cplusplus
extern "C" {
#endif

/* Cuts the first n keys with the bound e and writes the entries from the table's start, five numbers each: first key, base, rise, run, held.
   answer[3]: s, the number of segments. Refusals: 1, then 2 or 3 at the lowest faulty position, 7. */
void readstore_build(const uint64_t *keys, size_t keys_len, uint64_t *table, size_t table_len, const uint64_t *buffers, size_t buffers_len,
                     uint64_t e, uint64_t b, uint64_t n, uint64_t answer[8]);

/* Whether the store keeps every rule. answer[2]: 1. Refusals: 1, 9 at the lowest segment that breaks a rule. */
void readstore_check(const uint64_t *keys, size_t keys_len, const uint64_t *table, size_t table_len, const uint64_t *buffers, size_t buffers_len,
                     uint64_t e, uint64_t b, uint64_t n, uint64_t s, uint64_t answer[8]);

/* Where k stands. answer[2]: 0 absent; 1 in a run, answer[3] its position; 2 in a buffer, answer[3] the segment, answer[4] the slot.
   Refusals: 1, 2, 9. */
void readstore_lookup(const uint64_t *keys, size_t keys_len, const uint64_t *table, size_t table_len, const uint64_t *buffers, size_t buffers_len,
                      uint64_t e, uint64_t b, uint64_t n, uint64_t s, uint64_t k, uint64_t answer[8]);

/* The reads from low to high, both ends among them, from the out slice's start; the rest of it is unchanged. answer[3]: how many.
   Refusals: 1, 2, 4, 9 at the lowest wrong segment of the stretch, 8. */
void readstore_range(const uint64_t *keys, size_t keys_len, const uint64_t *table, size_t table_len, const uint64_t *buffers, size_t buffers_len,
                     uint64_t e, uint64_t b, uint64_t n, uint64_t s, uint64_t low, uint64_t high, uint64_t *out, size_t out_len, uint64_t answer[8]);

/* Takes k in. answer[2]: 1 buffered, answer[3] the segment, answer[4] the slot; 2 merged, answer[3] the segment, answer[4] the number of segments
   that it was cut into, answer[5] the new n, answer[6] the new s. Refusals: 1, 2, 9, 5, 9, 6, 7. */
void readstore_insert(uint64_t *keys, size_t keys_len, uint64_t *table, size_t table_len, uint64_t *buffers, size_t buffers_len,
                      uint64_t e, uint64_t b, uint64_t n, uint64_t s, uint64_t k, uint64_t answer[8]);

/* The stored form, from the out slice's start; the rest of it is unchanged. answer[3]: its length in bytes. Refusals: 1, 9, 8. */
void readstore_image_write(const uint64_t *keys, size_t keys_len, const uint64_t *table, size_t table_len, const uint64_t *buffers, size_t buffers_len,
                           uint64_t e, uint64_t b, uint64_t n, uint64_t s, uint8_t *out, size_t out_len, uint64_t answer[8]);

/* A stored form read into the slices: exactly the used cells are set. answer[3]: e, answer[4]: B, answer[5]: n, answer[6]: s. It does not check the
   store rules; readstore_check does. Refusals: 10, 1, 10, 6, 7. */
void readstore_image_read(const uint8_t *image, size_t image_len, uint64_t *keys, size_t keys_len, uint64_t *table, size_t table_len,
                          uint64_t *buffers, size_t buffers_len, uint64_t answer[8]);

#ifdef __cplusplus
}
#endif
#endif
