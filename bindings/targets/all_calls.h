/* What all_calls.c hands out, to a program that reads files: hashes.c, or hashes.mjs over a WebAssembly module. */
#ifndef ALL_CALLS_H
#define ALL_CALLS_H
#include <stddef.h>
#include <stdint.h>

enum { MOST_CALLS = 252 };

struct totals {
    uint64_t hash;              /* of one file */
    uint64_t calls;             /* how many calls pe.h has */
    uint64_t made[MOST_CALLS];  /* how often each call was made, by its number, over all files so far */
    uint64_t done[MOST_CALLS];  /* how often it returned PE_C_DONE; for pe_c_text, a text */
};

/* `room` has length + 64 bytes or more, and `out` was zeros before the first file. */
void all_calls(const uint8_t *bytes, size_t length, uint8_t *room, size_t room_length, struct totals *out);
#endif
