/* Makes a call with known values in all registers that a function of Windows on x64 preserves, and ends the program
 * where one of them came back with another value. The arguments are 4 words or more, numbers and pointers as they are
 * passed on x64. */
#ifndef CHECKED_CALL_H
#define CHECKED_CALL_H
#include <stddef.h>
#include <stdint.h>

enum { MOST_WORDS = 16 };
uint64_t checked_call(void (*call)(void), size_t count, const uint64_t *words, const char *name);

/* Tries that functions which change a register are seen. Returns 0, or 1 where one is not. */
int try_checked_call(void);
#endif
