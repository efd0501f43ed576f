#include "checked_call.h"
#include <stdio.h>
#include <stdlib.h>

/* Of registers.S. The result has a bit for each register that the call changed. */
uint32_t call_with_known_registers(void (*call)(void), size_t count, const uint64_t *words, uint64_t *result);
void changes_nothing(void);
void changes_rsi(void);
void changes_r15(void);
void changes_xmm6(void);
void changes_high_xmm15(void);

uint64_t checked_call(void (*call)(void), size_t count, const uint64_t *words, const char *name)
{
    uint64_t result = 0;
    if (count > MOST_WORDS) {
        fprintf(stderr, "%s has more arguments than registers.S passes\n", name);
        exit(5);
    }
    uint32_t changed = call_with_known_registers(call, count, words, &result);
    if (changed) {
        fprintf(stderr, "%s changes registers: bits 0x%x of registers.S\n", name, (unsigned)changed);
        exit(5);
    }
    return result;
}

static uint32_t changed_by(void (*call)(void))
{
    const uint64_t words[4] = {0};
    uint64_t result = 0;
    return call_with_known_registers(call, 0, words, &result);
}

int try_checked_call(void)
{
    int is_right = changed_by(changes_nothing) == 0 && changed_by(changes_rsi) == 1u << 2
        && changed_by(changes_r15) == 1u << 7 && changed_by(changes_xmm6) == 1u << 8
        && changed_by(changes_high_xmm15) == 1u << 17;
    if (!is_right)
        fprintf(stderr, "registers.S does not see which registers a call changes\n");
    return !is_right;
}
