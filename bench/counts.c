/* What bench/fuzz links to the fuzz loop: each call of the library goes through a function of its own here, which counts it by what it
   returned. At the end the counts are written to the file that the variable COUNTS names. bench/fuzz writes calls.h, a line a call. */

#include <inttypes.h>
#include <stdio.h>
#include <stdlib.h>

/* A call's function takes the address that the call returns to off the stack, so that arguments there stand where the call looks for them. */
#define CALL(number, name) \
    __asm__(".globl __wrap_" #name "\n__wrap_" #name ":\n popq fuzz_back(%rip)\n call __real_" #name "\n" \
            " pushq fuzz_back(%rip)\n movq %rax, %rdi\n movl $" #number ", %esi\n jmp fuzz_count\n");
#include "calls.h"
#undef CALL
#define CALL(number, name) #name,
static const char *const names[] = {
#include "calls.h"
};

/* Of each call what it returned: a result, or any higher number. */
enum { CALLS = sizeof names / sizeof *names, HIGHER = 1023 };
static uint64_t counts[CALLS][HIGHER + 1];
uint64_t fuzz_back;

uint64_t fuzz_count(uint64_t result, uint32_t number)
{
    uint32_t shown = (uint32_t)result;
    counts[number][shown < HIGHER ? shown : HIGHER]++;
    return result;
}

__attribute__((destructor)) static void write_counts(void)
{
    const char *name = getenv("COUNTS");
    FILE *out = name ? fopen(name, "w") : NULL;
    for (int i = 0; out && i < CALLS * (HIGHER + 1); i++)
        if (counts[i / (HIGHER + 1)][i % (HIGHER + 1)])
            fprintf(out, "%s %d %" PRIu64 "\n", names[i / (HIGHER + 1)], i % (HIGHER + 1), counts[i / (HIGHER + 1)][i % (HIGHER + 1)]);
    if (out && fclose(out))
        abort();
}
