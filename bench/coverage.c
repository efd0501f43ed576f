/* What clang's coverage calls in the program of bench/coverage: it notes which edges were reached, and writes them to the file that the
   variable COVERAGE names: of each its address in the program, 1 for the first of a function, and 1 if it was reached. */

#include <stdint.h>
#include <stdio.h>
#include <stdlib.h>

static const uint8_t *flags;
static const uintptr_t *table;
static size_t count;
extern const char __ehdr_start[];

void __sanitizer_cov_bool_flag_init(const uint8_t *start, const uint8_t *end)
{
    flags = start;
    count = (size_t)(end - start);
}

void __sanitizer_cov_pcs_init(const uintptr_t *start, const uintptr_t *end)
{
    table = start;
    if ((size_t)(end - start) != 2 * count)
        abort();
}

__attribute__((destructor)) static void write_edges(void)
{
    const char *name = getenv("COVERAGE");
    FILE *out = name ? fopen(name, "w") : NULL;
    for (size_t i = 0; out && i < count; i++)
        fprintf(out, "%zx %d %d\n", (size_t)(table[2 * i] - (uintptr_t)__ehdr_start), (int)(table[2 * i + 1] & 1), flags[i] != 0);
    if (out)
        fclose(out);
}
