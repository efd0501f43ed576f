/* hashes LIST: of each file whose path is a line of LIST a line `HASH NAME`, then of each call of pe.h a line
 * `call NAME MADE DONE`: how often all_calls.c made it, and how often it returned PE_C_DONE. */
#include <stdio.h>
#include <stdlib.h>
#include <string.h>
#include "all_calls.h"
#include "names.h"
#ifdef LENT
#include "pe_portable.h"
#endif

#ifdef PROLOGUE
int PROLOGUE(void);
#endif

static struct totals totals;

/* Reads a file into memory of its own, or ends the program. */
static uint8_t *file_of(const char *path, size_t *length)
{
    FILE *file = fopen(path, "rb");
    uint8_t *bytes = NULL;
    if (file && fseek(file, 0, SEEK_END) == 0) {
        *length = (size_t)ftell(file);
        bytes = malloc(*length + 1);
        rewind(file);
    }
    if (!bytes || fread(bytes, 1, *length, file) != *length) {
        fprintf(stderr, "cannot read %s\n", path);
        exit(3);
    }
    fclose(file);
    return bytes;
}

static void hash(const char *path)
{
    size_t length = 0;
    uint8_t *bytes = file_of(path, &length), *room = calloc(1, length + 64);
    const char *slash = strrchr(path, '/');
    if (!room)
        exit(3);
#ifdef LENT
    if (pe_portable_lend(bytes, length) != PE_C_DONE)
        exit(5);
#endif
    all_calls(bytes, length, room, length + 64, &totals);
#ifdef LENT
    pe_portable_end();
#endif
    printf("%016llx %s\n", (unsigned long long)totals.hash, slash ? slash + 1 : path);
    free(bytes);
    free(room);
}

int main(int count, char **words)
{
    char path[4096];
    FILE *list = count == 2 ? fopen(words[1], "rb") : NULL;
    if (!list)
        return 2;
#ifdef PROLOGUE
    if (PROLOGUE() != 0)
        return 4;
#endif
    while (fgets(path, sizeof path, list)) {
        path[strcspn(path, "\r\n")] = 0;
        hash(path);
    }
    fclose(list);
    for (uint64_t i = 0; i < totals.calls; i++)
        printf("call %s %llu %llu\n", names[i], (unsigned long long)totals.made[i], (unsigned long long)totals.done[i]);
    return 0;
}
