/* minidump_stack: the frames of a thread on x64 by memory in pieces, as a minidump lists it, in one image.
 *
 *     minidump_stack FILE BASE RIP RSP MEMORY START:OFFSET:LENGTH ..
 *
 * FILE is the image, loaded at BASE. MEMORY has the bytes of all pieces, each LENGTH of them from OFFSET on, which are those
 * from the address START on. Numbers are hexadecimal. */
#include "pe.h"
#include "example.h"

#include <inttypes.h>
#include <stdio.h>
#include <stdlib.h>
#include <string.h>

enum { MOST_PIECES = 1 << 16, MOST_FRAMES = 1000 };

static uint8_t memory[1 << 26];
static size_t memory_length, piece_count;
static pe_c_memory_piece pieces[MOST_PIECES];

/* Why a walk is over, by PE_C_END_*. */
static const char *const ends[] = {"bound", "bottom", "no module", "no function", "records", "long chain", "step",
                                   "zero", "no return address"};

static const char *const words = "minidump_stack FILE BASE RIP RSP MEMORY START:OFFSET:LENGTH ..";

static pe_c_memory_piece piece_of(char *text)
{
    char *offset = strchr(text, ':'), *length = offset == NULL ? NULL : strchr(offset + 1, ':');
    if (length == NULL)
        exit(usage(words));
    *offset++ = *length++ = 0;
    pe_c_memory_piece piece = {hexadecimal(text, UINT64_MAX), hexadecimal(offset, UINT64_MAX), hexadecimal(length, UINT64_MAX)};
    return piece;
}

int main(int argc, char **argv)
{
    if (argc < 6 || argc - 6 > MOST_PIECES)
        return usage(words);
    memory_length = read_file(argv[5], memory, sizeof memory);
    for (int i = 6; i < argc; i++)
        pieces[piece_count++] = piece_of(argv[i]);
    pe_c_module module = PE_C_EMPTY;
    module.base = hexadecimal(argv[2], UINT64_MAX);
    uint32_t result = read_image(argv[1], PE_C_PERMISSIVE, &module.image);
    if (result == PE_C_DONE && !is_for(&module.image, 0x8664))
        return 1;
    if (result == PE_C_DONE)
        result = pe_c_function_table(&module.image, &module.table);
    if (result != PE_C_DONE && result != PE_C_NOTHING)
        return status_of(result);
    pe_c_stack_walk walk = PE_C_EMPTY;
    walk.registers.rip = hexadecimal(argv[3], UINT64_MAX);
    walk.registers.general[4] = hexadecimal(argv[4], UINT64_MAX);
    walk.remaining = MOST_FRAMES;
    while ((result = pe_c_next_frame(&module, 1, memory, memory_length, pieces, piece_count, &walk)) == PE_C_DONE)
        printf("%" PRIx64 "\n", walk.registers.rip);
    if (result == PE_C_NOTHING)
        puts(ends[walk.end]);
    return status_of(result);
}
