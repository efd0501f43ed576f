/* Walks a stack through C, a number of times: `walks CALLS FRAMES MODULES PIECES RECORDS WALKS`. CALLS is frames, one call for all
 * frames of a walk, or frame, a call for each. Each module is the same image of five sections with 1,000 functions, of which each
 * has RECORDS chained records of three codes: sub rsp,32; push rdi; push rbx. Each frame is in another module and function than
 * the one before it. The memory is in so many pieces, of which the last has the stack and the others 8 bytes each. */
#include <stdio.h>
#include <stdlib.h>
#include <string.h>
#include "pe.h"

enum {
    FUNCTIONS = 1000, FUNCTION = 0x40, CODE = 0x1000, TABLE = 0x14000, RECORD = 0x18000, LENGTH = 0x1A000,
    FRAME = 56, MOST_FRAMES = 64
};

static uint8_t bytes[LENGTH];
static uint8_t stack[MOST_FRAMES * FRAME * 32];

static void put32(size_t at, uint32_t value) { memcpy(bytes + at, &value, 4); }
static void put64(uint8_t *at, uint64_t value) { memcpy(at, &value, 8); }

static void make_image(uint32_t records)
{
    static const uint8_t codes[] = {6, 0x32, 2, 0x70, 1, 0x30, 0, 0};
    for (uint32_t i = 0; i < FUNCTIONS; i++) {
        uint32_t begin = CODE + FUNCTION * i;
        put32(TABLE + 12 * i, begin);
        put32(TABLE + 12 * i + 4, begin + FUNCTION);
        put32(TABLE + 12 * i + 8, RECORD);
        bytes[begin + 0x1B] = 0xE8;
    }
    for (uint32_t i = 0; i < records; i++) {
        size_t at = RECORD + 24 * i;
        int last = i + 1 == records;
        bytes[at] = last ? 1 : 0x21;
        bytes[at + 1] = 6;
        bytes[at + 2] = 3;
        memcpy(bytes + at + 4, codes, 8);
        if (!last) {
            put32(at + 12, CODE);
            put32(at + 16, CODE + FUNCTION);
            put32(at + 20, (uint32_t)(RECORD + 24 * (i + 1)));
        }
    }
}

/* An address in a function of a module, after the call in it. */
static uint64_t address(uint32_t frame, uint32_t modules)
{
    uint64_t base = 0x10000000 + (uint64_t)(frame * 37 % modules) * 0x100000;
    return base + CODE + FUNCTION * (frame * 373 % FUNCTIONS) + 0x20;
}

int main(int argc, char **argv)
{
    if (argc != 7)
        return 2;
    int at_once = !strcmp(argv[1], "frames");
    uint32_t frames = (uint32_t)atoi(argv[2]), modules = (uint32_t)atoi(argv[3]);
    size_t pieces = (size_t)atol(argv[4]);
    uint32_t records = (uint32_t)atoi(argv[5]);
    unsigned long walks = strtoul(argv[6], NULL, 10);
    if (frames > MOST_FRAMES || records > 32)
        return 2;
    static pe_c_section sections[5];
    static const uint32_t starts[] = {CODE, 0x12000, 0x13000, TABLE, RECORD, LENGTH};
    for (int i = 0; i < 5; i++) {
        sections[i].virtual_address = sections[i].pointer_to_raw_data = starts[i];
        sections[i].virtual_size = sections[i].size_of_raw_data = starts[i + 1] - starts[i];
        sections[i].characteristics = i ? 0x40000040 : 0x60000020;
    }
    static pe_c_image_info image;
    image.file_alignment = 0x200;
    image.mode = PE_C_STRICT;
    image.number_of_directories = 16;
    image.directories[3].virtual_address = TABLE;
    image.directories[3].size = 12 * FUNCTIONS;
    image.machine = 0x8664;
    image.width = 64;
    image.number_of_sections = 5;
    image.size_of_image = LENGTH;
    make_image(records);
    pe_c_module *all = calloc(modules, sizeof *all);
    for (uint32_t i = 0; i < modules; i++) {
        all[i].image = (pe_c_view){bytes, LENGTH, &image, sections, 5, NULL, 0};
        all[i].table = (pe_c_range){TABLE, 12 * FUNCTIONS};
        all[i].base = 0x10000000 + (uint64_t)i * 0x100000;
    }
    /* rsp at the top frame, and above what each frame has the address after the call in the next. */
    size_t frame_size = 48 * records + 8;
    uint64_t start = 0x7F0000000000;
    for (uint32_t i = 0; i < frames; i++)
        put64(stack + frame_size * i + frame_size - 8, address(i + 1, modules));
    pe_c_memory_piece *list = calloc(pieces, sizeof *list);
    for (size_t i = 0; i < pieces; i++) {
        list[i].start = 0x7E0000000000 + 16 * i;
        list[i].length = 8;
    }
    list[pieces - 1] = (pe_c_memory_piece){start, 0, sizeof stack};
    static pe_c_stack_walk walk, found[MOST_FRAMES];
    uint64_t moved = 0;
    for (unsigned long i = 0; i < walks; i++) {
        uint64_t count = 0;
        memset(&walk, 0, sizeof walk);
        walk.registers.general[4] = start;
        walk.registers.rip = address(0, modules);
        walk.remaining = frames;
        if (at_once) {
            if (pe_c_next_frames(all, modules, stack, sizeof stack, list, pieces, &walk, found, frames, &count) != PE_C_DONE)
                return 1;
        } else {
            while (pe_c_next_frame(all, modules, stack, sizeof stack, list, pieces, &walk) == PE_C_DONE)
                count++;
        }
        if (count != frames || walk.end != PE_C_END_BOUND) {
            printf("%llu frames\n", (unsigned long long)count);
            return 1;
        }
        moved += walk.registers.general[4] - start;
    }
    printf("%llu bytes\n", (unsigned long long)moved);
    return 0;
}
