/* Unwinds a function with a number of chained records through C, a number of times: `steps KIND RECORDS CALLS`. Each record has
 * three codes: sub rsp,32; push rdi; push rbx. KIND is step, after the prolog; epilog, in the function's epilog; or leaf. */
#include <stdio.h>
#include <stdlib.h>
#include <string.h>
#include "pe.h"

static uint8_t bytes[0x6000];
static uint8_t stack[1 << 14];

static void put32(size_t at, uint32_t value) { memcpy(bytes + at, &value, 4); }

int main(int argc, char **argv)
{
    if (argc != 4)
        return 2;
    /* read here, so that no call pays for it */
    int is_leaf = !strcmp(argv[1], "leaf"), is_epilog = !strcmp(argv[1], "epilog");
    uint32_t records = (uint32_t)atoi(argv[2]);
    unsigned long calls = strtoul(argv[3], NULL, 10);
    pe_c_section sections[5];
    memset(sections, 0, sizeof sections);
    for (uint32_t i = 0; i < 5; i++) {
        sections[i].virtual_address = sections[i].pointer_to_raw_data = (i + 1) * 0x1000;
        sections[i].virtual_size = sections[i].size_of_raw_data = 0x1000;
    }
    pe_c_image_info image = {0};
    image.file_alignment = 0x200;
    image.mode = PE_C_STRICT;
    image.number_of_directories = 16;
    image.directories[3].virtual_address = 0x4000;
    image.directories[3].size = 12;
    image.machine = 0x8664;
    image.width = 64;
    image.number_of_sections = 5;
    put32(0x4000, 0x1000);
    put32(0x4004, 0x1100);
    put32(0x4008, 0x5000);
    static const uint8_t codes[] = {6, 0x32, 2, 0x70, 1, 0x30, 0, 0};
    for (uint32_t i = 0; i < records; i++) {
        size_t at = 0x5000 + 24 * i;
        int last = i + 1 == records;
        bytes[at] = last ? 1 : 0x21;
        bytes[at + 1] = 6;
        bytes[at + 2] = 3;
        memcpy(bytes + at + 4, codes, 8);
        if (!last) {
            put32(at + 12, 0x1000);
            put32(at + 16, 0x1100);
            put32(at + 20, (uint32_t)(0x5000 + 24 * (i + 1)));
        }
    }
    /* add rsp, 32; pop rdi; pop rbx; ret, as compilers write it. */
    static const uint8_t epilog[] = {0x48, 0x83, 0xC4, 32, 0x5F, 0x5B, 0xC3};
    memcpy(bytes + 0x1020, epilog, sizeof epilog);
    pe_c_frame frame = {0};
    uint64_t moved = 0;
    const pe_c_view view = {bytes, sizeof bytes, &image, sections, 5, NULL, 0};
    const pe_c_range table = {0x4000, 12};
    const pe_c_memory_piece piece = {0x20000, 0, sizeof stack};
    const uint8_t *code = is_epilog ? bytes + 0x1020 : NULL;
    size_t code_length = is_epilog ? 0xE0 : 0;
    for (unsigned long i = 0; i < calls; i++) {
        frame.registers.general[4] = 0x20000;
        frame.rva = 0x1020;
        frame.leaf = (uint32_t)is_leaf;
        frame.function.begin = 0x1000;
        frame.function.end = 0x1100;
        frame.function.unwind = 0x5000;
        uint32_t result = pe_c_step(&view, &table, code, code_length, stack, sizeof stack, &piece, 1, &frame);
        if (result != PE_C_DONE) {
            printf("refused %u\n", result);
            return 1;
        }
        moved += frame.registers.general[4] - 0x20000;
    }
    printf("%llu bytes\n", (unsigned long long)moved);
    return 0;
}
