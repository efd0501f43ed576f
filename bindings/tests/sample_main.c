/* The sample of the README, sample.c, over an image at standard input. tools/bindings runs it. */
#include "pe.h"
#include <stdio.h>
uint32_t symbol_key(const uint8_t *bytes, size_t length, pe_c_section *room, size_t entries, pe_c_key *out);
int main(void)
{
    static uint8_t bytes[65536];
    static pe_c_section room[16];
    pe_c_key key = PE_C_EMPTY;
    uint32_t answer = symbol_key(bytes, fread(bytes, 1, sizeof bytes, stdin), room, 16, &key);
    return answer == PE_C_DONE && key.guid[0] == 0xF6 && key.age == 1 ? 0 : 1;
}
