/* symbols: the sections of a COFF object, a line each with name and bytes, and its symbols, with name, section and value.
 *
 *     symbols FILE */
#include "pe.h"
#include "example.h"

#include <inttypes.h>
#include <stdio.h>

enum { MOST_SECTIONS_OF_OBJECTS = 65535 };

static uint8_t file[1 << 26];
static size_t length;
static pe_c_section sections[MOST_SECTIONS_OF_OBJECTS];

/* A name that is longer than 8 bytes stands in the string table, and its header leads there. */
static uint32_t show_section(const pe_c_range *strings, const pe_c_section *section)
{
    const pe_c_range own = {0, sizeof section->name};
    pe_c_range name = PE_C_EMPTY;
    uint32_t result = pe_c_long_section_name(file, length, strings, section, &name);
    if (result != PE_C_DONE && result != PE_C_NOTHING)
        return result;
    printf("section ");
    if (result == PE_C_DONE)
        show_name(file, &name);
    else
        show_name(section->name, &own);
    printf(" %" PRIu32 "\n", section->size_of_raw_data);
    return PE_C_DONE;
}

/* The sections that symbols are in count from 1 on; 0 is undefined, -1 an absolute value, -2 a symbol for debuggers. */
static uint32_t show_symbols(const pe_c_coff_header *coff, const pe_c_range *strings)
{
    pe_c_symbol_walk walk = PE_C_EMPTY;
    pe_c_symbol_entry symbol = PE_C_EMPTY;
    pe_c_range name = PE_C_EMPTY;
    uint32_t result = pe_c_coff_symbols(file, length, coff, &walk);
    while (result == PE_C_DONE) {
        result = pe_c_next_symbol(file, length, &walk, &symbol);
        if (result == PE_C_DONE)
            result = pe_c_symbol_name(file, length, &walk.table, strings, symbol.index, &name);
        if (result != PE_C_DONE)
            break;
        printf("symbol ");
        show_name(file, &name);
        printf(" %d %" PRIu32 "\n", symbol.section_number, symbol.value);
    }
    return result;
}

int main(int argc, char **argv)
{
    if (argc != 2)
        return usage("symbols FILE");
    length = read_file(argv[1], file, sizeof file);
    /* Any 20 bytes are the header of an object: those of an image too. */
    if (length >= 2 && file[0] == 'M' && file[1] == 'Z') {
        fprintf(stderr, "an image, and no object\n");
        return 1;
    }
    pe_c_coff_header coff = PE_C_EMPTY;
    pe_c_range strings = PE_C_EMPTY;
    uint32_t result = pe_c_coff(file, length, &coff);
    pe_c_image_info headers = PE_C_EMPTY;
    headers.sections_offset = 20u + coff.size_of_optional_header;
    headers.number_of_sections = coff.number_of_sections;
    if (result == PE_C_DONE)
        result = pe_c_sections(file, length, &headers, sections, MOST_SECTIONS_OF_OBJECTS);
    /* Without a string table the range stays empty, and no name is in it. */
    if (result == PE_C_DONE)
        result = pe_c_coff_strings(file, length, &coff, &strings);
    if (result == PE_C_NOTHING)
        result = PE_C_DONE;
    for (uint16_t i = 0; result == PE_C_DONE && i < coff.number_of_sections; i++)
        result = show_section(&strings, &sections[i]);
    if (result == PE_C_DONE)
        result = show_symbols(&coff, &strings);
    return status_of(result);
}
