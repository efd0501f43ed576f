#include "pe.h"

/* The key by which a symbol server files the symbols of an image: GUID and age. */
uint32_t symbol_key(const uint8_t *bytes, size_t length, pe_c_section *room, size_t entries, pe_c_key *out)
{
    pe_c_image_info image = PE_C_EMPTY;
    uint32_t result = pe_c_image(bytes, length, PE_C_PERMISSIVE, &image);
    if (result == PE_C_DONE)
        result = pe_c_sections(bytes, length, &image, room, entries);
    /* What calls on an image take. NULL and 0 are for an index of the sections, which few images need. */
    pe_c_view view = {bytes, length, &image, room, image.number_of_sections, NULL, 0};
    return result == PE_C_DONE ? pe_c_symbol_key(&view, out) : result;
}
