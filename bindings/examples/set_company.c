#include "pe.h"

enum { VERSION = 16, MOST_RESOURCES = 4096 };   /* RT_VERSION; of this program */

/* Version information with the numbers of an image and one string in English. `texts` are UTF-16 code units, little-endian: the
 * name of the string, so many bytes, then its text with a final zero. */
uint32_t version_of(const pe_c_view *view, const uint8_t *texts, size_t name_length, size_t length, uint8_t *room,
                    size_t room_length, uint64_t *written)
{
    pe_c_version fixed = PE_C_EMPTY;
    uint32_t result = pe_c_fixed_version(view, &fixed);
    if (result != PE_C_DONE)
        return result;
    pe_c_version_string string = {{0, name_length}, {name_length, length - name_length}};
    pe_c_version_table table = {0, 1, {0x409, 1200}};
    return pe_c_write_version(&fixed, &table, 1, &string, 1, &table.language, 1, texts, length, room, room_length, written);
}

/* The image with other version information: what stands after its bytes, up to the end of the data. All other resources stay. */
uint32_t with_version(const pe_c_view *view, const uint8_t *data, size_t data_length, uint8_t *room, size_t room_length,
                      uint64_t *written)
{
    static pe_c_resource resources[MOST_RESOURCES];
    const pe_c_range version = {view->length, data_length - view->length};
    pe_c_leaf_walk walk = PE_C_EMPTY;
    pe_c_resource_leaf leaf = PE_C_EMPTY;
    size_t count = 0;
    uint32_t result = pe_c_resource_leaves(view, &walk.leaves);
    while (result == PE_C_DONE && (result = pe_c_next_resource_leaf(view, &walk, &leaf)) == PE_C_DONE) {
        if (count == MOST_RESOURCES)
            return PE_C_EDIT_TOO_MANY;
        int is_version = !leaf.resource_type.has_name && leaf.resource_type.id == VERSION;
        pe_c_resource resource = {leaf.resource_type, leaf.name, is_version ? version : leaf.content, leaf.language.id,
                                  leaf.code_page};
        resources[count++] = resource;
    }
    return result == PE_C_NOTHING ? pe_c_edit(view, resources, count, data, data_length, room, room_length, written) : result;
}

#include <stdio.h>
#include <string.h>

#include "example.h"

static uint8_t data[(1 << 26) + (1 << 16)], written[1 << 27];

/* Writes an image with the name of a company, in ASCII, as the one string of its version information:
 *     set_company FILE NAME OUT    OUT must not exist */
int main(int argc, char **argv)
{
    uint8_t texts[1 << 12] = {'C', 0, 'o', 0, 'm', 0, 'p', 0, 'a', 0, 'n', 0, 'y', 0, 'N', 0, 'a', 0, 'm', 0, 'e', 0};
    size_t name_length = 22, length = argc == 4 ? strlen(argv[2]) : sizeof texts;
    if (length > sizeof texts / 2 - name_length)
        return usage("set_company FILE NAME OUT");
    for (size_t i = 0; i < length; i++)
        texts[name_length + 2 * i] = (uint8_t)argv[2][i];
    pe_c_view view = PE_C_EMPTY;
    uint64_t version_length = 0, end = 0;
    uint32_t result = read_image(argv[1], PE_C_PERMISSIVE, &view);
    if (result == PE_C_DONE) {
        memcpy(data, view.bytes, view.length);
        result = version_of(&view, texts, name_length, name_length + 2 * length + 2, data + view.length, 1 << 16, &version_length);
    }
    if (result == PE_C_DONE)
        result = with_version(&view, data, view.length + (size_t)version_length, written, sizeof written, &end);
    if (result != PE_C_DONE) {
        status_of(result);
        fprintf(stderr, "%s is not changed\n", argv[1]);
        return 1;
    }
    return write_file(argv[3], written, (size_t)end);
}
