/* rename_section: writes an image in which a section has another name: the whole file, and its section headers over it.
 *
 *     rename_section FILE OLD NEW OUT    names of 8 bytes at most; OUT must not exist */
#include "pe.h"
#include "example.h"

#include <stdio.h>
#include <string.h>

enum { SIZE_OF_NAME = 8 };    /* zeros follow a shorter name */

static uint8_t file[1 << 26], written[1 << 27];
static pe_c_section sections[MOST_SECTIONS];

/* The first of so many sections that has this name; NULL if there is none. */
static pe_c_section *section_named(const char *name, size_t count)
{
    for (size_t i = 0; i < count; i++)
        if (strncmp((const char *)sections[i].name, name, SIZE_OF_NAME) == 0)
            return &sections[i];
    return NULL;
}

int main(int argc, char **argv)
{
    if (argc != 5 || strlen(argv[2]) > SIZE_OF_NAME || strlen(argv[3]) > SIZE_OF_NAME)
        return usage("rename_section FILE OLD NEW OUT, names of 8 bytes at most");
    size_t length = read_file(argv[1], file, sizeof file);
    pe_c_image_info image = PE_C_EMPTY;
    uint64_t needed = 0, end = 0;
    uint32_t result = pe_c_image(file, length, PE_C_PERMISSIVE, &image);
    if (result == PE_C_DONE)
        result = pe_c_sections(file, length, &image, sections, MOST_SECTIONS);
    if (result != PE_C_DONE)
        return status_of(result);
    pe_c_section *section = section_named(argv[2], image.number_of_sections);
    if (section == NULL) {
        fprintf(stderr, "no section has this name\n");
        return 1;
    }
    memset(section->name, 0, SIZE_OF_NAME);
    memcpy(section->name, argv[3], strlen(argv[3]));
    pe_c_view view = {file, length, &image, sections, image.number_of_sections, NULL, 0};
    /* Without room the call says how long the file is. */
    result = pe_c_write_whole(&view, NULL, 0, &needed);
    if (result == PE_C_ROOM)
        result = pe_c_write_whole(&view, written, sizeof written, &end);
    return result == PE_C_DONE ? write_file(argv[4], written, (size_t)needed) : status_of(result);
}
