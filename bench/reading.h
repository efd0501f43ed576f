/* How indexes.c and together.c read an image. */
#ifndef READING_H
#define READING_H

#include "pe.h"

#include <stdio.h>
#include <stdlib.h>

/* The bytes of a file, or NULL. */
static uint8_t *read_all(const char *name, size_t *length)
{
    FILE *file = fopen(name, "rb");
    if (file == NULL || fseek(file, 0, SEEK_END) != 0)
        return NULL;
    *length = (size_t)ftell(file);
    rewind(file);
    uint8_t *bytes = malloc(*length + 1);
    if (bytes != NULL && fread(bytes, 1, *length, file) != *length)
        return NULL;
    fclose(file);
    return bytes;
}

/* Makes the view of the image in these bytes, with the section headers. Returns whether they are one. */
static int read_view(const uint8_t *bytes, pe_c_image_info *image, pe_c_view *view)
{
    if (pe_c_image(bytes, view->length, PE_C_PERMISSIVE, image) != PE_C_DONE)
        return 0;
    pe_c_section *sections = calloc(image->number_of_sections, sizeof *sections);
    if (sections == NULL || pe_c_sections(bytes, view->length, image, sections, image->number_of_sections) != PE_C_DONE)
        return 0;
    const pe_c_view made = {bytes, view->length, image, sections, image->number_of_sections, NULL, 0};
    *view = made;
    return 1;
}

#endif
