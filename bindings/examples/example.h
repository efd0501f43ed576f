/* What the examples share: how they read a file, and how they end. */
#ifndef EXAMPLE_H
#define EXAMPLE_H

#include "pe.h"

#include <ctype.h>
#include <errno.h>
#include <stdint.h>
#include <stdio.h>
#include <stdlib.h>

/* Says how a program is called. Returns the status by which it ends then. */
static inline int usage(const char *text)
{
    fprintf(stderr, "usage: %s\n", text);
    return 2;
}

/* The hexadecimal number that a text is. One that is none, or is greater than `most`, ends the program with status 2: it would be taken
 * for 0, or for its last digits. */
static inline uint64_t hexadecimal(const char *text, uint64_t most)
{
    char *end = NULL;
    errno = 0;
    unsigned long long number = strtoull(text, &end, 16);
    if (!isxdigit((unsigned char)*text) || *end != 0 || errno != 0 || number > most) {
        fprintf(stderr, "%s: no hexadecimal number up to %llx\n", text, (unsigned long long)most);
        exit(2);
    }
    return number;
}

/* Writes the bytes of a file to `room`, and returns how many there are. A file that cannot be read, or has more than `size`
 * bytes, is named on standard error, and ends the program with status 2: a truncated image would be taken for another one. */
static size_t read_file(const char *name, uint8_t *room, size_t size)
{
    FILE *file = fopen(name, "rb");
    size_t length = file == NULL ? 0 : fread(room, 1, size, file);
    int is_longer = file != NULL && fgetc(file) != EOF;
    if (file == NULL || ferror(file)) {
        perror(name);
        exit(2);
    }
    fclose(file);
    if (is_longer) {
        fprintf(stderr, "%s: more than %zu bytes\n", name, size);
        exit(2);
    }
    return length;
}

/* Writes a new file of these bytes. Returns the status by which a program ends: 0, or 3 with the reason on standard error. */
static inline int write_file(const char *name, const uint8_t *bytes, size_t length)
{
    FILE *out = fopen(name, "wbx");
    int is_whole = out != NULL && fwrite(bytes, 1, length, out) == length;
    if (out == NULL || fclose(out) != 0 || !is_whole) {
        perror(name);
        return 3;
    }
    return 0;
}

enum { MOST_SECTIONS = 96 };    /* of the Windows loader */

/* Reads an image: its file, its headers and its section headers. The view is of these, and stays until the next call. */
static inline uint32_t read_image(const char *name, uint32_t mode, pe_c_view *out)
{
    static uint8_t bytes[1 << 26];
    static pe_c_image_info image;
    static pe_c_section sections[MOST_SECTIONS];
    size_t length = read_file(name, bytes, sizeof bytes);
    uint32_t result = pe_c_image(bytes, length, mode, &image);
    if (result == PE_C_DONE)
        result = pe_c_sections(bytes, length, &image, sections, MOST_SECTIONS);
    pe_c_view view = {bytes, length, &image, sections, image.number_of_sections, NULL, 0};
    *out = view;
    return result;
}

/* Whether an image is for a machine, IMAGE_FILE_MACHINE_* of winnt.h. Where it is not, standard error says so: the frames of a walk
 * would be wrong without an error. */
static inline int is_for(const pe_c_view *view, uint32_t machine)
{
    if (view->image->machine != machine)
        fprintf(stderr, "an image for the machine %x, and not %x\n", (unsigned)view->image->machine, (unsigned)machine);
    return view->image->machine == machine;
}

/* Shows the bytes of a range up to a zero. A name may hold anything, and is not to drive a terminal: a byte that is no printable
 * ASCII is shown as \xNN. */
static inline void show_name(const uint8_t *bytes, const pe_c_range *range)
{
    for (uint64_t i = 0; i < range->length && bytes[range->offset + i] != 0; i++) {
        unsigned byte = bytes[range->offset + i];
        if (byte >= ' ' && byte <= '~')
            putchar((int)byte);
        else
            printf("\\x%02X", byte);
    }
}

/* Returns the status by which a program ends after this result: 0, or 1 with the reason on standard error. */
static int status_of(uint32_t result)
{
    if (result == PE_C_DONE || result == PE_C_NOTHING || result == PE_C_MISSING)
        return 0;
    fflush(stdout);
    fprintf(stderr, "%s\n", pe_c_message(result));
    return 1;
}

#endif
