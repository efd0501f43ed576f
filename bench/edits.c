/* Writes an image with made resources by pe_c_edit, without room and then with it: edits KIND N
 *
 * N bytes of contents, or N leaves. It prints the length of the file; all is made where N is 0, and nothing written. */
#include "pe.h"

#include <stdio.h>
#include <stdlib.h>
#include <string.h>

enum { SIZE = 0x600, LONG = 120, LONGEST = 65535 };

static uint8_t image[SIZE];

static void put(size_t at, uint32_t value, size_t bytes)
{
    for (size_t k = 0; k < bytes; k++)
        image[at + k] = (uint8_t)(value >> 8 * k);
}

/* An image of x64 with one section, of resources, at 0x400 in the file. */
static void make_image(void)
{
    memcpy(image, "MZ", 2);
    put(60, 64, 4);
    memcpy(image + 64, "PE", 2);
    put(68, 0x8664, 2);
    put(70, 1, 2);
    put(84, 240, 2);
    put(86, 0x22, 2);
    put(88, 0x20B, 2);
    put(88 + 32, 0x1000, 4);
    put(88 + 36, 0x200, 4);
    put(88 + 56, 0x2000, 4);
    put(88 + 60, 0x400, 4);
    put(88 + 108, 16, 4);
    put(88 + 128, 0x1000, 4);
    put(88 + 132, 16, 4);
    memcpy(image + 328, ".rsrc", 5);
    put(336, 0x200, 4);
    put(340, 0x1000, 4);
    put(344, 0x200, 4);
    put(348, 0x400, 4);
}

/* A name of so many code units, of which the last is a number: names are in the order of these. */
static void put_name(uint8_t *data, size_t units, uint32_t k)
{
    for (size_t u = 0; u < units; u++)
        data[2 * u] = 'A';
    data[2 * units - 2] = (uint8_t)(k & 255);
    data[2 * units - 1] = (uint8_t)(k >> 8 & 255);
}

int main(int argc, char **argv)
{
    if (argc != 3)
        return 2;
    const char *kind = argv[1];
    const size_t n = strtoul(argv[2], NULL, 10), is_contents = strcmp(kind, "contents") == 0;
    const size_t is_long = strcmp(kind, "long") == 0, is_shared = strcmp(kind, "shared") == 0;
    const size_t count = is_contents ? (n > 0) : n;
    const size_t data_length = is_contents ? n : is_long ? 2 * LONG * n : 2 * LONGEST;
    uint8_t *data = calloc(data_length + 1, 1);
    pe_c_resource *records = calloc(count + 1, sizeof *records);
    pe_c_image_info info = PE_C_EMPTY;
    make_image();
    if (data == NULL || records == NULL || pe_c_image(image, SIZE, PE_C_STRICT, &info) != PE_C_DONE)
        return 1;
    if (is_shared)
        put_name(data, LONGEST, 1);
    for (uint32_t k = 0; k < count; k++) {
        pe_c_resource *record = &records[k];
        record->resource_type.id = strcmp(kind, "types") == 0 ? k : 10;
        record->name.id = strcmp(kind, "names") == 0 ? k : 1;
        record->language = strcmp(kind, "languages") == 0 || is_shared ? k : 0;
        record->content.length = is_contents ? n : 8;
        if (is_long || is_shared) {
            record->name.has_name = 1;
            record->name.name.offset = is_long ? 2 * LONG * (uint64_t)k : 0;
            record->name.name.length = is_long ? 2 * LONG : 2 * LONGEST;
            if (is_long)
                put_name(data + record->name.name.offset, LONG, k + 1);
        }
    }
    uint64_t length = 0, written = 0;
    if (n == 0)
        return 0;
    const pe_c_view view = {image, SIZE, &info, NULL, 0, NULL, 0};
    uint32_t result = pe_c_edit(&view, records, count, data, data_length, NULL, 0, &length);
    uint8_t *room = result == PE_C_ROOM ? malloc(length) : NULL;
    if (room != NULL)
        result = pe_c_edit(&view, records, count, data, data_length, room, length, &written);
    printf("result %u length %llu\n", result, (unsigned long long)written);
    return result != PE_C_DONE;
}
