/* What records cost that share their texts, contents or bytes of memory: shared KIND MIB
 *
 *     strings    strings of version information that share a name of 60,000 bytes
 *     tables     string tables that share all strings, of which there are as many
 *     pieces     pieces of memory that each overlap the one before, and as many ranges that are asked for
 *     contents   resources that share one content of a MiB
 *
 * The records have so many MiB. It prints what the calls return. */
#include "pe.h"

#include <stdio.h>
#include <stdlib.h>
#include <string.h>

enum { NAME = 60000, TEXT = 4, MIB = 1 << 20, IMAGE = 0x600 };

static void *room_of(size_t count, size_t size)
{
    void *room = calloc(count + 1, size);
    if (room == NULL)
        exit(2);
    return room;
}

/* pe_c_write_version, which has to refuse it: it would have many times 65,535 bytes. */
static uint32_t versions(size_t bytes, int is_tables)
{
    const size_t each = is_tables ? sizeof(pe_c_version_string) + sizeof(pe_c_version_table) : sizeof(pe_c_version_string);
    const size_t count = bytes / each, table_count = is_tables ? count : 1;
    pe_c_version_string *strings = room_of(count, sizeof *strings);
    pe_c_version_table *tables = room_of(table_count, sizeof *tables);
    uint8_t *texts = room_of(NAME + TEXT, 1);
    memset(texts, 'a', NAME);
    for (size_t k = 0; k < count; k++) {
        /* Strings of a table that is shared are short: 27 bytes each time. */
        strings[k].name.length = is_tables ? 2 : NAME;
        strings[k].text.offset = NAME;
        strings[k].text.length = TEXT;
    }
    for (size_t k = 0; k < table_count; k++)
        tables[k].count = (uint32_t)count;
    const pe_c_version fixed = PE_C_EMPTY;
    const pe_c_version_language english = {0x409, 1200};
    uint64_t written = 0;
    return pe_c_write_version(&fixed, tables, table_count, strings, count, &english, 1, texts, NAME + TEXT, NULL, 0, &written);
}

/* pe_c_memory_runs, and pe_c_memory_ranges over what it writes. */
static uint32_t pieces(size_t bytes)
{
    const size_t count = bytes / sizeof(pe_c_memory_piece);
    pe_c_memory_piece *listed = room_of(count, sizeof *listed), *runs = room_of(2 * count, sizeof *runs);
    pe_c_range_entry *entries = room_of(4 * count, sizeof *entries);
    pe_c_range *asked = room_of(count, sizeof *asked), *found = room_of(count, sizeof *found);
    uint8_t *memory = room_of(MIB, 1);
    uint64_t written = 0, answered = 0;
    for (size_t k = 0; k < count; k++) {
        /* Each starts before the one that is listed before it, and reaches far over it. */
        listed[k] = (pe_c_memory_piece){16 * (uint64_t)(count - k), k % 4096, MIB / 2};
        asked[k] = (pe_c_range){16 * (uint64_t)k, 4096};
    }
    uint32_t result = pe_c_memory_runs(listed, count, entries, 4 * count, runs, 2 * count, &written);
    if (result == PE_C_DONE)
        result = pe_c_memory_ranges(memory, MIB, runs, written, asked, count, found, count, &answered);
    return result == PE_C_DONE && answered == count ? PE_C_DONE : result + 1000;
}

static void put(uint8_t *image, size_t at, uint32_t value)
{
    for (size_t k = 0; k < 4; k++)
        image[at + k] = (uint8_t)(value >> 8 * k);
}

/* An image of x64 with one section, of resources. */
static uint8_t *made_image(void)
{
    uint8_t *image = room_of(IMAGE, 1);
    memcpy(image, "MZ", 2);
    put(image, 60, 64);
    memcpy(image + 64, "PE", 2);
    put(image, 68, 0x18664);
    put(image, 84, 0x2200F0);
    put(image, 88, 0x20B);
    put(image, 88 + 32, 0x1000);
    put(image, 88 + 36, 0x200);
    put(image, 88 + 56, 0x2000);
    put(image, 88 + 60, 0x400);
    put(image, 88 + 108, 16);
    put(image, 88 + 128, 0x1000);
    put(image, 88 + 132, 16);
    memcpy(image + 328, ".rsrc", 5);
    put(image, 336, 0x200);
    put(image, 340, 0x1000);
    put(image, 344, 0x200);
    put(image, 348, 0x400);
    return image;
}

/* pe_c_edit, which has to refuse them before it counts them. */
static uint32_t contents(size_t bytes)
{
    size_t count = bytes / sizeof(pe_c_resource);
    pe_c_resource *records = room_of(count, sizeof *records);
    uint8_t *image = made_image(), *data = room_of(MIB, 1);
    for (size_t k = 0; k < count; k++) {
        records[k].resource_type.id = (uint32_t)(k >> 16 & 0xFFFF);
        records[k].name.id = (uint32_t)(k & 0xFFFF);
        records[k].content.length = MIB;
    }
    pe_c_image_info info = PE_C_EMPTY;
    if (pe_c_image(image, IMAGE, PE_C_STRICT, &info) != PE_C_DONE)
        return 1000;
    const pe_c_view view = {image, IMAGE, &info, NULL, 0, NULL, 0};
    uint64_t written = 0;
    return pe_c_edit(&view, records, count, data, MIB, NULL, 0, &written);
}

int main(int argc, char **argv)
{
    if (argc != 3)
        return 2;
    const size_t bytes = strtoul(argv[2], NULL, 10) * MIB;
    uint32_t result = 1000;
    if (strcmp(argv[1], "strings") == 0 || strcmp(argv[1], "tables") == 0)
        result = versions(bytes, argv[1][0] == 't');
    else if (strcmp(argv[1], "pieces") == 0)
        result = pieces(bytes);
    else if (strcmp(argv[1], "contents") == 0)
        result = contents(bytes);
    printf("%u\n", result);
    return result >= 1000;
}
