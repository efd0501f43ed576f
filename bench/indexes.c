/* Reads an image with an index of its sections or without: indexes FILE index|none CALL MOST
 *
 * By the CALL `list` or `step` MOST of the exports that have a name are read, by pe_c_list_exports or pe_c_next_export; by `delayed`
 * or `together` as many of what is imported of the first delay-loaded DLL, by pe_c_next_delayed_function or
 * pe_c_list_delayed_functions; by `record` of the records of the first x64 function, by pe_c_next_record; by `tables` the
 * calls for seven directories are made MOST times, and by `offset` as many RVAs are mapped by pe_c_offset. How many there are is
 * printed. The text `index` makes the index alone where MOST is 0. */
#include "reading.h"

#include <stdio.h>
#include <stdlib.h>
#include <string.h>

enum { ENTRIES = 64 };

/* The exports of a view that have a name, MOST at most, several in a call. */
static uint64_t list_exports(const pe_c_view *view, uint64_t most)
{
    pe_c_export_walk walk = PE_C_EMPTY;
    if (pe_c_export_tables(view, &walk.exports) != PE_C_DONE)
        return 0;
    uint64_t count = 0, written = 1;
    while (count < most && written > 0) {
        pe_c_export entries[ENTRIES] = PE_C_EMPTY;
        const uint64_t left = most - count;
        written = 0;
        if (pe_c_list_exports(view, &walk, NULL, 0, entries, left < ENTRIES ? left : ENTRIES, &written) != PE_C_DONE)
            return 0;
        count += written;
    }
    return count;
}

/* The same, a step a call. */
static uint64_t step_exports(const pe_c_view *view, uint64_t most)
{
    pe_c_export_walk walk = PE_C_EMPTY;
    pe_c_export entry = PE_C_EMPTY;
    uint64_t count = 0;
    if (pe_c_export_tables(view, &walk.exports) == PE_C_DONE)
        while (count < most && pe_c_next_export(view, &walk, &entry) == PE_C_DONE)
            count++;
    return count;
}

/* Reads the first delay-loaded DLL. */
static int first_dll(const pe_c_view *view, pe_c_delay_import *dll)
{
    pe_c_delay_import_walk walk = PE_C_EMPTY;
    return pe_c_delay_imports(view, &walk.entries) == PE_C_DONE && pe_c_next_delay_import(view, &walk, dll) == PE_C_DONE;
}

/* The functions of the first delay-loaded DLL, MOST at most, a step a call. */
static uint64_t step_delayed(const pe_c_view *view, uint64_t most)
{
    pe_c_delay_import dll = PE_C_EMPTY;
    pe_c_delayed_function entry = PE_C_EMPTY;
    if (!first_dll(view, &dll))
        return 0;
    pe_c_delayed_function_walk walk = {.functions = dll.functions};
    uint64_t count = 0;
    while (count < most && pe_c_next_delayed_function(view, &walk, &entry) == PE_C_DONE)
        count++;
    return count;
}

/* The same in one call that reads the names together. */
static uint64_t list_delayed(const pe_c_view *view, uint64_t most)
{
    pe_c_delay_import dll = PE_C_EMPTY;
    if (!first_dll(view, &dll))
        return 0;
    pe_c_delayed_function_walk walk = {.functions = dll.functions};
    pe_c_run *runs = calloc(most + 1, sizeof *runs);
    pe_c_delayed_function *entries = calloc(most + 1, sizeof *entries);
    uint64_t written = 0;
    if (runs == NULL || entries == NULL
        || pe_c_list_delayed_functions(view, &walk, runs, most, entries, most, &written) != PE_C_DONE)
        written = 0;
    free(runs);
    free(entries);
    return written;
}

/* The records of the first function, MOST at most, a step a call. */
static uint64_t step_records(const pe_c_view *view, uint64_t most)
{
    pe_c_range table = PE_C_EMPTY;
    pe_c_function function = PE_C_EMPTY;
    pe_c_plan_walk walk = PE_C_EMPTY;
    pe_c_record record = PE_C_EMPTY;
    if (pe_c_function_table(view, &table) != PE_C_DONE
        || pe_c_function_at(view->bytes, view->length, &table, 0, &function) != PE_C_DONE)
        return 0;
    pe_c_plan_from(function.unwind, &walk.plan);
    uint64_t count = 0;
    while (count < most && pe_c_next_record(view, &table, &walk, &record) == PE_C_DONE)
        count++;
    return count;
}

/* How many of seven directories an image has, MOST times, each by the call that returns where it is. */
static uint64_t read_directories(const pe_c_view *view, uint64_t most)
{
    uint64_t found = 0;
    for (uint64_t turn = 0; turn < most; turn++) {
        pe_c_exports exports = PE_C_EMPTY;
        pe_c_libraries libraries = PE_C_EMPTY;
        pe_c_range range = PE_C_EMPTY;
        found += pe_c_export_tables(view, &exports) == PE_C_DONE;
        found += pe_c_import_libraries(view, &libraries) == PE_C_DONE;
        found += pe_c_function_table(view, &range) == PE_C_DONE;
        found += pe_c_relocation_blocks(view, &range) == PE_C_DONE;
        found += pe_c_debug_entries(view, &range) == PE_C_DONE;
        found += pe_c_delay_imports(view, &range) == PE_C_DONE;
        found += pe_c_manifest(view, &range) == PE_C_DONE;
    }
    return found;
}

/* Offsets of RVAs in the last section. */
static uint64_t map_offsets(const pe_c_view *view, uint64_t most)
{
    uint64_t count = 0, offset = 0;
    while (count < most && pe_c_offset(view, 0x1000 + (uint32_t)count, &offset) == PE_C_DONE)
        count++;
    return count;
}

int main(int argc, char **argv)
{
    if (argc != 5)
        return 2;
    pe_c_view view = PE_C_EMPTY;
    pe_c_image_info image = PE_C_EMPTY;
    uint8_t *bytes = read_all(argv[1], &view.length);
    if (bytes == NULL || !read_view(bytes, &image, &view))
        return 1;
    pe_c_range_entry *index = calloc(4 * view.count, sizeof *index);
    if (index == NULL)
        return 1;
    if (strcmp(argv[2], "index") == 0) {
        uint64_t entries = 0;
        if (pe_c_index(&view, index, 4 * view.count, &entries) != PE_C_DONE)
            return 1;
        view.index = index;
        view.entries = (size_t)entries;
    }
    const uint64_t most = strtoull(argv[4], NULL, 10);
    printf("%llu\n", (unsigned long long)(strcmp(argv[3], "list") == 0       ? list_exports(&view, most)
                                          : strcmp(argv[3], "step") == 0     ? step_exports(&view, most)
                                          : strcmp(argv[3], "delayed") == 0  ? step_delayed(&view, most)
                                          : strcmp(argv[3], "together") == 0 ? list_delayed(&view, most)
                                          : strcmp(argv[3], "record") == 0   ? step_records(&view, most)
                                          : strcmp(argv[3], "tables") == 0   ? read_directories(&view, most)
                                                                             : map_offsets(&view, most)));
    free(bytes);
    free((void *)view.sections);
    free(index);
    return 0;
}
