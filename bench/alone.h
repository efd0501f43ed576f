/* The lists of together.c that have no way to read names together, by calls of 64 entries. */
#ifndef ALONE_H
#define ALONE_H

#include "pe.h"

#include <string.h>

/* Version information has its blocks on four levels: all of it, StringFileInfo, a table, a string. */
enum { ENTRIES = 64, LEVELS = 4, CODES = 255 };

/* A function that counts what a walk lists up to its end, an error, or as many entries as the image has bytes. */
#define COUNTS(name, walk_type, entry_type, list, ...) \
    static uint64_t name(const pe_c_view *view, walk_type *walk) \
    { \
        static entry_type entries[ENTRIES]; \
        uint64_t count = 0, written = 1; \
        while (count < view->length && list(__VA_ARGS__, walk, entries, ENTRIES, &written) == PE_C_DONE && written > 0) \
            count += written; \
        return count; \
    }

COUNTS(count_leaves, pe_c_leaf_walk, pe_c_resource_leaf, pe_c_list_resource_leaves, view)
COUNTS(count_pogo_entries, pe_c_range, pe_c_pogo_entry, pe_c_list_pogo_entries, view->bytes, view->length)
COUNTS(count_arm64_codes, pe_c_arm64_walk, pe_c_arm64_code, pe_c_list_arm64_codes, view->bytes, view->length)

/* Counts the blocks of so many levels, and those that are refused, after which a walk may go on. */
static uint64_t count_blocks(const pe_c_view *view, pe_c_range walk, int levels)
{
    static pe_c_version_block rooms[LEVELS][ENTRIES];
    pe_c_version_block *blocks = rooms[levels - 1];
    uint64_t count = 0;
    for (;;) {
        uint64_t written = 0;
        const uint32_t result = pe_c_list_version_blocks(view->bytes, view->length, &walk, blocks, ENTRIES, &written);
        if (result == PE_C_DONE && written == 0)
            return count;
        count += result == PE_C_DONE ? written : 1;
        for (size_t i = 0; levels > 1 && i < written; i++)
            count += count_blocks(view, blocks[i].children, levels - 1);
    }
}

/* Counts the blocks of base relocations and the relocations of each. */
static uint64_t count_relocations(const pe_c_view *view, pe_c_range walk)
{
    static pe_c_relocation_block blocks[ENTRIES];
    static pe_c_relocation entries[ENTRIES];
    uint64_t count = 0, written = 1;
    while (pe_c_list_relocation_blocks(view->bytes, view->length, &walk, blocks, ENTRIES, &written) == PE_C_DONE && written > 0) {
        count += written;
        for (size_t i = 0; i < written; i++) {
            uint64_t some = 1;
            while (pe_c_list_relocations(view->bytes, view->length, blocks[i].page_rva, &blocks[i].entries, entries, ENTRIES,
                                         &some) == PE_C_DONE &&
                   some > 0)
                count += some;
        }
    }
    return count;
}

/* Counts the functions of x64, and the codes of their records until there are as many as the image has bytes. */
static uint64_t count_functions(const pe_c_view *view, const pe_c_range *table)
{
    static pe_c_function functions[ENTRIES];
    static pe_c_code codes[CODES];
    pe_c_record record = PE_C_EMPTY;
    uint64_t count = 0, next = 0, written = 1;
    while (pe_c_list_functions(view->bytes, view->length, table, &next, functions, ENTRIES, &written) == PE_C_DONE && written > 0) {
        for (size_t i = 0; i < written; i++) {
            uint64_t some = 0;
            count++;
            if (count < view->length && pe_c_unwind_record(view, table, functions[i].unwind, &record) == PE_C_DONE &&
                pe_c_list_codes(view->bytes, view->length, &record.codes, codes, CODES, &some) == PE_C_DONE)
                count += some;
        }
    }
    return count;
}

/* The same of ARM64. */
static uint64_t count_arm64_functions(const pe_c_view *view, const pe_c_range *table)
{
    static pe_c_arm64_function functions[ENTRIES];
    pe_c_arm64_record record = PE_C_EMPTY;
    pe_c_arm64_walk walk = PE_C_EMPTY;
    uint64_t count = 0, next = 0, written = 1;
    while (pe_c_list_arm64_functions(view->bytes, view->length, table, &next, functions, ENTRIES, &written) == PE_C_DONE && written > 0) {
        for (size_t i = 0; i < written; i++) {
            count++;
            if (count < view->length && pe_c_arm64_unwind_record(view, &functions[i], &record) == PE_C_DONE &&
                pe_c_arm64_codes(view->bytes, view->length, &record.codes, 0, &walk) == PE_C_DONE)
                count += count_arm64_codes(view, &walk);
        }
    }
    return count;
}

/* Counts all entries of the list WHAT, or puts 0 to `is_known` where it is another one. */
static uint64_t count_alone(const pe_c_view *view, const char *what, int *is_known)
{
    pe_c_leaf_walk leaves = PE_C_EMPTY;
    pe_c_range range = PE_C_EMPTY;
    pe_c_debug_records records = PE_C_EMPTY;
    if (strcmp(what, "leaves") == 0)
        return pe_c_resource_leaves(view, &leaves.leaves) == PE_C_DONE ? count_leaves(view, &leaves) : 0;
    if (strcmp(what, "blocks") == 0)
        return pe_c_version_blocks(view, &range) == PE_C_DONE ? count_blocks(view, range, LEVELS) : 0;
    if (strcmp(what, "relocations") == 0)
        return pe_c_relocation_blocks(view, &range) == PE_C_DONE ? count_relocations(view, range) : 0;
    if (strcmp(what, "pogo") == 0) {
        pe_c_debug_data(view, &records);
        return records.pogo_result == PE_C_DONE ? count_pogo_entries(view, &records.pogo.entries) : 0;
    }
    if (strcmp(what, "functions") == 0)
        return pe_c_function_table(view, &range) == PE_C_DONE ? count_functions(view, &range) : 0;
    if (strcmp(what, "arm64-functions") == 0)
        return pe_c_arm64_table(view, &range) == PE_C_DONE ? count_arm64_functions(view, &range) : 0;
    *is_known = 0;
    return 0;
}

#endif
