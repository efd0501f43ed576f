/* Lists what a file has by the calls of the library for C: together FILE WHAT alone|together
 *
 * WHAT is exports, libraries, imports, symbols, addresses (all exports by their index, with the texts of forwarders), dlls (those
 * whose imports are delayed), delayed (what is imported of the first of them), all-delayed (of all of them), sections (their long
 * names) or bound (bound imports and their forwarders).
 *
 * `together` lists them by one call with room for all, which reads the names together, `alone` by calls of 64 entries, or of symbols,
 * sections and bound imports by a call for each. Imports are those of all libraries; `alone` lists them library by library, and
 * functions of all delay-loaded DLLs DLL by DLL.
 *
 * Or WHAT is a list that has no names to read together, which comes by calls of 64 entries in any way: leaves (of resources), blocks
 * (of version information, and those refused), relocations (and their blocks), pogo, functions (of x64 with their codes) or
 * arm64-functions. Leaves, POGO entries and codes end after as many entries as the file has bytes.
 *
 * How many there are is printed, and the milliseconds of the processor that the calls took, in the mean of some rounds. */
#include "pe.h"

#include <stdio.h>
#include <stdlib.h>
#include <string.h>
#include <time.h>

#include "alone.h"
#include "reading.h"

/* A function that lists all that a walk has left: with these runs by one call, else some a call. */
#define LISTS(name, walk_type, entry_type, call) \
    static uint64_t name(const pe_c_view *view, walk_type *walk, size_t most, pe_c_run *runs, size_t number_of_runs) \
    { \
        const size_t room = runs == NULL ? ENTRIES : most + 1; \
        entry_type *entries = calloc(room, sizeof *entries); \
        uint64_t count = 0, written = 1; \
        while (entries != NULL && written > 0) { \
            written = 0; \
            if (call(view, walk, runs, number_of_runs, entries, room, &written) != PE_C_DONE) \
                break; \
            count += written; \
        } \
        free(entries); \
        return count; \
    }

LISTS(list_exports, pe_c_export_walk, pe_c_export, pe_c_list_exports)
LISTS(list_libraries, pe_c_library_walk, pe_c_library, pe_c_list_libraries)
LISTS(list_imports, pe_c_import_walk, pe_c_import, pe_c_list_imports)
LISTS(list_dlls, pe_c_delay_import_walk, pe_c_delay_import, pe_c_list_delay_imports)
LISTS(list_delayed, pe_c_delayed_function_walk, pe_c_delayed_function, pe_c_list_delayed_functions)

static uint64_t list_addresses(const pe_c_view *view, pe_c_run *runs, size_t number_of_runs)
{
    pe_c_address_table table = PE_C_EMPTY;
    if (pe_c_export_addresses(view, &table) != PE_C_DONE)
        return 0;
    const size_t room = runs == NULL ? ENTRIES : (size_t)table.addresses.length / 4 + 1;
    pe_c_exported *entries = calloc(room, sizeof *entries);
    uint64_t next = 0, written = 1;
    while (entries != NULL && written > 0) {
        written = 0;
        if (pe_c_list_export_addresses(view, &table, &next, runs, number_of_runs, entries, room, &written) != PE_C_DONE)
            break;
    }
    free(entries);
    return next;
}

static uint64_t list_bound(const pe_c_view *view, pe_c_run *runs, size_t number_of_runs)
{
    pe_c_range table = PE_C_EMPTY;
    pe_c_bound_forwarder one = PE_C_EMPTY;
    if (pe_c_bound_imports(view, &table) != PE_C_DONE)
        return 0;
    pe_c_range walk = table;
    uint64_t count = 0;
    if (runs == NULL) {
        while (pe_c_next_bound_forwarder(view->bytes, view->length, &table, &walk, &one) == PE_C_DONE)
            count++;
        return count;
    }
    const size_t room = (size_t)table.length / 8 + 1;
    pe_c_bound_forwarder *entries = calloc(room, sizeof *entries);
    if (entries == NULL || pe_c_list_bound_forwarders(view->bytes, view->length, &table, &walk, runs, number_of_runs, entries,
                                                      room, &count) != PE_C_DONE)
        count = 0;
    free(entries);
    return count;
}

static uint64_t list_section_names(const pe_c_view *view, pe_c_run *runs, size_t number_of_runs)
{
    pe_c_range table = PE_C_EMPTY, name = PE_C_EMPTY;
    if (pe_c_string_table(view, &table) != PE_C_DONE)
        return 0;
    uint64_t count = 0, next = 0, written = 0;
    if (runs == NULL) {
        for (size_t i = 0; i < view->count; i++)
            count += pe_c_long_section_name(view->bytes, view->length, &table, &view->sections[i], &name) == PE_C_DONE;
        return count;
    }
    pe_c_range *names = calloc(view->count + 1, sizeof *names);
    if (names != NULL &&
        pe_c_list_long_section_names(view, &table, &next, runs, number_of_runs, names, view->count + 1, &written) ==
            PE_C_DONE)
        for (size_t i = 0; i < written; i++)
            count += names[i].offset > 0;
    free(names);
    return count;
}

static uint64_t list_delay_imports(const pe_c_view *view, const char *what, pe_c_run *runs, size_t number_of_runs)
{
    pe_c_delay_import_walk walk = PE_C_EMPTY;
    pe_c_delay_import first = PE_C_EMPTY;
    if (pe_c_delay_imports(view, &walk.entries) != PE_C_DONE)
        return 0;
    if (strcmp(what, "dlls") == 0)
        return list_dlls(view, &walk, (size_t)walk.entries.length / 32, runs, number_of_runs);
    if (pe_c_next_delay_import(view, &walk, &first) != PE_C_DONE)
        return 0;
    pe_c_delayed_function_walk functions = {.functions = first.functions};
    return list_delayed(view, &functions, view->length / 8, runs, number_of_runs);
}

static uint64_t list_symbols(const uint8_t *bytes, size_t length, pe_c_run *runs, size_t number_of_runs)
{
    pe_c_coff_header coff = PE_C_EMPTY;
    pe_c_named_symbol_walk walk = PE_C_EMPTY;
    if (pe_c_coff(bytes, length, &coff) != PE_C_DONE ||
        pe_c_coff_symbols(bytes, length, &coff, &walk.symbols) != PE_C_DONE ||
        pe_c_coff_strings(bytes, length, &coff, &walk.strings) != PE_C_DONE)
        return 0;
    uint64_t count = 0;
    if (runs == NULL) {
        pe_c_symbol_entry symbol = PE_C_EMPTY;
        pe_c_range name = PE_C_EMPTY;
        while (pe_c_next_symbol(bytes, length, &walk.symbols, &symbol) == PE_C_DONE) {
            const uint32_t result =
                pe_c_symbol_name(bytes, length, &walk.symbols.table, &walk.strings, symbol.index, &name);
            (void)result;
            count++;
        }
        return count;
    }
    const size_t room = (size_t)walk.symbols.table.length / 18 + 1;
    pe_c_named_symbol *entries = calloc(room, sizeof *entries);
    if (entries == NULL ||
        pe_c_list_symbols(bytes, length, &walk, runs, number_of_runs, entries, room, &count) != PE_C_DONE)
        count = 0;
    free(entries);
    return count;
}

static uint64_t list_all_imports(const pe_c_view *view, pe_c_library_walk steps, pe_c_run *runs, size_t number_of_runs)
{
    pe_c_library library = PE_C_EMPTY;
    pe_c_library_imports walk = PE_C_EMPTY;
    uint64_t count = 0, written = 1;
    if (runs == NULL) {
        while (pe_c_next_library(view, &steps, &library) == PE_C_DONE) {
            pe_c_import_walk imports = {.imports = library.imports};
            count += list_imports(view, &imports, 0, NULL, 0);
        }
        return count;
    }
    /* Each run is for a library or an import. */
    pe_c_library_import *entries = calloc(number_of_runs, sizeof *entries);
    if (entries == NULL || pe_c_import_libraries(view, &walk.libraries) != PE_C_DONE)
        written = 0;
    while (written > 0) {
        written = 0;
        if (pe_c_list_all_imports(view, &walk, runs, number_of_runs, entries, number_of_runs, &written)
            != PE_C_DONE)
            break;
        count += written;
    }
    free(entries);
    return count;
}

static uint64_t list_all_delayed(const pe_c_view *view, pe_c_run *runs, size_t number_of_runs)
{
    pe_c_delay_import_walk dlls = PE_C_EMPTY;
    pe_c_delay_import dll = PE_C_EMPTY;
    pe_c_library_functions walk = PE_C_EMPTY;
    uint64_t count = 0, written = 1;
    if (pe_c_delay_imports(view, &dlls.entries) != PE_C_DONE)
        return 0;
    if (runs == NULL) {
        while (pe_c_next_delay_import(view, &dlls, &dll) == PE_C_DONE) {
            pe_c_delayed_function_walk functions = {.functions = dll.functions};
            count += list_delayed(view, &functions, 0, NULL, 0);
        }
        return count;
    }
    /* Each run is for a DLL or a function. */
    pe_c_library_function *entries = calloc(number_of_runs, sizeof *entries);
    if (entries == NULL || pe_c_delay_imports(view, &walk.libraries) != PE_C_DONE)
        written = 0;
    while (written > 0) {
        written = 0;
        if (pe_c_list_all_delayed_functions(view, &walk, runs, number_of_runs, entries, number_of_runs, &written)
            != PE_C_DONE)
            break;
        count += written;
    }
    free(entries);
    return count;
}

static uint64_t list(const pe_c_view *view, const char *what, pe_c_run *runs, size_t number_of_runs)
{
    pe_c_export_walk exports = PE_C_EMPTY;
    pe_c_library_walk libraries = PE_C_EMPTY;
    if (strcmp(what, "exports") == 0)
        return pe_c_export_tables(view, &exports.exports) != PE_C_DONE
                   ? 0 : list_exports(view, &exports, (size_t)exports.exports.names.length / 4, runs, number_of_runs);
    if (strcmp(what, "addresses") == 0)
        return list_addresses(view, runs, number_of_runs);
    if (strcmp(what, "bound") == 0)
        return list_bound(view, runs, number_of_runs);
    if (strcmp(what, "sections") == 0)
        return list_section_names(view, runs, number_of_runs);
    if (strcmp(what, "all-delayed") == 0)
        return list_all_delayed(view, runs, number_of_runs);
    if (strcmp(what, "dlls") == 0 || strcmp(what, "delayed") == 0)
        return list_delay_imports(view, what, runs, number_of_runs);
    if (pe_c_import_libraries(view, &libraries.libraries) != PE_C_DONE)
        return 0;
    if (strcmp(what, "libraries") == 0)
        return list_libraries(view, &libraries, view->length / 20, runs, number_of_runs);
    return list_all_imports(view, libraries, runs, number_of_runs);
}

/* Reads the list WHAT in rounds until they took 50 ms, since a clock may have steps of 4, and prints what a round took. */
static void measure(const pe_c_view *view, const char *what, pe_c_run *runs, size_t number_of_runs)
{
    const clock_t start = clock();
    clock_t took = 0;
    uint64_t count = 0;
    int rounds = 0;
    for (; took < CLOCKS_PER_SEC / 20; rounds++) {
        int is_known = 1;
        count = strcmp(what, "symbols") == 0 ? list_symbols(view->bytes, view->length, runs, number_of_runs)
                                             : count_alone(view, what, &is_known);
        if (!is_known)
            count = list(view, what, runs, number_of_runs);
        took = clock() - start;
    }
    printf("%llu entries, %.1f ms\n", (unsigned long long)count, 1000.0 * (double)took / CLOCKS_PER_SEC / rounds);
}

int main(int argc, char **argv)
{
    if (argc != 4)
        return 2;
    pe_c_view view = PE_C_EMPTY;
    pe_c_image_info image = PE_C_EMPTY;
    uint8_t *bytes = read_all(argv[1], &view.length);
    if (bytes == NULL)
        return 1;
    /* As many as there can be of any of these: an export has 6 bytes of tables, and two texts. */
    const size_t most = view.length / 3 + 1;
    pe_c_run *runs = strcmp(argv[3], "together") == 0 ? calloc(most, sizeof *runs) : NULL;
    /* An object is no image. */
    view.bytes = bytes;
    if (strcmp(argv[2], "symbols") != 0 && !read_view(bytes, &image, &view))
        return 1;
    measure(&view, argv[2], runs, most);
    free((void *)view.sections);
    free(bytes);
    free(runs);
    return 0;
}
