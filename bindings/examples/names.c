/* names: what an image imports, a line each with DLL and name, what it exports, by ordinal, and the names of its exports.
 *
 *     names FILE */
#include "pe.h"
#include "example.h"

#include <inttypes.h>
#include <stdio.h>

static pe_c_view view;

/* Each library is a step of one walk, and says where the walk over its imports starts. */
static uint32_t show_imports(void)
{
    pe_c_library_walk walk = PE_C_EMPTY;
    pe_c_library library = PE_C_EMPTY;
    pe_c_import entry = PE_C_EMPTY;
    uint32_t result = pe_c_import_libraries(&view, &walk.libraries);
    while (result == PE_C_DONE) {
        pe_c_import_walk imports = PE_C_EMPTY;
        result = pe_c_next_library(&view, &walk, &library);
        imports.imports = library.imports;
        while (result == PE_C_DONE) {
            result = pe_c_next_import(&view, &imports, &entry);
            if (result != PE_C_DONE)
                break;
            printf("import ");
            show_name(view.bytes, &library.name);
            printf(entry.has_name ? " " : " #%" PRIu32, entry.ordinal);
            show_name(view.bytes, &entry.name);
            printf("\n");
        }
        if (result == PE_C_NOTHING && !walk.libraries.is_over)
            result = PE_C_DONE;
    }
    return result;
}

/* All exports by their index, also those without a name. An RVA of 0 is an ordinal that is not used. */
static uint32_t show_exports(const pe_c_address_table *table)
{
    pe_c_exported entry = PE_C_EMPTY;
    uint32_t result = PE_C_DONE;
    for (uint64_t index = 0; result == PE_C_DONE; index++) {
        result = pe_c_export_at(&view, table, index, &entry);
        if (result != PE_C_DONE || entry.rva == 0)
            continue;
        printf(entry.is_forwarder ? "export #%" PRIu64 " -> " : "export #%" PRIu64, entry.ordinal);
        show_name(view.bytes, &entry.forwarder);
        printf("\n");
    }
    return result;
}

/* The names of exports, any number for each, in the order of the table, which is sorted. */
static uint32_t show_names(const pe_c_address_table *table)
{
    pe_c_export_walk walk = PE_C_EMPTY;
    pe_c_export entry = PE_C_EMPTY;
    uint32_t result = pe_c_export_tables(&view, &walk.exports);
    while (result == PE_C_DONE) {
        result = pe_c_next_export(&view, &walk, &entry);
        if (result != PE_C_DONE)
            break;
        printf("name ");
        show_name(view.bytes, &entry.name);
        printf(" #%" PRIu64 "\n", (uint64_t)table->ordinal_base + entry.index);
    }
    return result;
}

int main(int argc, char **argv)
{
    if (argc != 2)
        return usage("names FILE");
    pe_c_address_table table = PE_C_EMPTY;
    uint32_t result = read_image(argv[1], PE_C_PERMISSIVE, &view);
    if (result == PE_C_DONE)
        result = show_imports();
    if (result == PE_C_NOTHING)
        result = pe_c_export_addresses(&view, &table);
    if (result == PE_C_DONE)
        result = show_exports(&table);
    if (result == PE_C_NOTHING && table.addresses.length > 0)
        result = show_names(&table);
    return status_of(result);
}
