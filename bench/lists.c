/* Reads lists of an image by the calls of the library for C, a number of times: lists WHAT WAY TIMES FILE
 *
 * WHAT is functions, records (of all functions), codes (the records with their codes), lookups (of an RVA in each function),
 * exports, addresses (of exports, by their index), imports (the libraries and their imports), symbols (with their names), key
 * (the symbol key, of a view that is made), or headers-key or parse-key (the view and the key, from the bytes). WAY is steps, a
 * call for each item; lists, by calls with room for 1,024 items; or together, which reads names together, by one call with room
 * for all.
 * It prints how many items there are; of a key then its GUID in the order of the file, its age, and the bytes of its name. The
 * table of functions is read once, so that what one of the times costs is the items alone. */
#include "pe.h"

#include <stdio.h>
#include <stdlib.h>
#include <string.h>

enum { ROOM = 1024, STEPS, LISTS, TOGETHER };

static const char *const WAYS[] = {"steps", "lists", "together"};

/* The image, how it is read, and room for runs where names are read together. */
static pe_c_view view;
static int way;
static pe_c_run *runs;
static size_t number_of_runs;

/* The functions of the image. */
static pe_c_range table;
static pe_c_function *functions;
static uint64_t number_of_functions;

/* The symbol key that was read last. */
static pe_c_key key;

static void *room_for(size_t entries, size_t size)
{
    void *room = calloc(entries + 1, size);
    if (room == NULL)
        exit(2);
    return room;
}

static void read_image(const char *name)
{
    static pe_c_image_info image;
    FILE *file = fopen(name, "rb");
    if (file == NULL || fseek(file, 0, SEEK_END) != 0)
        exit(2);
    size_t length = (size_t)ftell(file);
    rewind(file);
    uint8_t *bytes = room_for(length, 1);
    if (fread(bytes, 1, length, file) != length || pe_c_image(bytes, length, PE_C_STRICT, &image) != PE_C_DONE)
        exit(2);
    pe_c_section *sections = room_for(image.number_of_sections, sizeof *sections);
    if (pe_c_sections(bytes, length, &image, sections, image.number_of_sections) != PE_C_DONE)
        exit(2);
    view = (pe_c_view){bytes, length, &image, sections, image.number_of_sections, NULL, 0};
    fclose(file);
    if (pe_c_function_table(&view, &table) != PE_C_DONE)
        table.length = 0;
    functions = room_for((size_t)table.length / 12, sizeof *functions);
    /* As many as there can be of any names. */
    number_of_runs = way == TOGETHER ? length / 4 + 1 : 0;
    runs = room_for(number_of_runs, sizeof *runs);
}

static uint64_t read_functions(void)
{
    uint64_t next = 0, written = 1;
    if (way == STEPS) {
        while (pe_c_function_at(view.bytes, view.length, &table, next, &functions[next]) == PE_C_DONE)
            next++;
        return next;
    }
    while (written > 0) {
        size_t room = (size_t)(table.length / 12 - next) + 1;
        if (pe_c_list_functions(view.bytes, view.length, &table, &next, functions + next,
                                way == LISTS && room > ROOM ? ROOM : room, &written) != PE_C_DONE)
            break;
    }
    return next;
}

static uint64_t read_records(void)
{
    pe_c_record record = PE_C_EMPTY;
    uint64_t count = 0;
    for (uint64_t i = 0; i < number_of_functions; i++)
        count += pe_c_unwind_record(&view, &table, functions[i].unwind, &record) == PE_C_DONE;
    return count;
}

static uint64_t read_codes(void)
{
    static pe_c_code codes[255];
    pe_c_record record = PE_C_EMPTY;
    uint64_t count = 0;
    for (uint64_t i = 0; i < number_of_functions; i++) {
        uint64_t written = 0;
        if (pe_c_unwind_record(&view, &table, functions[i].unwind, &record) != PE_C_DONE)
            continue;
        if (way != STEPS) {
            if (pe_c_list_codes(view.bytes, view.length, &record.codes, codes, 255, &written) != PE_C_DONE)
                written = 0;
        } else {
            while (pe_c_next_code(view.bytes, view.length, &record.codes, &codes[written]) == PE_C_DONE)
                written++;
        }
        count += written;
    }
    return count;
}

static uint64_t read_lookups(void)
{
    pe_c_function found = PE_C_EMPTY;
    uint64_t count = 0;
    for (uint64_t i = 0; i < number_of_functions; i++) {
        uint32_t rva = functions[i].begin + (functions[i].end - functions[i].begin) / 2;
        count += pe_c_find_function(view.bytes, view.length, &table, rva, &found) == PE_C_DONE;
    }
    return count;
}

/* A function that reads all of a walk from where it stands. */
#define READS(name, walk_type, item_type, step, list) \
    static uint64_t name(walk_type *walk, item_type *items, size_t room) \
    { \
        uint64_t count = 0, written = 1; \
        walk_type steps = *walk; \
        while (way == STEPS && step(&view, &steps, &items[count]) == PE_C_DONE) \
            count++; \
        while (way != STEPS && written > 0 && \
               list(&view, walk, runs, number_of_runs, items + count, \
                    way == LISTS && room - count > ROOM ? ROOM : room - count, &written) == PE_C_DONE) \
            count += written; \
        return count; \
    }

READS(exports_of, pe_c_export_walk, pe_c_export, pe_c_next_export, pe_c_list_exports)
READS(libraries_of, pe_c_library_walk, pe_c_library, pe_c_next_library, pe_c_list_libraries)
READS(imports_of, pe_c_import_walk, pe_c_import, pe_c_next_import, pe_c_list_imports)

static uint64_t read_exports(void)
{
    static pe_c_export *exports;
    pe_c_export_walk walk = PE_C_EMPTY;
    if (pe_c_export_tables(&view, &walk.exports) != PE_C_DONE)
        return 0;
    size_t most = (size_t)walk.exports.names.length / 4 + 1;
    if (exports == NULL)
        exports = room_for(most, sizeof *exports);
    return exports_of(&walk, exports, most);
}

static uint64_t read_addresses(void)
{
    static pe_c_exported *exported;
    pe_c_address_table addresses = PE_C_EMPTY;
    uint64_t next = 0, written = 1;
    if (pe_c_export_addresses(&view, &addresses) != PE_C_DONE)
        return 0;
    uint64_t most = addresses.addresses.length / 4 + 1;
    if (exported == NULL)
        exported = room_for((size_t)most, sizeof *exported);
    if (way == STEPS) {
        while (pe_c_export_at(&view, &addresses, next, &exported[next]) == PE_C_DONE)
            next++;
        return next;
    }
    while (written > 0) {
        size_t room = (size_t)(most - next);
        if (pe_c_list_export_addresses(&view, &addresses, &next, NULL, 0, exported + next, room > ROOM ? ROOM : room,
                                       &written) != PE_C_DONE)
            break;
    }
    return next;
}

static uint64_t read_imports(void)
{
    static pe_c_library libraries[ROOM];
    static pe_c_import imports[1 << 16];
    pe_c_library_walk walk = PE_C_EMPTY;
    uint64_t count = 0;
    if (pe_c_import_libraries(&view, &walk.libraries) != PE_C_DONE)
        return 0;
    uint64_t number = libraries_of(&walk, libraries, ROOM);
    for (uint64_t i = 0; i < number; i++)
        count += imports_of(&(pe_c_import_walk){.imports = libraries[i].imports}, imports, 1 << 16);
    return count;
}

static uint64_t read_symbols(void)
{
    static pe_c_named_symbol *symbols;
    pe_c_headers_info headers = PE_C_EMPTY;
    pe_c_named_symbol_walk walk = PE_C_EMPTY;
    const uint8_t *bytes = view.bytes;
    uint64_t count = 0;
    if (pe_c_headers(bytes, view.length, PE_C_STRICT, &headers) != PE_C_DONE ||
        pe_c_coff_symbols(bytes, view.length, &headers.coff, &walk.symbols) != PE_C_DONE ||
        pe_c_coff_strings(bytes, view.length, &headers.coff, &walk.strings) != PE_C_DONE)
        return 0;
    size_t most = (size_t)walk.symbols.table.length / 18 + 1;
    if (symbols == NULL)
        symbols = room_for(most, sizeof *symbols);
    if (way != STEPS) {
        uint64_t written = 1;
        while (written > 0 && pe_c_list_symbols(bytes, view.length, &walk, runs, number_of_runs, symbols + count,
                                                way == LISTS && most - count > ROOM ? ROOM : most - count,
                                                &written) == PE_C_DONE)
            count += written;
        return count;
    }
    while (pe_c_next_symbol(bytes, view.length, &walk.symbols, &symbols[count].symbol) == PE_C_DONE) {
        symbols[count].name_result = pe_c_symbol_name(bytes, view.length, &walk.symbols.table, &walk.strings,
                                                      symbols[count].symbol.index, &symbols[count].name);
        count++;
    }
    return count;
}

static uint64_t read_key(void)
{
    return pe_c_symbol_key(&view, &key) == PE_C_DONE;
}

/* The view is made again, in a room of section headers that is kept. */
static uint64_t read_key_of_bytes(void)
{
    static pe_c_section sections[UINT16_MAX];
    pe_c_image_info image = PE_C_EMPTY;
    if (pe_c_image(view.bytes, view.length, PE_C_STRICT, &image) != PE_C_DONE ||
        pe_c_sections(view.bytes, view.length, &image, sections, UINT16_MAX) != PE_C_DONE)
        return 0;
    const pe_c_view made = {view.bytes, view.length, &image, sections, image.number_of_sections, NULL, 0};
    return pe_c_symbol_key(&made, &key) == PE_C_DONE;
}

static void print_key(void)
{
    printf(" ");
    for (size_t i = 0; i < sizeof key.guid; i++)
        printf("%02x", key.guid[i]);
    printf(" %u ", key.age);
    for (uint64_t i = 0; i < key.name.length; i++)
        printf("%02x", view.bytes[key.name.offset + i]);
}

static const struct {
    const char *name;
    uint64_t (*read)(void);
} PARTS[] = {{"functions", read_functions}, {"records", read_records}, {"codes", read_codes}, {"lookups", read_lookups},
             {"exports", read_exports},     {"addresses", read_addresses}, {"imports", read_imports},
             {"symbols", read_symbols},     {"key", read_key}, {"headers-key", read_key_of_bytes},
             {"parse-key", read_key_of_bytes}};

int main(int argc, char **argv)
{
    if (argc != 5)
        return 2;
    for (int i = 0; i < 3; i++)
        if (strcmp(argv[2], WAYS[i]) == 0)
            way = STEPS + i;
    read_image(argv[4]);
    number_of_functions = read_functions();
    /* The part is found before, since it is not to be counted. */
    uint64_t (*read)(void) = NULL;
    for (size_t i = 0; i < sizeof PARTS / sizeof *PARTS; i++)
        if (strcmp(argv[1], PARTS[i].name) == 0)
            read = PARTS[i].read;
    if (read == NULL)
        return 2;
    uint64_t count = 0;
    for (int times = atoi(argv[3]); times > 0; times--)
        count = read();
    printf("%llu", (unsigned long long)count);
    if (count > 0 && (read == read_key || read == read_key_of_bytes))
        print_key();
    printf("\n");
    return 0;
}
