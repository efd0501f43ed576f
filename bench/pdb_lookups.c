/* Reads a PDB: pdbs FILE CALL MOST
 *
 * By the CALL `parse` what the PDB says of itself is read MOST times, by `starts` where all its streams are; by `index` and `lines` the
 * index of the public functions, and that of the lines of the first module, is made as often, and by `ids` that of the stream of ids.
 * By `symbol` so many RVAs of its procedures are looked up, by `line` their lines, by `inlined` the functions that are inlined there.
 * How many entries, RVAs or functions there are is printed. */
#include "reading.h"

#include <string.h>

enum { STREAM = 1 << 26, ENTRIES = 1 << 20 };

static uint8_t sections[1 << 16], symbols[STREAM], module_bytes[STREAM], dbi[STREAM], ids[STREAM];
static uint64_t index_room[ENTRIES], starts[ENTRIES], id_starts[ENTRIES];
static pe_c_pdb_line_entry lines[ENTRIES];

/* What is read of a PDB before the calls that are counted. */
typedef struct {
    const uint8_t *bytes;
    size_t length;
    pe_c_pdb_info info;
    pe_c_pdb_module module;
    uint64_t sections_length, symbols_length, module_length, ids_length, entries, line_entries, id_entries;
} pdb;

static uint64_t stream(const pdb *it, uint32_t number, uint8_t *room)
{
    uint64_t written = 0;
    return pe_c_pdb_stream(it->bytes, it->length, NULL, 0, number, room, STREAM, &written) == PE_C_DONE ? written : 0;
}

static uint64_t index_of(uint32_t kind, const uint8_t *bytes, uint64_t length, const pe_c_range *range, const pdb *it)
{
    uint64_t count = 0;
    const uint32_t result = pe_c_pdb_index(kind, bytes, length, range, sections, it->sections_length, index_room, ENTRIES, &count);
    return result == PE_C_DONE ? count : 0;
}

static uint64_t lines_of(const pdb *it)
{
    uint64_t count = 0;
    const uint32_t result = pe_c_pdb_lines(module_bytes, it->module_length, &it->module.lines, sections, it->sections_length, lines,
                                           ENTRIES, &count);
    return result == PE_C_DONE ? count : 0;
}

static uint64_t ids_of(const pdb *it)
{
    uint64_t count = 0;
    return pe_c_pdb_ids(ids, it->ids_length, id_starts, ENTRIES, &count) == PE_C_DONE ? count : 0;
}

/* Reads the PDB, with the first module, and makes its indexes. Returns whether that is done. */
static int read_pdb(pdb *it)
{
    uint64_t written = 0;
    if (pe_c_pdb(it->bytes, it->length, &it->info) != PE_C_DONE)
        return 0;
    uint64_t dbi_length = stream(it, 3, dbi);
    pe_c_range walk = it->info.modules;
    if (pe_c_list_pdb_modules(dbi, dbi_length, &walk, &it->module, 1, &written) != PE_C_DONE)
        return 0;
    it->sections_length = stream(it, it->info.section_headers, sections);
    it->symbols_length = stream(it, it->info.symbol_stream, symbols);
    it->module_length = stream(it, it->module.stream, module_bytes);
    it->ids_length = stream(it, 4, ids);
    it->line_entries = lines_of(it);
    it->id_entries = ids_of(it);
    it->entries = index_of(PE_C_PDB_PROCEDURES, module_bytes, it->module_length, &it->module.symbols, it);
    return it->entries > 0;
}

/* Looks up an RVA. Returns how much is found. */
static uint64_t look_up(const pdb *it, const char *call, uint32_t rva)
{
    pe_c_pdb_symbol found = PE_C_EMPTY;
    pe_c_pdb_line line = PE_C_EMPTY;
    pe_c_pdb_inlined frames[64];
    uint64_t written = 0;
    if (call[0] == 'r' && strcmp(call, "read-line") == 0)
        return pe_c_read_pdb_line(module_bytes, it->module_length, &it->module.lines, sections, it->sections_length, rva, &line) == PE_C_DONE;
    if (call[0] == 'r')
        return pe_c_read_pdb_symbol(PE_C_PDB_PROCEDURES, module_bytes, it->module_length, &it->module.symbols, sections,
                                    it->sections_length, rva, &found) == PE_C_DONE;
    if (strcmp(call, "line") == 0)
        return pe_c_find_pdb_line(lines, it->line_entries, rva, &line) == PE_C_DONE;
    if (pe_c_find_pdb_symbol(PE_C_PDB_PROCEDURES, module_bytes, it->module_length, sections, it->sections_length, index_room,
                             it->entries, rva, &found) != PE_C_DONE)
        return 0;
    if (strcmp(call, "symbol") == 0)
        return 1;
    const uint32_t result = pe_c_find_pdb_inlined(module_bytes, it->module_length, &it->module, &found, rva, ids, it->ids_length,
                                                  id_starts, it->id_entries, frames, 64, &written);
    return result == PE_C_DONE ? written : 0;
}

/* Makes a call on the whole PDB. Returns how many entries it has. */
static uint64_t make(const pdb *it, const char *call)
{
    pe_c_pdb_info info = PE_C_EMPTY;
    uint64_t written = 0;
    if (strcmp(call, "parse") == 0)
        return pe_c_pdb(it->bytes, it->length, &info) == PE_C_DONE ? info.number_of_streams : 0;
    if (strcmp(call, "starts") == 0)
        return pe_c_pdb_starts(it->bytes, it->length, starts, ENTRIES, &written) == PE_C_DONE ? written : 0;
    if (strcmp(call, "lines") == 0)
        return lines_of(it);
    if (strcmp(call, "ids") == 0)
        return ids_of(it);
    const pe_c_range all = {0, it->symbols_length};
    return index_of(PE_C_PDB_PUBLICS, symbols, it->symbols_length, &all, it);
}

int main(int argc, char **argv)
{
    static pdb it;
    if (argc != 4)
        return 2;
    const char *call = argv[2];
    const uint64_t most = strtoull(argv[3], NULL, 10);
    it.bytes = read_all(argv[1], &it.length);
    if (it.bytes == NULL || !read_pdb(&it))
        return 1;
    const int makes = strcmp(call, "parse") == 0 || strcmp(call, "starts") == 0 || strcmp(call, "index") == 0
                      || strcmp(call, "lines") == 0 || strcmp(call, "ids") == 0;
    uint64_t count = 0;
    for (uint64_t turn = 0; turn < most; turn++) {
        /* Eight bytes after the start of one procedure after the other. */
        const uint32_t rva = (uint32_t)(index_room[turn * 7919 % it.entries] >> 32) + 8;
        count += makes ? make(&it, call) : look_up(&it, call, rva);
    }
    printf("%llu\n", (unsigned long long)count);
    return 0;
}
