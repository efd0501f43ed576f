#include "pe.h"

enum { MOST_SYMBOLS = 1 << 26, MOST_HEADERS = 1 << 16, MOST_FUNCTIONS = 1 << 20 };  /* of this program */

/* The function at an RVA of an image with this key, by its PDB: the last public function that starts at or before the RVA. Its name is a
 * range of `symbols`, a room for the stream of symbols. PE_C_NOTHING where the PDB is that of another image, or no function is there. */
uint32_t function_at(const uint8_t *pdb, size_t length, const pe_c_key *key, uint32_t rva, uint8_t *symbols,
                     pe_c_pdb_symbol *found)
{
    static uint8_t headers[MOST_HEADERS];
    static uint64_t index[MOST_FUNCTIONS];
    pe_c_pdb_info info = PE_C_EMPTY;
    pe_c_range all = {0, 0};
    uint64_t headers_length = 0, count = 0;
    uint32_t result = pe_c_pdb(pdb, length, &info);
    if (result == PE_C_DONE)
        result = pe_c_is_pdb_of(key, &info);
    if (result == PE_C_DONE)
        result = pe_c_pdb_stream(pdb, length, NULL, 0, info.section_headers, headers, MOST_HEADERS, &headers_length);
    if (result == PE_C_DONE)
        result = pe_c_pdb_stream(pdb, length, NULL, 0, info.symbol_stream, symbols, MOST_SYMBOLS, &all.length);
    if (result == PE_C_DONE)
        result = pe_c_pdb_index(PE_C_PDB_PUBLICS, symbols, (size_t)all.length, &all, headers, (size_t)headers_length, index,
                                MOST_FUNCTIONS, &count);
    return result != PE_C_DONE ? result
        : pe_c_find_pdb_symbol(PE_C_PDB_PUBLICS, symbols, (size_t)all.length, headers, (size_t)headers_length, index,
                               (size_t)count, rva, found);
}

#include <stdio.h>
#include <stdlib.h>

#include "example.h"

static uint8_t pdb[1 << 27], symbols[MOST_SYMBOLS];

/* Names the function at an RVA of an image by its PDB:
 *     pdb_name IMAGE PDB HEXRVA */
int main(int argc, char **argv)
{
    if (argc != 4)
        return usage("pdb_name IMAGE PDB HEXRVA");
    pe_c_view view = PE_C_EMPTY;
    pe_c_key key = PE_C_EMPTY;
    pe_c_pdb_symbol found = PE_C_EMPTY;
    uint32_t rva = (uint32_t)hexadecimal(argv[3], UINT32_MAX);
    uint32_t result = read_image(argv[1], PE_C_PERMISSIVE, &view);
    if (result == PE_C_DONE)
        result = pe_c_symbol_key(&view, &key);
    size_t length = read_file(argv[2], pdb, sizeof pdb);
    if (result == PE_C_DONE)
        result = function_at(pdb, length, &key, rva, symbols, &found);
    if (result == PE_C_DONE) {
        show_name(symbols, &found.name);
        printf("+%x\n", rva - found.rva);
    }
    if (result == PE_C_NOTHING) {
        fprintf(stderr, "the PDB is not that of the image, or no public function is there\n");
        return 1;
    }
    return status_of(result);
}
