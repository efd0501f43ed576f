/* Reads all that pe.h reads of a PDB: bench/pdbs says what it measures by it. It prints how much there was. */
#include <stdio.h>
#include <stdlib.h>
#include "pe.h"

enum { READINGS = 4, RVAS = 10000, AT_ONCE = 1024 };

/* Bytes with their length. */
typedef struct {
    uint8_t *bytes;
    size_t length;
} Bytes;

static void *room_of(size_t count, size_t size)
{
    void *room = calloc(count + 1, size);
    if (!room)
        exit(3);
    return room;
}

static Bytes content_of(const char *path)
{
    FILE *file = fopen(path, "rb");
    if (!file || fseek(file, 0, SEEK_END) != 0)
        exit(3);
    Bytes all = {NULL, (size_t)ftell(file)};
    rewind(file);
    all.bytes = room_of(all.length, 1);
    if (fread(all.bytes, 1, all.length, file) != all.length)
        exit(3);
    fclose(file);
    return all;
}

/* A copy of a stream, no bytes where it is refused. What is left of the bytes that may be read falls. */
static Bytes stream_of(Bytes file, const uint64_t *starts, size_t count, uint32_t number, uint64_t *left)
{
    Bytes stream = {NULL, 0};
    uint64_t length = 0;
    if (!*left || pe_c_pdb_stream(file.bytes, file.length, starts, count, number, NULL, 0, &length) != PE_C_ROOM)
        return stream;
    /* Once one is too long none is opened: that alone reads the list of its blocks. */
    *left = length > *left ? 0 : *left - length;
    if (!*left)
        return stream;
    stream = (Bytes){room_of(length, 1), length};
    if (pe_c_pdb_stream(file.bytes, file.length, starts, count, number, stream.bytes, length, &length) != PE_C_DONE)
        stream.length = 0;
    return stream;
}

/* Lists the symbols, makes an index of a kind and looks up by it. */
static uint64_t read_symbols(uint32_t kind, Bytes stream, pe_c_range symbols, Bytes sections)
{
    static pe_c_pdb_symbol entries[AT_ONCE];
    pe_c_pdb_symbol found = PE_C_EMPTY;
    uint64_t written = 0, all = 0;
    pe_c_range walk = symbols;
    while (pe_c_list_pdb_symbols(stream.bytes, stream.length, sections.bytes, sections.length, &walk, entries, AT_ONCE, &written)
           == PE_C_DONE && written)
        all += written;
    if (pe_c_pdb_index(kind, stream.bytes, stream.length, &symbols, sections.bytes, sections.length, NULL, 0, &written) != PE_C_ROOM)
        return all;
    uint64_t *index = room_of(written, sizeof *index);
    if (pe_c_pdb_index(kind, stream.bytes, stream.length, &symbols, sections.bytes, sections.length, index, written, &written)
        == PE_C_DONE)
        for (uint32_t i = 0; i < RVAS; i++)
            all += pe_c_find_pdb_symbol(kind, stream.bytes, stream.length, sections.bytes, sections.length, index, written,
                                        0x1000 + 4 * i, &found) == PE_C_DONE;
    free(index);
    return all;
}

static uint64_t read_lines(Bytes stream, pe_c_range lines, Bytes sections, Bytes names)
{
    pe_c_range files = PE_C_EMPTY, name = PE_C_EMPTY;
    pe_c_pdb_line found = PE_C_EMPTY;
    uint64_t written = 0, all = 0;
    if (pe_c_pdb_files(stream.bytes, stream.length, &lines, &files) != PE_C_DONE)
        files = (pe_c_range)PE_C_EMPTY;
    if (pe_c_pdb_lines(stream.bytes, stream.length, &lines, sections.bytes, sections.length, NULL, 0, &written) != PE_C_ROOM)
        return 0;
    pe_c_pdb_line_entry *index = room_of(written, sizeof *index);
    if (pe_c_pdb_lines(stream.bytes, stream.length, &lines, sections.bytes, sections.length, index, written, &written) == PE_C_DONE)
        for (uint32_t i = 0; i < RVAS; i++)
            if (pe_c_find_pdb_line(index, written, 0x1000 + 4 * i, &found) == PE_C_DONE)
                /* The name of a file is read to its end, so that few are. */
                all += i % 1000 || pe_c_pdb_file_name(stream.bytes, stream.length, &files, names.bytes, names.length, found.file, &name)
                                   == PE_C_DONE;
    free(index);
    return all + written;
}

int main(int count, char **words)
{
    if (count != 2)
        return 2;
    Bytes file = content_of(words[1]);
    pe_c_pdb_info pdb = PE_C_EMPTY;
    if (pe_c_pdb(file.bytes, file.length, &pdb) != PE_C_DONE)
        return 1;
    uint64_t *starts = room_of(pdb.number_of_streams, sizeof *starts), written = 0, all = 0, left = READINGS * (uint64_t)file.length;
    if (pe_c_pdb_starts(file.bytes, file.length, starts, pdb.number_of_streams, &written) != PE_C_DONE)
        return 1;
    size_t streams = (size_t)written;
#define STREAM(number) stream_of(file, starts, streams, number, &left)
    Bytes sections = STREAM(pdb.section_headers), symbols = STREAM(pdb.symbol_stream), dbi = STREAM(3), info = STREAM(1);
    uint32_t number = 0;
    Bytes names = {NULL, 0};
    if (pe_c_pdb_named_stream(info.bytes, info.length, (const uint8_t *)"/names", 6, &number) == PE_C_DONE)
        names = STREAM(number);
    all += read_symbols(PE_C_PDB_PUBLICS, symbols, (pe_c_range){0, symbols.length}, sections);
    pe_c_range walk = pdb.modules;
    static pe_c_pdb_module modules[AT_ONCE];
    while (pe_c_list_pdb_modules(dbi.bytes, dbi.length, &walk, modules, AT_ONCE, &written) == PE_C_DONE && written)
        for (uint64_t i = 0; i < written; i++) {
            Bytes stream = STREAM(modules[i].stream);
            if (!stream.length)
                continue;
            all += read_symbols(PE_C_PDB_PROCEDURES, stream, modules[i].symbols, sections);
            all += read_lines(stream, modules[i].lines, sections, names);
            free(stream.bytes);
        }
    printf("%llu\n", (unsigned long long)all);
    return 0;
}
