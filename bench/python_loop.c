/* What bench/python compares the Python module with: the same calls in C alone. `python_loop FILE` prints the seconds of a processor
 * that the names and the unwind codes of an image take, the least of so many runs, and how many there are. */
#define _POSIX_C_SOURCE 199309L
#include <stdio.h>
#include <stdlib.h>
#include <time.h>
#include "pe.h"

enum { RUNS = 25 };
static const uint8_t *bytes;
static size_t length;
static pe_c_view view;
static uint64_t sum;

static uint64_t names(void)
{
    pe_c_library_walk libraries = PE_C_EMPTY;
    pe_c_library library = PE_C_EMPTY;
    pe_c_import import = PE_C_EMPTY;
    pe_c_export_walk exports = PE_C_EMPTY;
    pe_c_address_table table = PE_C_EMPTY;
    pe_c_export export = PE_C_EMPTY;
    pe_c_exported entry = PE_C_EMPTY;
    uint64_t count = 0;
    if (pe_c_import_libraries(&view, &libraries.libraries) == PE_C_DONE)
        while (pe_c_next_library(&view, &libraries, &library) == PE_C_DONE)
            for (pe_c_import_walk walk = {.imports = library.imports}; pe_c_next_import(&view, &walk, &import) == PE_C_DONE; count++)
                sum += import.name.length;
    if (pe_c_export_addresses(&view, &table) == PE_C_DONE && pe_c_export_tables(&view, &exports.exports) == PE_C_DONE)
        while (pe_c_next_export(&view, &exports, &export) == PE_C_DONE) {
            if (pe_c_export_at(&view, &table, export.index, &entry) == PE_C_DONE)
                sum += export.name.length + entry.rva;
            count++;
        }
    return count;
}

static uint64_t codes(void)
{
    pe_c_range table = PE_C_EMPTY;
    pe_c_function function = PE_C_EMPTY;
    pe_c_record record = PE_C_EMPTY;
    pe_c_code code = PE_C_EMPTY;
    pe_c_plan_walk plan = PE_C_EMPTY;
    uint64_t count = 0;
    if (pe_c_function_table(&view, &table) != PE_C_DONE)
        return 0;
    for (uint64_t i = 0; pe_c_function_at(bytes, length, &table, i, &function) == PE_C_DONE; i++) {
        pe_c_plan_from(function.unwind, &plan.plan);
        while (pe_c_next_record(&view, &table, &plan, &record) == PE_C_DONE)
            for (pe_c_walk walk = record.codes; pe_c_next_code(bytes, length, &walk, &code) == PE_C_DONE; count++)
                sum += code.value;
    }
    return count;
}

static void least(const char *name, uint64_t (*call)(void))
{
    double best = 1e9;
    uint64_t count = 0;
    for (int i = 0; i < RUNS; i++) {
        struct timespec start, end;
        clock_gettime(CLOCK_PROCESS_CPUTIME_ID, &start);
        count = call();
        clock_gettime(CLOCK_PROCESS_CPUTIME_ID, &end);
        double seconds = (double)(end.tv_sec - start.tv_sec) + (double)(end.tv_nsec - start.tv_nsec) / 1e9;
        best = seconds < best ? seconds : best;
    }
    printf("%s %.9f %llu\n", name, best, (unsigned long long)count);
}

int main(int argc, char **argv)
{
    FILE *file = argc == 2 ? fopen(argv[1], "rb") : NULL;
    if (!file || fseek(file, 0, SEEK_END) != 0)
        return 2;
    length = (size_t)ftell(file);
    rewind(file);
    static pe_c_image_info image;
    uint8_t *room = malloc(length + 1);
    if (!room || fread(room, 1, length, file) != length || pe_c_image(room, length, PE_C_PERMISSIVE, &image) != PE_C_DONE)
        return 2;
    bytes = room;
    pe_c_section *sections = calloc(image.number_of_sections + 1u, sizeof *sections);
    if (!sections || pe_c_sections(bytes, length, &image, sections, image.number_of_sections) != PE_C_DONE)
        return 2;
    view = (pe_c_view){bytes, length, &image, sections, image.number_of_sections, NULL, 0};
    least("names", names);
    least("codes", codes);
    return sum == 1;
}
