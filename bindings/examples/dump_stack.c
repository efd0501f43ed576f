/* dump_stack: the stack of the thread that crashed, from a minidump of x64 and the image of one of its modules.
 *
 *     dump_stack DUMP IMAGE
 *
 * A frame is a line: an address, or where it is in the image. The last line says why the walk is over. */
#include "pe.h"
#include "example.h"

#include <inttypes.h>
#include <stdio.h>

enum { MOST_PIECES = 1 << 16, MOST_FRAMES = 1000 };

static uint8_t dump[1 << 26];
static size_t dump_length;
static pe_c_dump_info info = PE_C_EMPTY;
static pe_c_memory_piece pieces[MOST_PIECES], runs[2 * MOST_PIECES];
static pe_c_range_entry entries[4 * MOST_PIECES];
static size_t piece_count;
static uint64_t run_count;
static pe_c_module module;

/* Why a walk is over, by PE_C_END_*. */
static const char *const ends[] = {"bound", "bottom", "no module", "no function", "records", "long chain", "step",
                                   "zero", "no return address"};

/* Reads the pieces of memory, of both kinds, as many as there is room for: where there may be more, main says so. */
static uint32_t read_memory(void)
{
    pe_c_range stream = PE_C_EMPTY;
    pe_c_dump_piece piece = PE_C_EMPTY;
    pe_c_memory64_walk walk = PE_C_EMPTY;
    uint32_t result = pe_c_dump_stream(dump, dump_length, &info.directory, PE_C_MEMORY_LIST_STREAM, &stream);
    for (uint64_t i = 0; result == PE_C_DONE && piece_count < MOST_PIECES; i++)
        if ((result = pe_c_dump_memory_at(dump, dump_length, &stream, i, &piece)) == PE_C_DONE)
            pieces[piece_count++] = piece.memory;
    if (result != PE_C_NOTHING)
        return result;
    result = pe_c_dump_stream(dump, dump_length, &info.directory, PE_C_MEMORY64_LIST_STREAM, &stream);
    if (result == PE_C_DONE)
        result = pe_c_dump_memory64(dump, dump_length, &stream, &walk);
    while (result == PE_C_DONE && piece_count < MOST_PIECES)
        if ((result = pe_c_next_memory64(dump, dump_length, &walk, &piece)) == PE_C_DONE)
            pieces[piece_count++] = piece.memory;
    return result;
}

/* Adds the stacks that the records of threads name: a dump without a list has these alone. At offset 0 is the header. */
static uint32_t read_stacks(void)
{
    pe_c_range stream = PE_C_EMPTY;
    pe_c_dump_thread thread = PE_C_EMPTY;
    uint32_t result = pe_c_dump_stream(dump, dump_length, &info.directory, PE_C_THREAD_LIST_STREAM, &stream);
    for (uint64_t i = 0; result == PE_C_DONE && piece_count < MOST_PIECES; i++) {
        result = pe_c_dump_thread_at(dump, dump_length, &stream, i, &thread);
        pe_c_dump_location at = thread.stack.memory;
        if (result == PE_C_DONE && at.rva != 0 && at.rva < dump_length) {
            uint64_t there = at.size < dump_length - at.rva ? at.size : dump_length - at.rva;
            pe_c_memory_piece own = {thread.stack.start_of_memory_range, at.rva, there};
            pieces[piece_count++] = own;
        }
    }
    return result;
}

/* Puts them in order. */
static uint32_t order_memory(void)
{
    return pe_c_memory_runs(pieces, piece_count, entries, 4 * MOST_PIECES, runs, 2 * MOST_PIECES, &run_count);
}

/* Finds the module whose image this is: its time stamp and its size are the image's. */
static uint32_t find_module(void)
{
    pe_c_range stream = PE_C_EMPTY;
    pe_c_dump_module found = PE_C_EMPTY;
    uint32_t result = pe_c_dump_stream(dump, dump_length, &info.directory, PE_C_MODULE_LIST_STREAM, &stream);
    for (uint64_t i = 0; result == PE_C_DONE; i++) {
        result = pe_c_dump_module_at(dump, dump_length, &stream, i, &found);
        if (result == PE_C_DONE && pe_c_is_image_of(module.image.image, &found) == PE_C_DONE) {
            module.base = found.base_of_image;
            return PE_C_DONE;
        }
    }
    return result;
}

static uint32_t read_module(const char *name)
{
    uint32_t result = read_image(name, PE_C_PERMISSIVE, &module.image);
    if (result == PE_C_DONE)
        result = pe_c_function_table(&module.image, &module.table);
    if (result == PE_C_NOTHING)
        return PE_C_DONE;
    return result;
}

/* Reads the registers of the thread that crashed, as they were then. */
static uint32_t read_context(pe_c_context *context)
{
    pe_c_range stream = PE_C_EMPTY;
    pe_c_dump_raised raised = PE_C_EMPTY;
    uint32_t result = pe_c_dump_stream(dump, dump_length, &info.directory, PE_C_EXCEPTION_STREAM, &stream);
    if (result == PE_C_DONE)
        result = pe_c_dump_exception(dump, dump_length, &stream, &raised);
    if (result == PE_C_DONE)
        result = pe_c_dump_context(dump, dump_length, &raised.thread_context, context);
    return result;
}

static uint32_t show_stack(const pe_c_context *context)
{
    pe_c_stack_walk walk = PE_C_EMPTY;
    uint32_t result;
    walk.registers = context->registers;
    walk.remaining = MOST_FRAMES;
    while ((result = pe_c_next_frame(&module, 1, dump, dump_length, runs, (size_t)run_count, &walk)) == PE_C_DONE) {
        uint64_t rip = walk.registers.rip;
        if (rip - module.base < module.image.image->size_of_image)
            printf("image+%" PRIx64 "\n", rip - module.base);
        else
            printf("%" PRIx64 "\n", rip);
    }
    if (result == PE_C_NOTHING)
        puts(ends[walk.end]);
    return result;
}

int main(int argc, char **argv)
{
    pe_c_context context = PE_C_EMPTY;
    if (argc != 3)
        return usage("dump_stack DUMP IMAGE");
    dump_length = read_file(argv[1], dump, sizeof dump);
    uint32_t result = pe_c_dump(dump, dump_length, &info);
    if (result == PE_C_DONE)
        result = read_module(argv[2]);
    if (result == PE_C_DONE)
        result = find_module();
    if (result == PE_C_NOTHING) {
        puts("no module of the dump is this image");
        return 1;
    }
    if (result == PE_C_DONE)
        result = read_memory();
    if (result == PE_C_DONE || result == PE_C_NOTHING)
        result = read_stacks();
    if (result == PE_C_DONE || result == PE_C_NOTHING)
        result = order_memory();
    if (piece_count == MOST_PIECES)
        fprintf(stderr, "the walk has the first %d pieces of memory alone\n", MOST_PIECES);
    if (result == PE_C_DONE)
        result = read_context(&context);
    if (result == PE_C_NOTHING) {
        puts("the dump has no exception");
        return 1;
    }
    if (result == PE_C_DONE)
        result = show_stack(&context);
    return status_of(result);
}
