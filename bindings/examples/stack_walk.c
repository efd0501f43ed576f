#include "pe.h"

/* The registers of the caller of an x64 frame, in place: by the module that has the frame's rip, and a piece of the thread's
 * stack. `is_call` is 0 in the top frame, and in one that an interrupt stopped. In every other it is 1: its rip is a return
 * address, so the call before it is looked up. PE_C_NOTHING where no function has made that call. */
uint32_t caller_of(const pe_c_module *module, const uint8_t *stack, const pe_c_memory_piece *piece, uint32_t is_call,
                   pe_c_frame *frame)
{
    const pe_c_view *view = &module->image;
    const uint8_t *code = NULL;
    size_t code_length = 0;
    uint64_t offset = 0;
    frame->rva = (uint32_t)(frame->registers.rip - module->base);
    uint32_t result = pe_c_find_function(view->bytes, view->length, &module->table, frame->rva - is_call, &frame->function);
    if (result != PE_C_DONE && (result != PE_C_NOTHING || is_call))
        return result;
    frame->leaf = result == PE_C_NOTHING;
    /* The code tells whether the top frame is in an epilog. */
    if (!frame->leaf && !is_call && pe_c_offset(view, frame->rva, &offset) == PE_C_DONE
        && offset < view->length && frame->function.end - frame->rva <= view->length - offset) {
        code = view->bytes + offset;
        code_length = frame->function.end - frame->rva;
    }
    return pe_c_step(view, &module->table, code, code_length, stack, piece->length, piece, 1, frame);
}

#include <inttypes.h>
#include <stdio.h>
#include <stdlib.h>

#include "example.h"

static uint8_t stack[1 << 12];

/* The frames of a thread in one image. Its stack starts at address 20000 with the words that are named:
 *     stack_walk FILE BASE RIP WORD.. */
int main(int argc, char **argv)
{
    if (argc < 4 || (size_t)(argc - 4) > sizeof stack / 8)
        return usage("stack_walk FILE BASE RIP WORD.., 512 words at most");
    size_t stack_length = 0;
    uint64_t base = hexadecimal(argv[2], UINT64_MAX);
    for (int i = 4; i < argc; i++, stack_length += 8)
        for (size_t j = 0; j < 8; j++)
            stack[stack_length + j] = (uint8_t)(hexadecimal(argv[i], UINT64_MAX) >> 8 * j);

    pe_c_module module = PE_C_EMPTY;
    module.base = base;
    uint32_t result = read_image(argv[1], PE_C_PERMISSIVE, &module.image);
    if (result == PE_C_DONE && !is_for(&module.image, 0x8664))
        return 1;
    if (result == PE_C_DONE)
        result = pe_c_function_table(&module.image, &module.table);
    /* Without a table all functions are leaf functions. */
    if (result == PE_C_NOTHING)
        result = PE_C_DONE;
    pe_c_memory_piece piece = {0x20000, 0, stack_length};
    pe_c_frame frame = PE_C_EMPTY;
    frame.registers.rip = hexadecimal(argv[3], UINT64_MAX);
    frame.registers.general[4] = piece.start;
    for (uint32_t depth = 0; result == PE_C_DONE && depth < 1000; depth++) {
        printf("%" PRIx64 "\n", frame.registers.rip);
        if (frame.registers.rip - base > UINT32_MAX)
            return 0;
        result = caller_of(&module, stack, &piece, depth > 0 && !frame.interrupted, &frame);
    }
    if (result == PE_C_MISSING)
        printf("memory is missing at %" PRIx64 "\n", frame.address);
    return status_of(result);
}
