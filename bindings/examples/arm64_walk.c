#include "pe.h"

/* The registers of the caller of an ARM64 frame, in place: by the module that has the frame's pc, and a piece of the thread's
 * stack. `is_call` is 0 in the top frame, and in one that no call left. In every other it is 1: its pc is a return address, so the
 * call before it is looked up. PE_C_NOTHING where no function has made that call, and PE_C_NOT_RISING where a function that called
 * has left the stack pointer where it is. */
uint32_t arm64_caller_of(const pe_c_module *module, const uint8_t *stack, const pe_c_memory_piece *piece, uint32_t is_call,
                         pe_c_arm64_frame *frame)
{
    const pe_c_view *view = &module->image;
    uint64_t sp = frame->registers.sp;
    frame->rva = (uint32_t)(frame->registers.pc - module->base);
    if (frame->rva < 4 * is_call)
        return PE_C_NOTHING;
    uint32_t result = pe_c_find_arm64_function(view, &module->table, frame->rva - 4 * is_call, &frame->function);
    if (result != PE_C_DONE && (result != PE_C_NOTHING || is_call))
        return result;
    frame->leaf = result == PE_C_NOTHING;
    result = pe_c_step_arm64(view, stack, piece->length, piece, 1, frame);
    if (result == PE_C_DONE && is_call && frame->registers.sp == sp)
        return PE_C_NOT_RISING;
    return result;
}

#include <inttypes.h>
#include <stdio.h>
#include <stdlib.h>

#include "example.h"

static uint8_t stack[1 << 12];

/* The frames of a thread in one image. Its stack starts at address 20000 with the words that are named:
 *     arm64_walk FILE BASE PC LR WORD.. */
int main(int argc, char **argv)
{
    if (argc < 5 || (size_t)(argc - 5) > sizeof stack / 8)
        return usage("arm64_walk FILE BASE PC LR WORD.., 512 words at most");
    size_t stack_length = 0;
    uint64_t base = hexadecimal(argv[2], UINT64_MAX);
    for (int i = 5; i < argc; i++, stack_length += 8)
        for (size_t j = 0; j < 8; j++)
            stack[stack_length + j] = (uint8_t)(hexadecimal(argv[i], UINT64_MAX) >> 8 * j);

    pe_c_module module = PE_C_EMPTY;
    module.base = base;
    uint32_t result = read_image(argv[1], PE_C_PERMISSIVE, &module.image);
    if (result == PE_C_DONE && !is_for(&module.image, 0xAA64))
        return 1;
    if (result == PE_C_DONE)
        result = pe_c_arm64_table(&module.image, &module.table);
    /* Without a table all functions are leaf functions. */
    if (result == PE_C_NOTHING)
        result = PE_C_DONE;
    pe_c_memory_piece piece = {0x20000, 0, stack_length};
    pe_c_arm64_frame frame = PE_C_EMPTY;
    frame.registers.pc = hexadecimal(argv[3], UINT64_MAX);
    frame.registers.general[30] = hexadecimal(argv[4], UINT64_MAX);
    frame.registers.sp = piece.start;
    for (uint32_t depth = 0; result == PE_C_DONE && depth < 1000; depth++) {
        printf("%" PRIx64 " %" PRIx64 "\n", frame.registers.pc, frame.registers.sp);
        if (frame.registers.pc - base > UINT32_MAX)
            return 0;
        uint32_t is_call = depth > 0 && !frame.interrupted;
        result = arm64_caller_of(&module, stack, &piece, is_call, &frame);
    }
    if (result == PE_C_MISSING)
        printf("memory is missing at %" PRIx64 "\n", frame.address);
    return status_of(result);
}
