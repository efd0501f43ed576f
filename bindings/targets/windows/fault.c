/* fault NUMBER: a page of the file cannot be read, as one of a mapped file on a server that is gone, and a call
 * faults inside the library. From there the stack is walked by the unwind tables, as debuggers, crash reporters and
 * __except do. The status is 0 where that finds main, 1 where it does not, and 2 where nothing faulted. NUMBER is the
 * call: 0 pe_c_image, 1 pe_c_sections, 2 pe_c_rich_header, 3 pe_c_detach, which copies. */
#include <windows.h>
#include <stdio.h>
#include <stdlib.h>
#include "pe.h"

enum { PAGE = 4096, FRAMES = 60 };
int main(int count, char **words);

static LONG CALLBACK on_fault(EXCEPTION_POINTERS *fault)
{
    CONTEXT context = *fault->ContextRecord;
    for (int frames = 0; frames < FRAMES && context.Rip; frames++) {
        DWORD64 base, frame;
        void *data;
        RUNTIME_FUNCTION *function = RtlLookupFunctionEntry(context.Rip, &base, NULL);
        if (!function)
            break;
        if (base + function->BeginAddress == (DWORD64)main) {
            printf("main is found after %d frames\n", frames);
            fflush(stdout);
            ExitProcess(frames == 0);
        }
        RtlVirtualUnwind(0, base, context.Rip, function, &context, &data, &frame, NULL);
    }
    printf("main is not found\n");
    fflush(stdout);
    ExitProcess(1);
}

/* A PE32+ image of two pages, whose PE header is at an offset and whose second page cannot be read. */
static uint8_t *image_with_header_at(uint16_t offset)
{
    uint8_t *bytes = VirtualAlloc(NULL, 2 * PAGE, MEM_COMMIT | MEM_RESERVE, PAGE_READWRITE);
    DWORD old;
    if (!bytes)
        exit(3);
    memcpy(bytes, "MZ", 2);
    memcpy(bytes + 0x3C, &offset, 2);
    memcpy(bytes + offset, "PE\0\0\x64\x86\x64\0", 8); /* 100 sections */
    memcpy(bytes + offset + 20, "\xF0\0\x22\0\x0B\x02", 6);
    bytes[offset + 24 + 108] = 16;
    if (!VirtualProtect(bytes + PAGE, PAGE, PAGE_NOACCESS, &old))
        exit(3);
    return bytes;
}

int main(int count, char **words)
{
    static pe_c_section sections[100];
    static uint8_t room[2 * PAGE];
    int number = count > 1 ? atoi(words[1]) : 0;
    /* for pe_c_image a header that the unreadable page cuts, for pe_c_rich_header one after much that is searched */
    uint8_t *bytes = image_with_header_at(number == 0 ? PAGE - 0x90 : 0x80);
    pe_c_image_info image = PE_C_EMPTY;
    pe_c_rich_header_info rich = PE_C_EMPTY;
    uint64_t length = 0;
    if (number == 2)
        *(uint32_t *)(bytes + 0x3C) = PAGE + 0x100;
    if (number % 2)
        if (pe_c_image(bytes, 2 * PAGE, PE_C_PERMISSIVE, &image) != PE_C_DONE)
            return 3;
    pe_c_view view = {bytes, 2 * PAGE, &image, NULL, 0, NULL, 0};
    AddVectoredExceptionHandler(1, on_fault);
    uint32_t result = number == 0 ? pe_c_image(bytes, 2 * PAGE, PE_C_PERMISSIVE, &image)
        : number == 1 ? pe_c_sections(bytes, 2 * PAGE, &image, sections, 100)
        : number == 2 ? pe_c_rich_header(bytes, 2 * PAGE, &rich)
        : pe_c_detach(&view, room, sizeof room, &length);
    printf("no fault, result %u\n", (unsigned)result);
    return 2;
}
