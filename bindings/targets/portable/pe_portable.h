/* pe_portable.h: pe.h over the library as WebAssembly that was translated to C, for systems that the library is not compiled for:
 * 64-bit little-endian ones, with a compiler that knows GNU C11. The calls are those of pe.h, with its obligations.
 *
 * The library works in a memory of its own, of less than 4 GiB a thread, so each call copies into it what its pointers lead to,
 * and copies out what it wrote. Of a file that is walked item by item that is a copy of the file for each item: lend the file.
 *
 *     pe_portable_lend(bytes, length);
 *     ...                              calls, whose pointers to constant bytes may lead into these
 *     pe_portable_end();
 *
 * A call whose arguments do not fit into that memory returns PE_C_MEMORY, pe_c_text 0. pe_c_message is no call and needs none. */
#ifndef PE_PORTABLE_H
#define PE_PORTABLE_H
#include "pe.h"

#ifdef __cplusplus
extern "C" {
#endif

/* Copies bytes into the memory of this thread, for all calls of it up to pe_portable_end. They must not change up to then. Returns
 * PE_C_DONE; PE_C_ROOM where 8 are lent already; PE_C_MEMORY. */
uint32_t pe_portable_lend(const uint8_t *bytes, size_t length);

/* Ends the loans, and frees the memory of this thread, which grows up to what its calls need most. A thread that ends without this
 * call leaks it. The next call allocates it again. */
void pe_portable_end(void);

#ifdef __cplusplus
}
#endif
#endif
