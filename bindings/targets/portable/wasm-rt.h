/* The header of wasm2c's run-time, as a library needs it: each access to the module's memory is tested, and none by a signal handler,
 * which would be one of the process; threads share no counter; a trap, which no call is known to end in, ends the program, since
 * nothing else can be said of the memory after it. */
#ifndef PE_PORTABLE_RUN_TIME_H
#define PE_PORTABLE_RUN_TIME_H

#define WASM_RT_MEMCHECK_SIGNAL_HANDLER 0
#define WASM_RT_USE_STACK_DEPTH_COUNT 0
#define WASM_RT_TRAP_HANDLER(code) abort()
#include "wasm2c/wasm-rt.h"

#endif
