/* What the programs of tools/try_dumps share: each function says of itself where it returns to, and a dump is written where one
 * of them crashes. */
#include <windows.h>

#define NOT_INLINE __attribute__((noinline))

/* Where this function returns to, and the stack pointer after that. Clang's __builtin_dwarf_cfa is not exact here. */
#define RETURN_ADDRESS __builtin_extract_return_addr(__builtin_return_address(0))
#ifdef __clang__
#define POINTER_AFTER ((void *)((char *)_AddressOfReturnAddress() + 8))
#else
#define POINTER_AFTER __builtin_dwarf_cfa()
#endif

/* At the start and the end of a function: its return address and the stack pointer after its return. A walk has to find them. */
#define ENTER(name) enter(name, RETURN_ADDRESS, POINTER_AFTER)
#define LEAVE() leave()
void enter(const char *name, void *return_address, void *pointer);
void leave(void);
/* Forgets the calls of this thread, which goes on with another stack. */
void forget_calls(void);

/* What the compiler must not know. */
extern volatile int zero, one, sink;
extern char *volatile pointer_sink;
extern int *volatile nowhere;

/* Traps in the midst of a prolog, and calls with the last instruction of a function. */
void trap_in_prolog(void);
void trap_in_prolog_with_frame_register(void);
void call_at_the_end(void (*called)(void *), void *argument);

/* Prints what is known of the threads, and has the dumps written. */
void write_dumps(EXCEPTION_POINTERS *exception);

/* Runs a case by its number. */
void run_case(int number);

typedef int (*callback)(int);
