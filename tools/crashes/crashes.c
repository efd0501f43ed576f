/* The ways to crash of tools/try_dumps: each case is a function of the table at the end, which its number names. */
#include "crashes.h"
#include <stdio.h>
#include <stdlib.h>
#include <string.h>

__declspec(dllimport) int call_each(callback called, int count);
__declspec(dllimport) int call_last(callback called);

#define COLD __attribute__((cold, noinline))

/* A function that crashes at once. */
#define CRASHES(head, name, after) \
    static head \
    { \
        ENTER(name); \
        sink = *nowhere; \
        LEAVE(); \
        after; \
    }
/* Room whose numbers follow from two arguments. */
#define FILLED_ROOM(factor) \
    int room[20]; \
    for (int i = 0; i < 20; i++) \
        room[i] = i * factor; \
    pointer_sink = (char *)room

/* ---- what most cases end in */

NOT_INLINE static int reads_nowhere(int n)
{
    ENTER("reads_nowhere");
    sink = *nowhere + n;
    LEAVE();
    return sink;
}

NOT_INLINE static int crashes_at_3(int n)
{
    ENTER("crashes_at_3");
    if (n == 3)
        sink = *nowhere;
    LEAVE();
    return n * one;
}

/* ---- frames of the program itself */

NOT_INLINE static int writes(int *to, int value)
{
    to[0] = value;
    return value + 1;
}

NOT_INLINE static int calls_leaf(int n)
{
    ENTER("calls_leaf");
    int result = writes(nowhere, n) + n;
    LEAVE();
    return result * 3 + sink;
}

static void in_a_leaf(void) { sink = calls_leaf(5); }

NOT_INLINE static int goes_down(int n, int a, int b)
{
    ENTER("goes_down");
    char room[24];
    pointer_sink = room;
    int result = n == 0 ? *nowhere : goes_down(n - 1, b, a + n) + a;
    LEAVE();
    return result + room[sink & 7];
}

static void deep(void) { sink = goes_down(3000, 1, 2); }

NOT_INLINE static int floods(int n)
{
    char room[4000];
    pointer_sink = room;
    room[n & 1023] = 1;
    return floods(n + 1) + room[sink & 7];
}

static void stack_overflow(void) { sink = floods(1); }

NOT_INLINE static int allocates(int n)
{
    ENTER("allocates");
    char *first = __builtin_alloca(n * 16 + 5);
    pointer_sink = first;
    first[0] = 1;
    char *second = __builtin_alloca(n * 100 + 3);
    pointer_sink = second;
    second[n] = 2;
    sink = *nowhere;
    LEAVE();
    return first[0] + second[n];
}

static void after_alloca(void) { sink = allocates(77); }

NOT_INLINE static int is_large(int n)
{
    ENTER("is_large");
    char room[70000];
    pointer_sink = room;
    room[n] = 1;
    sink = *nowhere;
    LEAVE();
    return room[n];
}

static void large_frame(void) { sink = is_large(77); }

/* ---- parts and tail calls */

COLD static int is_rare(int n)
{
    ENTER("is_rare");
    sink = n;
    *nowhere = n;
    LEAVE();
    return n;
}

NOT_INLINE static int calls_rare(int n, int factor)
{
    ENTER("calls_rare");
    FILLED_ROOM(factor);
    if (__builtin_expect(n == 77, 0)) {
        sink = is_rare(factor) + room[3];
        sink += is_rare(factor + 1) * room[n & 15];
    }
    LEAVE();
    return room[n & 15] + sink;
}

static void from_a_cold_part(void) { sink = calls_rare(77, 3); }

COLD static void notes(int n)
{
    sink = n;
}

NOT_INLINE static int faults_in_its_cold_part(int n, int factor)
{
    ENTER("faults_in_its_cold_part");
    FILLED_ROOM(factor);
    if (__builtin_expect(n == 77, 0)) {
        notes(factor);
        *nowhere = room[n & 15];
        notes(factor * 3);
        sink = room[n & 7];
    }
    LEAVE();
    return room[n & 15] + sink;
}

static void in_a_cold_part(void) { sink = faults_in_its_cold_part(77, 3); }

NOT_INLINE static int is_called_last(int n)
{
    sink = n;
    return reads_nowhere(n + 3);
}

static void after_a_tail_call(void) { sink = is_called_last(7) * 3; }

__attribute__((noinline, noreturn)) static void never_returns(int n)
{
    ENTER("never_returns");
    sink = n;
    reads_nowhere(n * 3);
    for (;;)
        sink++;
}

NOT_INLINE static int calls_what_never_returns(int n)
{
    ENTER("calls_what_never_returns");
    if (n > 3)
        never_returns(n);
    LEAVE();
    return n + sink;
}

static void call_without_return(void) { sink = calls_what_never_returns(7); }

CRASHES(void crash_called_by_assembler(void *argument), "crash_called_by_assembler", )

static void call_at_a_function_end(void) { call_at_the_end(crash_called_by_assembler, 0); }

/* ---- code that is no function */

static int (*volatile no_function)(int);

NOT_INLINE static int calls_no_function(int n)
{
    ENTER("calls_no_function");
    int result = no_function(n) + n;
    LEAVE();
    return result;
}

static void null_call(void) { sink = calls_no_function(7); }

/* ---- through libraries, and back */

static void from_a_library(void) { sink = call_each(crashes_at_3, 10); }
static void from_a_library_by_a_tail_call(void) { sink = call_last(reads_nowhere); }

CRASHES(BOOL CALLBACK on_locale(LPSTR name), "on_locale", return TRUE)

static void from_kernelbase(void) { EnumSystemLocalesA(on_locale, LCID_INSTALLED); }

static LRESULT CALLBACK on_message(HWND window, UINT message, WPARAM w, LPARAM l)
{
    ENTER("on_message");
    if (message == WM_USER)
        sink = *nowhere;
    LRESULT result = DefWindowProcA(window, message, w, l);
    LEAVE();
    return result;
}

static void from_user32(void)
{
    WNDCLASSA class = {0};
    class.lpfnWndProc = on_message;
    class.lpszClassName = "crashes";
    class.hInstance = GetModuleHandleA(0);
    RegisterClassA(&class);
    HWND window = CreateWindowA("crashes", "", 0, 0, 0, 1, 1, HWND_MESSAGE, 0, class.hInstance, 0);
    if (!window)
        sink = *nowhere;
    SendMessageA(window, WM_USER, 0, 0);
}

NOT_INLINE static int copies(void *to, int count)
{
    ENTER("copies");
    char room[500];
    pointer_sink = room;
    room[3] = 1;
    memcpy(to, room, count);
    LEAVE();
    return room[3];
}

static void in_memcpy(void) { sink = copies((void *)(DWORD64)0x20, 300 + zero); }

/* ---- threads */

static HANDLE event;

static DWORD WINAPI waits(void *argument)
{
    ENTER("waits");
    WaitForSingleObject(event, INFINITE);
    LEAVE();
    return sink;
}

static DWORD WINAPI sleeps(void *argument)
{
    ENTER("sleeps");
    for (;;)
        Sleep(50);
}

static DWORD WINAPI crashes_later(void *argument)
{
    ENTER("crashes_later");
    Sleep(300);
    sink = *nowhere;
    LEAVE();
    return 0;
}

static void in_one_of_several_threads(void)
{
    event = CreateEventA(0, 1, 0, 0);
    HANDLE threads[] = {
        CreateThread(0, 0, waits, 0, 0, 0),
        CreateThread(0, 0, sleeps, 0, 0, 0),
        CreateThread(0, 0, crashes_later, 0, 0, 0),
    };
    WaitForMultipleObjects(3, threads, TRUE, INFINITE);
}

CRASHES(void CALLBACK works(PTP_CALLBACK_INSTANCE instance, void *argument), "works", )

static void in_a_thread_pool(void)
{
    TrySubmitThreadpoolCallback(works, 0, 0);
    Sleep(INFINITE);
}

CRASHES(void CALLBACK on_apc(ULONG_PTR number), "on_apc", )

static void in_an_apc(void)
{
    QueueUserAPC(on_apc, GetCurrentThread(), 5);
    SleepEx(100, TRUE);
}

CRASHES(void CALLBACK on_fiber(void *argument), "on_fiber", )

static void in_a_fiber(void)
{
    ConvertThreadToFiber(0);
    forget_calls();
    SwitchToFiber(CreateFiber(0, on_fiber, 0));
}

/* ---- exceptions */

static LONG CALLBACK reads_nowhere_after_division(EXCEPTION_POINTERS *exception)
{
    ENTER("reads_nowhere_after_division");
    if (exception->ExceptionRecord->ExceptionCode == EXCEPTION_INT_DIVIDE_BY_ZERO)
        sink = *nowhere;
    LEAVE();
    return EXCEPTION_CONTINUE_SEARCH;
}

NOT_INLINE static int divides(int a, int b)
{
    ENTER("divides");
    int result = a / b;
    LEAVE();
    return result + one;
}

static void in_a_handler(void)
{
    AddVectoredExceptionHandler(1, reads_nowhere_after_division);
    sink = divides(5, zero);
}

static LONG CALLBACK raises_after_fault(EXCEPTION_POINTERS *exception)
{
    ENTER("raises_after_fault");
    if (exception->ExceptionRecord->ExceptionCode == EXCEPTION_ACCESS_VIOLATION)
        RaiseException(0xE0000077, EXCEPTION_NONCONTINUABLE, 0, 0);
    LEAVE();
    return EXCEPTION_CONTINUE_SEARCH;
}

static void raised_in_a_handler(void)
{
    AddVectoredExceptionHandler(1, raises_after_fault);
    sink = reads_nowhere(1);
}

static void without_an_exception(void)
{
    write_dumps(0);
    TerminateProcess(GetCurrentProcess(), 77);
}

void run_case(int number)
{
    static void (*const cases[])(void) = {
        in_a_leaf, deep, stack_overflow, after_alloca, large_frame, from_a_cold_part, in_a_cold_part, after_a_tail_call,
        call_without_return, call_at_a_function_end, trap_in_prolog, trap_in_prolog_with_frame_register, null_call,
        from_a_library, from_a_library_by_a_tail_call, from_kernelbase, from_user32, in_memcpy, in_one_of_several_threads,
        in_a_thread_pool, in_an_apc, in_a_fiber, in_a_handler, raised_in_a_handler, without_an_exception,
    };
    if (number < 0 || number >= (int)(sizeof cases / sizeof *cases))
        ExitProcess(3);
    ENTER("run_case");
    cases[number]();
    LEAVE();
}
