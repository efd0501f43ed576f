/* Keeps the calls of all threads, and writes dumps: from a thread of the process, and from another process, which also walks
 * each thread by StackWalk64. Lines on standard output, with hexadecimal addresses:
 *
 *     call THREAD NAME RIP RSP       a call that has not returned: where it returns to, with which stack pointer
 *     virtual RIP RSP                a frame of the crashed thread by RtlVirtualUnwind
 *     walked THREAD RIP RSP          a frame by StackWalk64
 *     dump NAME                      a dump that was written
 */
#include "crashes.h"
#include <dbghelp.h>
#include <stdio.h>
#include <stdlib.h>
#include <tlhelp32.h>

enum { MOST_CALLS = 1 << 16, MOST_FRAMES = 6000 };

volatile int zero = 0, one = 1, sink;
char *volatile pointer_sink;
int *volatile nowhere = 0;

static struct {
    const char *name;
    void *return_address, *pointer;
    DWORD thread;
} calls[MOST_CALLS];
static volatile LONG count_of_calls;
static const char *program, *prefix;

void enter(const char *name, void *return_address, void *pointer)
{
    LONG index = InterlockedIncrement(&count_of_calls) - 1;
    if (index >= MOST_CALLS)
        return;
    calls[index].name = name;
    calls[index].return_address = return_address;
    calls[index].pointer = pointer;
    calls[index].thread = GetCurrentThreadId();
}

void leave(void)
{
    DWORD thread = GetCurrentThreadId();
    for (LONG index = min(count_of_calls, MOST_CALLS) - 1; index >= 0; index--)
        if (calls[index].thread == thread && calls[index].name) {
            calls[index].name = 0;
            return;
        }
}

void forget_calls(void)
{
    DWORD thread = GetCurrentThreadId();
    for (LONG index = 0; index < min(count_of_calls, MOST_CALLS); index++)
        if (calls[index].thread == thread)
            calls[index].name = 0;
}

static void print_calls(void)
{
    for (LONG i = 0; i < min(count_of_calls, MOST_CALLS); i++)
        if (calls[i].name)
            printf("call %lu %s %p %p\n", calls[i].thread, calls[i].name, calls[i].return_address, calls[i].pointer);
}

/* Lines of the frames by RtlVirtualUnwind. It is told nothing of leaf functions but that the top frame is one where no function
 * covers it. */
static void walk_virtually(CONTEXT context)
{
    for (int i = 0; i < MOST_FRAMES && context.Rip; i++) {
        DWORD64 base = 0, frame = 0;
        void *handler_data = 0;
        printf("virtual %llx %llx\n", context.Rip, context.Rsp);
        PRUNTIME_FUNCTION function = RtlLookupFunctionEntry(context.Rip, &base, 0);
        if (function) {
            RtlVirtualUnwind(UNW_FLAG_NHANDLER, base, context.Rip, function, &context, &handler_data, &frame, 0);
        } else if (i == 0 && !IsBadReadPtr((void *)context.Rsp, 8)) {
            context.Rip = *(DWORD64 *)context.Rsp;
            context.Rsp += 8;
        } else {
            break;
        }
        if (IsBadReadPtr((void *)context.Rsp, 8))
            break;
    }
}

static void write_dump(HANDLE process, DWORD id, const char *kind, MINIDUMP_TYPE type, MINIDUMP_EXCEPTION_INFORMATION *exception)
{
    char name[MAX_PATH];
    snprintf(name, sizeof name, "%s.%s.dmp", prefix, kind);
    HANDLE file = CreateFileA(name, GENERIC_READ | GENERIC_WRITE, 0, 0, CREATE_ALWAYS, 0, 0);
    BOOL is_written = MiniDumpWriteDump(process, id, file, type, exception, 0, 0);
    CloseHandle(file);
    if (is_written)
        printf("dump %s\n", kind);
    fflush(stdout);
}

struct crash {
    EXCEPTION_POINTERS *exception;
    DWORD thread;
};

static void write_inside(const struct crash *crash)
{
    MINIDUMP_EXCEPTION_INFORMATION exception = {crash->thread, crash->exception, FALSE};
    write_dump(GetCurrentProcess(), GetCurrentProcessId(), "inside", MiniDumpNormal, crash->exception ? &exception : 0);
}

/* Starts this program again, which writes the dumps of this process. */
static void write_outside(const struct crash *crash)
{
    char line[2 * MAX_PATH];
    STARTUPINFOA start = {.cb = sizeof start};
    PROCESS_INFORMATION process;
    snprintf(line, sizeof line, "%s %s write %lu %lu %p", program, prefix, GetCurrentProcessId(), crash->thread, crash->exception);
    if (!CreateProcessA(0, line, 0, 0, TRUE, 0, 0, 0, &start, &process)) {
        printf("failed to start %s\n", line);
        return;
    }
    WaitForSingleObject(process.hProcess, 60000);
}

static struct crash the_crash;
static HANDLE is_crashed, is_written;

/* A thread that waits for the crash: the one that crashed may have no stack left. */
static DWORD WINAPI report(void *unused)
{
    WaitForSingleObject(is_crashed, INFINITE);
    print_calls();
    if (the_crash.exception)
        walk_virtually(*the_crash.exception->ContextRecord);
    fflush(stdout);
    write_outside(&the_crash);
    write_inside(&the_crash);
    SetEvent(is_written);
    return 0;
}

void write_dumps(EXCEPTION_POINTERS *exception)
{
    the_crash.exception = exception;
    the_crash.thread = GetCurrentThreadId();
    SetEvent(is_crashed);
    WaitForSingleObject(is_written, 90000);
}

static void walk_thread(HANDLE process, DWORD id, CONTEXT context)
{
    HANDLE thread = OpenThread(THREAD_ALL_ACCESS, FALSE, id);
    STACKFRAME64 frame = {0};
    frame.AddrPC.Offset = context.Rip;
    frame.AddrStack.Offset = context.Rsp;
    frame.AddrFrame.Offset = context.Rbp;
    frame.AddrPC.Mode = frame.AddrStack.Mode = frame.AddrFrame.Mode = AddrModeFlat;
    for (int i = 0; i < MOST_FRAMES; i++) {
        if (!StackWalk64(IMAGE_FILE_MACHINE_AMD64, process, thread, &frame, &context, 0, SymFunctionTableAccess64,
                         SymGetModuleBase64, 0))
            break;
        printf("walked %lu %llx %llx\n", id, frame.AddrPC.Offset, frame.AddrStack.Offset);
    }
    CloseHandle(thread);
}

/* The context with which a thread is walked: that of the exception in the thread that crashed. */
static BOOL context_of(HANDLE process, DWORD id, const struct crash *crash, CONTEXT *context)
{
    EXCEPTION_POINTERS pointers;
    SIZE_T count;
    if (id == crash->thread && crash->exception)
        return ReadProcessMemory(process, crash->exception, &pointers, sizeof pointers, &count)
            && ReadProcessMemory(process, pointers.ContextRecord, context, sizeof *context, &count);
    HANDLE thread = OpenThread(THREAD_ALL_ACCESS, FALSE, id);
    context->ContextFlags = CONTEXT_ALL;
    SuspendThread(thread);
    BOOL is_there = GetThreadContext(thread, context);
    ResumeThread(thread);
    CloseHandle(thread);
    return is_there;
}

static void walk_threads(HANDLE process, DWORD id, const struct crash *crash)
{
    THREADENTRY32 entry = {.dwSize = sizeof entry};
    SymSetOptions(SYMOPT_DEFERRED_LOADS);
    SymInitialize(process, 0, TRUE);
    HANDLE threads = CreateToolhelp32Snapshot(TH32CS_SNAPTHREAD, 0);
    for (BOOL is_one = Thread32First(threads, &entry); is_one; is_one = Thread32Next(threads, &entry)) {
        CONTEXT context = {0};
        if (entry.th32OwnerProcessID == id && context_of(process, entry.th32ThreadID, crash, &context))
            walk_thread(process, entry.th32ThreadID, context);
    }
}

/* `PREFIX write PROCESS THREAD EXCEPTION`: writes the dumps of another process. */
static int write_of(char **arguments)
{
    DWORD id = strtoul(arguments[0], 0, 10);
    struct crash crash = {(void *)strtoull(arguments[2], 0, 16), strtoul(arguments[1], 0, 10)};
    MINIDUMP_EXCEPTION_INFORMATION exception = {crash.thread, crash.exception, TRUE};
    MINIDUMP_EXCEPTION_INFORMATION *known = crash.exception ? &exception : 0;
    HANDLE process = OpenProcess(PROCESS_ALL_ACCESS, FALSE, id);
    write_dump(process, id, "outside", MiniDumpNormal, known);
    walk_threads(process, id, &crash);
    return 0;
}

static LONG WINAPI on_crash(EXCEPTION_POINTERS *exception)
{
    write_dumps(exception);
    TerminateProcess(GetCurrentProcess(), 77);
    return EXCEPTION_EXECUTE_HANDLER;
}

static void begin(char *started, char *named)
{
    program = started;
    prefix = named;
    setvbuf(stdout, 0, _IOFBF, 1 << 16);
    is_crashed = CreateEventA(0, TRUE, FALSE, 0);
    is_written = CreateEventA(0, TRUE, FALSE, 0);
    CreateThread(0, 0, report, 0, 0, 0);
}

/* `PREFIX CASE` runs a case, whose dumps begin with the prefix. */
int main(int count, char **arguments)
{
    if (count < 3)
        return 2;
    prefix = arguments[1];
    if (count == 6)
        return write_of(arguments + 3);
    int number = atoi(arguments[2]);
    begin(arguments[0], arguments[1]);
    SetUnhandledExceptionFilter(on_crash);
    ENTER("main");
    run_case(number);
    LEAVE();
    return sink & 1;
}
