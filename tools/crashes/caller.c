/* A DLL that calls back: in a loop, and by a tail call. */
#include <windows.h>

#define EXPORTED __attribute__((noinline)) __declspec(dllexport)

typedef int (*callback)(int);
static volatile int sink;

EXPORTED int call_each(callback called, int count)
{
    int sum = 0;
    for (int i = 0; i < count; i++)
        sum += called(i) * (i + 1);
    sink = sum;
    return sum;
}

EXPORTED int call_last(callback called)
{
    sink++;
    return called(9);
}
