/* The DLL of which Rust's library takes random numbers, by another of Windows. Wine 8 lacks it, and a later Wine takes its own. It is for
   trials alone, and in no package. */
#include <stddef.h>

__declspec(dllimport) unsigned char __stdcall SystemFunction036(void *to, unsigned long length);

__declspec(dllexport) int __stdcall ProcessPrng(unsigned char *to, size_t length)
{
    return length <= 0xFFFFFFFF && SystemFunction036(to, (unsigned long)length);
}
