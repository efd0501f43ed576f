/* For the control alone: what the object of Linux calls, by the convention of System V. Those of the C library of
 * Windows have another, and a program that links them crashes. */
#include <stddef.h>
#include <stdint.h>

#define SYSV __attribute__((sysv_abi))

SYSV void *sysv_memcpy(void *to, const void *from, size_t length);
SYSV void *sysv_memset(void *to, int byte, size_t length);
SYSV void *sysv_memmove(void *to, const void *from, size_t length);

SYSV void *sysv_memcpy(void *to, const void *from, size_t length)
{
    void *at = to;
    __asm__ volatile("rep movsb" : "+D"(at), "+S"(from), "+c"(length) : : "memory");
    return to;
}

SYSV void *sysv_memset(void *to, int byte, size_t length)
{
    void *at = to;
    __asm__ volatile("rep stosb" : "+D"(at), "+c"(length) : "a"(byte) : "memory");
    return to;
}

SYSV void *sysv_memmove(void *to, const void *from, size_t length)
{
    if ((uintptr_t)to - (uintptr_t)from >= length)
        return sysv_memcpy(to, from, length);
    char *at = (char *)to + length - 1;
    const char *source = (const char *)from + length - 1;
    __asm__ volatile("std; rep movsb; cld" : "+D"(at), "+S"(source), "+c"(length) : : "memory");
    return to;
}
