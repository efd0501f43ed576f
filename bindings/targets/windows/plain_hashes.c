/* hashes.c for programs that are compiled and linked as by MSVC, without its C library and its headers: the paths are lines of the
 * file `list`, and what it needs of Windows is declared here. The library's archive calls the functions of memory below. */
#include "all_calls.h"
#include "names.h"

typedef void *handle;

#define FROM_KERNEL32 __declspec(dllimport)
FROM_KERNEL32 handle CreateFileA(const char *path, uint32_t access, uint32_t share, void *security, uint32_t creation, uint32_t flags,
                                 handle other);
FROM_KERNEL32 int ReadFile(handle file, void *room, uint32_t length, uint32_t *read, void *overlapped);
FROM_KERNEL32 int WriteFile(handle file, const void *bytes, uint32_t length, uint32_t *written, void *overlapped);
FROM_KERNEL32 int CloseHandle(handle it);
FROM_KERNEL32 handle GetStdHandle(uint32_t which);
FROM_KERNEL32 void ExitProcess(uint32_t status);

enum { MOST = 1 << 20, OPEN_EXISTING = 3, OUTPUT = -11 };
static const uint32_t GENERIC_READ = 0x80000000;

static struct totals totals;
static uint8_t list[MOST], bytes[MOST], room[MOST];

void *memmove(void *to, const void *from, size_t length)
{
    volatile char *out = to;
    const char *in = from;
    for (size_t i = 0; i < length; i++) {
        size_t at = (uintptr_t)to < (uintptr_t)from ? i : length - 1 - i;
        out[at] = in[at];
    }
    return to;
}

void *memcpy(void *to, const void *from, size_t length)
{
    return memmove(to, from, length);
}

void *memset(void *to, int byte, size_t length)
{
    for (size_t i = 0; i < length; i++)
        ((volatile char *)to)[i] = (char)byte;
    return to;
}

int memcmp(const void *one, const void *other, size_t length)
{
    const volatile uint8_t *left = one, *right = other;
    for (size_t i = 0; i < length; i++)
        if (left[i] != right[i])
            return left[i] - right[i];
    return 0;
}

/* Reads a file that has room, or ends the program. */
static uint32_t read_file(const char *path, uint8_t *to)
{
    uint32_t length = 0;
    handle file = CreateFileA(path, GENERIC_READ, 1, 0, OPEN_EXISTING, 0, 0);
    if (file == (handle)-1 || !ReadFile(file, to, MOST, &length, 0) || length == MOST)
        ExitProcess(3);
    CloseHandle(file);
    return length;
}

static void print(const char *text)
{
    uint32_t length = 0, written;
    while (text[length])
        length++;
    WriteFile(GetStdHandle((uint32_t)OUTPUT), text, length, &written, 0);
}

static void print_number(uint64_t number, uint32_t base, int least)
{
    char digits[32] = {0};
    int at = sizeof digits - 1;
    for (; number || least > 0; number /= base, least--)
        digits[--at] = "0123456789abcdef"[number % base];
    print(digits + at);
}

static void hash(const char *path)
{
    uint32_t length = read_file(path, bytes);
    memset(room, 0, length + 64);
    all_calls(bytes, length, room, length + 64, &totals);
    print_number(totals.hash, 16, 16);
    print(" ");
    print(path);
    print("\n");
}

void start(void);
void start(void)
{
    uint32_t length = read_file("list", list);
    for (uint32_t from = 0, at = 0; at < length; at++)
        if (list[at] == '\n') {
            list[at] = 0;
            hash((const char *)list + from);
            from = at + 1;
        }
    for (uint64_t i = 0; i < totals.calls; i++) {
        print("call ");
        print(names[i]);
        print(" ");
        print_number(totals.made[i], 10, 1);
        print(" ");
        print_number(totals.done[i], 10, 1);
        print("\n");
    }
    ExitProcess(0);
}
