/* Loads the DLL, and a copy of it, of which one cannot be at its preferred base, and compares all texts of results:
 * their addresses are what base relocations change. */
#include <windows.h>
#include <stdio.h>
#include <stdint.h>

typedef size_t (*text_call)(uint32_t number, char *room, size_t length);

static text_call loaded(const char *path)
{
    HMODULE dll = LoadLibraryA(path);
    return dll ? (text_call)(void *)GetProcAddress(dll, "pe_c_text") : NULL;
}

int main(int count, char **paths)
{
    text_call one = count == 3 ? loaded(paths[1]) : NULL, other = count == 3 ? loaded(paths[2]) : NULL;
    int texts = 0, differ = 0;
    if (!one || !other || one == other)
        return 3;
    for (uint32_t number = 0; number < 500; number++) {
        char mine[128] = {0}, its[128] = {0};
        size_t length = one(number, mine, sizeof mine);
        texts += length > 0;
        differ += other(number, its, sizeof its) != length || memcmp(mine, its, sizeof mine) != 0;
    }
    printf("%d texts, %d differ\n", texts, differ);
    return texts < 60 || differ > 0;
}
