/* A program with resources, for tools/try_edited: says what it finds of them in itself. */
#include <windows.h>
#include <stdio.h>

static VS_FIXEDFILEINFO version(void)
{
    static char path[MAX_PATH], room[4096];
    VS_FIXEDFILEINFO none = {0}, *found = &none;
    UINT length;
    GetModuleFileNameA(NULL, path, sizeof path);
    if (GetFileVersionInfoA(path, 0, sizeof room, room))
        VerQueryValueA(room, "\\", (void **)&found, &length);
    return *found;
}

int main(void)
{
    HRSRC found = FindResourceA(NULL, MAKEINTRESOURCEA(7), RT_RCDATA);
    DWORD size = found ? SizeofResource(NULL, found) : 0;
    const unsigned char *bytes = found ? LockResource(LoadResource(NULL, found)) : NULL;
    unsigned sum = 0;
    for (DWORD i = 0; i < size; i++)
        sum = 31 * sum + bytes[i];
    VS_FIXEDFILEINFO info = version();
    printf("runs %lu %u %d ", size, sum, LoadIconA(GetModuleHandleA(NULL), MAKEINTRESOURCEA(1)) != NULL);
    printf("%u.%u.%u.%u\n", HIWORD(info.dwFileVersionMS), LOWORD(info.dwFileVersionMS), HIWORD(info.dwFileVersionLS), LOWORD(info.dwFileVersionLS));
    return 0;
}
