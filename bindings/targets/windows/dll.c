/* The DLL has nothing to do when a process or a thread starts or ends: the library keeps no state. */
#include <windows.h>

BOOL WINAPI DllMainCRTStartup(HINSTANCE dll, DWORD why, LPVOID reserved);
BOOL WINAPI DllMainCRTStartup(HINSTANCE dll, DWORD why, LPVOID reserved)
{
    (void)dll, (void)why, (void)reserved;
    return TRUE;
}
