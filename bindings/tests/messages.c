/* What the header's own function returns is what the call writes, for each number that may be a result and many others. The pointers of
 * two stand in one expression, and leave the function that asked for them. tools/bindings runs it. */
#include "pe.h"
#include <stdio.h>
#include <string.h>
static const char *reason_of(uint32_t result)
{
    return result == PE_C_DONE ? NULL : pe_c_message(result);
}
static int is_same(uint32_t number)
{
    char text[128];
    size_t length = pe_c_text(number, text, sizeof text);
    const char *message = pe_c_message(number);
    for (size_t i = 0; i < length; i++)
        if (message[i] < ' ' || message[i] > '~')
            return 0;
    return length < sizeof text && strlen(message) == length && strcmp(message, text) == 0;
}
int main(void)
{
    for (uint32_t number = 0; number < 1 << 16; number++)
        if (!is_same(number) || !is_same(UINT32_MAX - number))
            return 1;
    printf("%s, %s, %s\n", reason_of(PE_C_SHORT), pe_c_message(PE_C_DUMP_MACHINE), reason_of(UINT32_MAX));
    return reason_of(PE_C_DONE) != NULL;
}
