/* What a compiler may call, for the module of all_calls.c alone: the library's module has its own. It is compiled
 * with -fno-builtin, since else these loops become calls of themselves. */
typedef __SIZE_TYPE__ size_t;

void *memcpy(void *to, const void *from, size_t length);
void *memset(void *to, int byte, size_t length);

void *memcpy(void *to, const void *from, size_t length)
{
    for (size_t i = 0; i < length; i++)
        ((char *)to)[i] = ((const char *)from)[i];
    return to;
}

void *memset(void *to, int byte, size_t length)
{
    for (size_t i = 0; i < length; i++)
        ((char *)to)[i] = (char)byte;
    return to;
}
