/* version: the version information of an image: the versions of the file and of the product, and the name of the product.
 *
 *     version FILE */
#include "pe.h"
#include "example.h"

#include <inttypes.h>
#include <stdio.h>

static pe_c_view view;
/* Three bytes of UTF-8 for each code unit of the longest text. */
static char name[3 << 15];

/* A version is four numbers of 16 bits in two of 32. */
static void show_numbers(const char *what, uint32_t ms, uint32_t ls)
{
    printf("%s %" PRIu32 ".%" PRIu32 ".%" PRIu32 ".%" PRIu32 "\n", what, ms >> 16, ms & 0xFFFF, ls >> 16, ls & 0xFFFF);
}

static uint32_t show_version(void)
{
    pe_c_version version = PE_C_EMPTY;
    pe_c_range text = PE_C_EMPTY;
    uint32_t result = pe_c_fixed_version(&view, &version);
    if (result == PE_C_DONE) {
        show_numbers("file", version.file_version_ms, version.file_version_ls);
        show_numbers("product", version.product_version_ms, version.product_version_ls);
    }
    if (result == PE_C_DONE || result == PE_C_NOTHING)
        result = pe_c_version_text(&view, PE_C_PRODUCT_NAME, &text);
    uint64_t length = 0;
    if (result == PE_C_DONE)
        result = pe_c_utf16_text(view.bytes, view.length, &text, name, sizeof name, &length);
    if (result == PE_C_DONE) {
        pe_c_range shown = {0, length};
        printf("name ");
        show_name((const uint8_t *)name, &shown);
        printf("\n");
    }
    return result;
}

int main(int argc, char **argv)
{
    if (argc != 2)
        return usage("version FILE");
    uint32_t result = read_image(argv[1], PE_C_PERMISSIVE, &view);
    if (result == PE_C_DONE)
        result = show_version();
    return status_of(result);
}
