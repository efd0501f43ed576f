/* minidump_module: what a minidump says of a module, read from the module's memory: time stamp, image size and checksum,
 * the key of its file on a symbol server, and that of its symbols.
 *
 *     minidump_module FILE    FILE is a copy of the memory, from the module's first byte on */
#include "pe.h"
#include "example.h"

#include <inttypes.h>
#include <stdio.h>

static void show_key(const pe_c_view *view, const pe_c_key *key)
{
    char guid[33] = "";
    uint64_t written = 0;
    if (pe_c_guid_text(key->guid, sizeof key->guid, PE_C_GUID_DIGITS, guid, sizeof guid, &written) != PE_C_DONE)
        return;
    printf("symbols %s%" PRIX32 " ", guid, key->age);
    show_name(view->bytes, &key->name);
    printf("\n");
}

int main(int argc, char **argv)
{
    if (argc != 2)
        return usage("minidump_module FILE");
    pe_c_view view = PE_C_EMPTY;
    pe_c_key key = PE_C_EMPTY;
    uint32_t result = read_image(argv[1], PE_C_PERMISSIVE | PE_C_MAPPED, &view);
    if (result == PE_C_DONE) {
        const pe_c_image_info *image = view.image;
        printf("stamp %08" PRIx32 " size %08" PRIx32 " checksum %08" PRIx32 "\n", image->time_date_stamp,
               image->size_of_image, image->checksum);
        printf("image %08" PRIX32 "%" PRIx32 "\n", image->time_date_stamp, image->size_of_image);
        result = pe_c_symbol_key(&view, &key);
    }
    if (result == PE_C_DONE)
        show_key(&view, &key);
    return status_of(result);
}
