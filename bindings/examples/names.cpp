// names: what an image imports and exports, as names.c prints it, by pe.hpp.
//
//     names FILE
#include "pe.hpp"
#include "example.h"

#include <cinttypes>
#include <cstdio>
#include <string_view>

namespace {

// A name may hold anything, and is not to drive a terminal: a byte that is no printable ASCII is shown as \xNN.
void show(std::string_view name)
{
    for (unsigned char byte : name) {
        if (byte >= ' ' && byte <= '~')
            std::putchar(byte);
        else
            std::printf("\\x%02X", byte);
    }
}

pe_c::result show_imports(const pe_c::image &image)
{
    auto imports = image.all_imports();
    for (const pe_c_library_import &it : imports) {
        std::printf("import ");
        show(image.text(it.library_name));
        std::printf(it.import.has_name ? " " : " #%" PRIu32, it.import.ordinal);
        show(image.text(it.import.name));
        std::printf("\n");
    }
    return imports.refused();
}

pe_c::result show_exports(const pe_c::image &image)
{
    auto table = image.ask(pe_c_export_addresses);
    auto exports = image.export_addresses();
    for (const pe_c_exported &it : exports) {
        if (it.rva == 0)
            continue;
        std::printf(it.is_forwarder ? "export #%" PRIu64 " -> " : "export #%" PRIu64, it.ordinal);
        show(image.text(it.forwarder));
        std::printf("\n");
    }
    if (exports.refused() || table->addresses.length == 0)
        return exports.refused();
    auto names = image.exports();
    for (const pe_c_export &it : names) {
        std::printf("name ");
        show(image.text(it.name));
        std::printf(" #%" PRIu64 "\n", static_cast<std::uint64_t>(table->ordinal_base) + it.index);
    }
    return names.refused();
}

} // namespace

int main(int argc, char **argv)
{
    static std::uint8_t bytes[1 << 26];
    if (argc != 2)
        return usage("names FILE");
    pe_c::outcome<pe_c::image> image = pe_c::image::parse({bytes, read_file(argv[1], bytes, sizeof bytes)});
    pe_c::result ended = image ? show_imports(*image) : image.why();
    if (!ended)
        ended = show_exports(*image);
    return status_of(ended.number());
}
