/* What pe.hpp says of an image: its lists, what is not there, ranges and errors. tools/bindings runs it over images of tests. */
#define PE_C_EXCEPTIONS
#include "pe.hpp"
#include <cstdio>
#include <fstream>
#include <iterator>
#if defined(__cpp_lib_ranges)
#include <ranges>
using functions = decltype(std::declval<const pe_c::image &>().functions());
static_assert(std::ranges::input_range<functions>, "a list is one for std::views");
#endif
int main(int, char **argv)
{
    std::ifstream file(argv[1], std::ios::binary);
    std::vector<std::uint8_t> read{std::istreambuf_iterator<char>(file), std::istreambuf_iterator<char>()};
    auto image = pe_c::image::parse(read);
    if (!image)
        return std::printf("%u %s\n", image.why().number(), image.text()), 1;
    for (const pe_c_library &library : image->libraries()) {
        std::printf("library %.*s\n", (int)image->text(library.name).size(), image->text(library.name).data());
        for (const pe_c_import &it : image->imports(library))
            std::printf("  %.*s #%u\n", (int)image->text(it.name).size(), image->text(it.name).data(), it.ordinal);
    }
    for (const pe_c_function &it : image->functions())
        std::printf("function %x %x\n", it.begin, it.end);
    for (const pe_c_debug_entry &it : image->debug_entries())
        std::printf("debug %u\n", it.data_type);
    auto leaves = image->resource_leaves();
    for (const pe_c_resource_leaf &it : leaves)
        std::printf("leaf %u\n", it.size);
    std::printf("then %u\n", leaves.refused().number());
    auto config = image->ask(pe_c_load_config);
    auto key = image->symbol_key();
    std::printf("config %u %d key %u offset %u\n", config.why().number(), config.is_nothing(), key.why().number(),
                image->offset(0xFFFFFFFF).why().number());
    std::printf("outside %zu %zu\n", image->part({read.size(), 1}).size(), image->part({0, read.size()}).size() - read.size());
    try {
        (void)config.value();
    } catch (const pe_c::failure &it) {
        std::printf("thrown %u %s\n", it.number(), it.what());
    }
}
