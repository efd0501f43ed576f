/* pe_list: shows what the calls of pe.h read of a PE image.
 *
 *     pe_list list FILE [--permissive]    the lines of `peinfo list`
 *     pe_list key FILE                    the symbol key: GUID, age and name of the PDB
 *     pe_list version FILE                the version information
 *     pe_list unwind FILE HEXRVA          the x64 function that covers an RVA, and its unwind records, up to the root of
 *                                         their chain
 *
 * Control characters of texts are printed as \xNN. The file is read whole. It is not mapped, since what other programs do to
 * a mapped file changes its bytes during a call, and truncating it ends the program by a signal. `list` refuses the images
 * that `peinfo list` refuses, but for those with damaged base relocations alone, which it does not read. The status is 0,
 * 1 for an image that is refused, 2 for misused arguments, 3 for an error of a file or of standard output. */
#define _POSIX_C_SOURCE 200809L
#include "pe.h"

#include <inttypes.h>
#include <stdio.h>
#include <stdlib.h>
#include <string.h>

enum { FINE = 0, REFUSED = 1, MISUSED = 2, REFUSAL = 3 };

enum { X64 = 0x8664, ARM64 = 0xAA64, FUNCTION_SIZE = 12, ARM64_FUNCTION_SIZE = 8, FIRST_ROOM = 1 << 16 };

/* The bytes of a file, its headers and its section headers, and the view of these. */
typedef struct {
    const char *file;
    uint8_t *bytes;
    size_t length;
    pe_c_image_info info;
    pe_c_section *sections;
    pe_c_view view;
} image;

/* The first arguments of the calls that take bytes. */
#define BYTES(it) (it)->bytes, (it)->length

/* ---- reading */

/* Makes room for more bytes of the file. Returns 0 where memory runs out. */
static int has_room(image *it, size_t *room)
{
    if (it->length < *room)
        return 1;
    uint8_t *larger = *room > SIZE_MAX / 2 ? NULL : (uint8_t *)realloc(it->bytes, 2 * *room);
    if (larger == NULL)
        return 0;
    it->bytes = larger;
    *room *= 2;
    return 1;
}

/* Reads a file to its end. */
static int read_file(const char *file, image *it)
{
    size_t room = FIRST_ROOM;
    it->file = file;
    it->bytes = (uint8_t *)malloc(room);
    FILE *opened = it->bytes == NULL ? NULL : fopen(file, "rb");
    while (opened != NULL && !feof(opened) && !ferror(opened) && has_room(it, &room))
        it->length += fread(it->bytes + it->length, 1, room - it->length, opened);
    if (opened == NULL || !feof(opened)) {
        fprintf(stderr, "pe_list: ");
        perror(file);
        return REFUSAL;
    }
    fclose(opened);
    return FINE;
}

/* Reads the headers and the section headers. */
static uint32_t read_image(image *it, uint32_t mode)
{
    uint32_t result = pe_c_image(it->bytes, it->length, mode, &it->info);
    if (result != PE_C_DONE)
        return result;
    size_t count = it->info.number_of_sections;
    free(it->sections);
    it->sections = (pe_c_section *)calloc(count + 1, sizeof *it->sections);
    if (it->sections == NULL)
        return PE_C_MEMORY;
    pe_c_view view = {BYTES(it), &it->info, it->sections, count, NULL, 0};
    it->view = view;
    return pe_c_sections(BYTES(it), &it->info, it->sections, count);
}

static int refused(const image *it, uint32_t result, const char *advice)
{
    fprintf(stderr, "pe_list: \"%s\" is refused: %s%s\n", it->file, pe_c_message(result), advice);
    return REFUSED;
}

/* ---- list */

/* The directories that `list` shows. */
typedef struct {
    pe_c_range debug, functions, arm64_functions, certificates;
    int has_debug, has_functions, has_arm64_functions, has_certificates;
} directories;

/* Notes whether a directory is there. In strict mode its error refuses the image; in permissive mode it counts as
 * absent. */
static uint32_t keep(const image *it, uint32_t result, int *has)
{
    *has = result == PE_C_DONE;
    if (result == PE_C_NOTHING || it->info.mode != PE_C_STRICT)
        return PE_C_DONE;
    return result;
}

/* The result of a walk that was read to its end: the end itself is no error. */
static uint32_t ended(uint32_t result)
{
    if (result == PE_C_NOTHING)
        return PE_C_DONE;
    return result;
}

/* Reads every library. */
static uint32_t try_libraries(const image *it)
{
    pe_c_library_walk walk = PE_C_EMPTY;
    pe_c_library library = PE_C_EMPTY;
    uint32_t result = pe_c_import_libraries(&it->view, &walk.libraries);
    while (result == PE_C_DONE)
        result = pe_c_next_library(&it->view, &walk, &library);
    return ended(result);
}

/* Reads every import of a library. */
static uint32_t try_imports_of(const image *it, const pe_c_library *library)
{
    pe_c_import_walk walk = PE_C_EMPTY;
    pe_c_import item = PE_C_EMPTY;
    uint32_t result = PE_C_DONE;
    walk.imports = library->imports;
    while (result == PE_C_DONE)
        result = pe_c_next_import(&it->view, &walk, &item);
    return ended(result);
}

/* Reads all libraries, then all imports. An error in one refuses the image in both modes. */
static uint32_t try_imports(const image *it)
{
    pe_c_library_walk walk = PE_C_EMPTY;
    pe_c_library library = PE_C_EMPTY;
    uint32_t result = try_libraries(it);
    if (result == PE_C_DONE)
        result = pe_c_import_libraries(&it->view, &walk.libraries);
    while (result == PE_C_DONE) {
        result = pe_c_next_library(&it->view, &walk, &library);
        if (result == PE_C_DONE)
            result = try_imports_of(it, &library);
    }
    return ended(result);
}

/* Returns the debug directory, if no record is damaged: any call that returns a record reads them all. */
static uint32_t try_debug(const image *it, pe_c_range *out)
{
    pe_c_key key = PE_C_EMPTY;
    uint32_t result = pe_c_symbol_key(&it->view, &key);
    if (result != PE_C_DONE && result != PE_C_NOTHING)
        return result;
    return pe_c_debug_entries(&it->view, out);
}

/* Reads every certificate, and returns the range of the table. */
static uint32_t try_certificates(const image *it, pe_c_range *out)
{
    const pe_c_directory *table = &it->info.directories[PE_C_DIRECTORY_SECURITY];
    pe_c_range walk = {table->virtual_address, table->size};
    *out = walk;
    if (walk.offset == 0 && walk.length == 0)
        return PE_C_NOTHING;
    pe_c_certificate certificate = PE_C_EMPTY;
    uint32_t result = PE_C_DONE;
    while (result == PE_C_DONE)
        result = pe_c_next_certificate(BYTES(it), &walk, &certificate);
    return ended(result);
}

/* Reads version information and manifest. */
static uint32_t try_resources(const image *it)
{
    pe_c_version version = PE_C_EMPTY;
    pe_c_range manifest = PE_C_EMPTY;
    uint32_t result = pe_c_fixed_version(&it->view, &version);
    if (result != PE_C_DONE && result != PE_C_NOTHING)
        return result;
    return pe_c_manifest(&it->view, &manifest);
}

/* Reads what `peinfo list` reads, in its order. */
static uint32_t read_directories(const image *it, directories *out)
{
    int has_resources = 0;
    uint32_t result = try_imports(it);
    if (result == PE_C_DONE)
        result = keep(it, try_debug(it, &out->debug), &out->has_debug);
    if (result == PE_C_DONE)
        result = keep(it, pe_c_function_table(&it->view, &out->functions), &out->has_functions);
    if (result == PE_C_DONE)
        result = keep(it, pe_c_arm64_table(&it->view, &out->arm64_functions), &out->has_arm64_functions);
    if (result == PE_C_DONE)
        result = keep(it, try_certificates(it, &out->certificates), &out->has_certificates);
    if (result == PE_C_DONE)
        result = keep(it, try_resources(it), &has_resources);
    return result;
}

static void list_debug(const image *it, pe_c_range walk)
{
    pe_c_debug_entry entry = PE_C_EMPTY;
    uint32_t result;
    while ((result = pe_c_next_debug_entry(BYTES(it), &walk, &entry)) == PE_C_DONE)
        printf("debug %" PRIu32 " %" PRIu32 " %08" PRIx32 " %08" PRIx32 "\n", entry.data_type, entry.size_of_data,
               entry.address_of_raw_data, entry.pointer_to_raw_data);
    if (result != PE_C_NOTHING)
        printf("debug cut\n");
}

static void list_certificates(const image *it, pe_c_range walk)
{
    pe_c_certificate certificate = PE_C_EMPTY;
    while (pe_c_next_certificate(BYTES(it), &walk, &certificate) == PE_C_DONE)
        printf("certificate %" PRIu32 " %04x %04x\n", certificate.length, (unsigned)certificate.revision,
               (unsigned)certificate.type);
}

static void show_function(const char *word, const pe_c_function *function)
{
    printf("%s %08" PRIx32 " %08" PRIx32 " %08" PRIx32 "\n", word, function->begin, function->end, function->unwind);
}

static void list_functions(const image *it, const pe_c_range *table)
{
    pe_c_function function = PE_C_EMPTY;
    for (uint64_t i = 0; i < table->length / FUNCTION_SIZE; i++)
        if (pe_c_function_at(BYTES(it), table, i, &function) == PE_C_DONE)
            show_function("function", &function);
}

static void list_arm64_functions(const image *it, const pe_c_range *table)
{
    pe_c_arm64_function function = PE_C_EMPTY;
    for (uint64_t i = 0; i < table->length / ARM64_FUNCTION_SIZE; i++)
        if (pe_c_arm64_function_at(BYTES(it), table, i, &function) == PE_C_DONE)
            printf("function64 %08" PRIx32 " %08" PRIx32 "\n", function.begin, function.unwind);
}

/* Reads an image and what `peinfo list` reads of it. */
static uint32_t read_all(image *it, uint32_t mode, directories *out)
{
    uint32_t result = read_image(it, mode);
    return result == PE_C_DONE ? read_directories(it, out) : result;
}

static int list(image *it, uint32_t mode)
{
    directories found = PE_C_EMPTY;
    uint32_t result = read_all(it, mode, &found);
    if (result != PE_C_DONE) {
        int helps = mode == PE_C_STRICT && read_all(it, PE_C_PERMISSIVE, &found) == PE_C_DONE;
        return refused(it, result, helps ? "; --permissive lists the rest" : "");
    }
    printf("image %d entry %08" PRIx32 " base %016" PRIx64 "\n", it->info.width == 64 ? 64 : 32, it->info.entry,
           it->info.base);
    if (found.has_debug)
        list_debug(it, found.debug);
    if (found.has_certificates)
        list_certificates(it, found.certificates);
    if (found.has_functions)
        list_functions(it, &found.functions);
    if (found.has_arm64_functions)
        list_arm64_functions(it, &found.arm64_functions);
    return FINE;
}

/* ---- texts */

/* Prints a character in UTF-8, U+FFFD for an unpaired surrogate, and a control character as \xNN: a text of an image is
 * not to drive a terminal. */
static void show_character(uint32_t c)
{
    if (c >= 0xD800 && c < 0xE000)
        c = 0xFFFD;
    if (c < 0x20 || (c >= 0x7F && c < 0xA0)) {
        printf("\\x%02" PRIX32, c);
    } else if (c < 0x80) {
        putchar((int)c);
    } else if (c < 0x800) {
        putchar((int)(0xC0 | c >> 6));
        putchar((int)(0x80 | (c & 63)));
    } else {
        if (c < 0x10000) {
            putchar((int)(0xE0 | c >> 12));
        } else {
            putchar((int)(0xF0 | c >> 18));
            putchar((int)(0x80 | (c >> 12 & 63)));
        }
        putchar((int)(0x80 | (c >> 6 & 63)));
        putchar((int)(0x80 | (c & 63)));
    }
}

/* Reads a character of UTF-8. Returns its length in bytes, or 0 where none starts there. */
static size_t character_at(const uint8_t *text, size_t length, uint32_t *out)
{
    static const uint32_t least[5] = {0, 0, 0x80, 0x800, 0x10000};
    static const size_t sizes[16] = {1, 1, 1, 1, 1, 1, 1, 1, 0, 0, 0, 0, 2, 2, 3, 4};
    size_t size = sizes[text[0] >> 4];
    if (size == 0 || size > length)
        return 0;
    uint32_t c = size == 1 ? text[0] : text[0] & (0x7Fu >> size);
    for (size_t i = 1; i < size; i++) {
        if (text[i] >> 6 != 2)
            return 0;
        c = c << 6 | (text[i] & 63);
    }
    *out = c;
    return c < least[size] || c > 0x10FFFF || (c >= 0xD800 && c < 0xE000) ? 0 : size;
}

/* Prints a name up to its first zero. Bytes that are not UTF-8 are printed as \xNN. */
static void show_name(const uint8_t *name, uint64_t length)
{
    size_t left = strnlen((const char *)name, length);
    while (left > 0) {
        uint32_t c = 0;
        size_t size = character_at(name, left, &c);
        if (size == 0)
            printf("\\x%02X", (unsigned)name[0]);
        else
            show_character(c);
        name += size == 0 ? 1 : size;
        left -= size == 0 ? 1 : size;
    }
}

/* ---- key */

/* Prints the GUID and the age as symbol servers write them, and the PDB's name up to its first zero. */
static int show_key(image *it)
{
    pe_c_key key = PE_C_EMPTY;
    uint32_t result = read_image(it, PE_C_STRICT);
    if (result == PE_C_DONE)
        result = pe_c_symbol_key(&it->view, &key);
    if (result == PE_C_NOTHING) {
        printf("none\n");
        return FINE;
    }
    char guid[33] = "";
    uint64_t written = 0;
    if (result == PE_C_DONE)
        result = pe_c_guid_text(key.guid, sizeof key.guid, PE_C_GUID_DIGITS, guid, sizeof guid, &written);
    if (result != PE_C_DONE)
        return refused(it, result, "");
    printf("key %s%" PRIX32 " ", guid, key.age);
    show_name(it->bytes + key.name.offset, key.name.length);
    putchar('\n');
    return FINE;
}

/* ---- version */

static const char *const names[] = {
    "Comments", "CompanyName", "FileDescription", "FileVersion", "InternalName", "LegalCopyright", "LegalTrademarks",
    "OriginalFilename", "PrivateBuild", "ProductName", "ProductVersion", "SpecialBuild"
};

/* Prints a text in UTF-16 up to the first zero: a version text has at most 32,767 code units, of up to 3 bytes in UTF-8. */
static void show_units(const image *it, const pe_c_range *units)
{
    static char text[3 * 32767 + 1];
    uint64_t written = 0;
    if (pe_c_utf16_text(BYTES(it), units, text, sizeof text, &written) == PE_C_DONE)
        show_name((const uint8_t *)text, written);
}

static int show_version(image *it)
{
    pe_c_version version = PE_C_EMPTY;
    uint32_t result = read_image(it, PE_C_STRICT);
    if (result == PE_C_DONE)
        result = pe_c_fixed_version(&it->view, &version);
    if (result != PE_C_DONE && result != PE_C_NOTHING)
        return refused(it, result, "");
    if (result == PE_C_DONE) {
        const uint32_t ms = version.file_version_ms, ls = version.file_version_ls;
        const uint32_t product_ms = version.product_version_ms, product_ls = version.product_version_ls;
        printf("file %" PRIu32 ".%" PRIu32 ".%" PRIu32 ".%" PRIu32 "\n", ms >> 16, ms & 0xFFFF, ls >> 16, ls & 0xFFFF);
        printf("product %" PRIu32 ".%" PRIu32 ".%" PRIu32 ".%" PRIu32 "\n", product_ms >> 16, product_ms & 0xFFFF,
               product_ls >> 16, product_ls & 0xFFFF);
    }
    for (uint32_t name = PE_C_COMMENTS; name <= PE_C_SPECIAL_BUILD; name++) {
        pe_c_range text = PE_C_EMPTY;
        if (pe_c_version_text(&it->view, name, &text) == PE_C_DONE) {
            printf("%s ", names[name]);
            show_units(it, &text);
            putchar('\n');
        }
    }
    return FINE;
}

/* ---- unwind */

static const char *const registers[] = {
    "rax", "rcx", "rdx", "rbx", "rsp", "rbp", "rsi", "rdi", "r8", "r9", "r10", "r11", "r12", "r13", "r14", "r15", "rip",
    "xmm0", "xmm1", "xmm2", "xmm3", "xmm4", "xmm5", "xmm6", "xmm7", "xmm8", "xmm9", "xmm10", "xmm11", "xmm12", "xmm13",
    "xmm14", "xmm15"
};

static const char *register_name(unsigned number)
{
    return number < sizeof registers / sizeof *registers ? registers[number] : "?";
}

static void show_code(const pe_c_code *code)
{
    const char *from = code->from_frame ? "frame" : "stack";
    printf("  code %02x ", (unsigned)code->code_offset);
    switch (code->operation) {
    case PE_C_PUSH:
        printf("push %s\n", register_name(code->operand));
        break;
    case PE_C_ALLOC:
        printf("alloc %" PRIu32 "\n", code->value);
        break;
    case PE_C_SET_FRAME:
        printf("set frame\n");
        break;
    case PE_C_SAVE:
        printf("save %s %s+%" PRIu32 "\n", register_name(code->operand), from, code->value);
        break;
    case PE_C_SAVE_XMM:
        printf("save low %s %s+%" PRIu32 "\n", register_name(code->operand), from, code->value);
        break;
    case PE_C_SAVE_XMM128:
        printf("save %s %s+%" PRIu32 "\n", register_name(code->operand), from, code->value);
        break;
    case PE_C_EPILOG:
        printf("epilog %" PRIu32 " %u\n", code->value, (unsigned)code->operand);
        break;
    case PE_C_MACHINE_FRAME:
        printf("machine frame%s\n", code->operand ? " with an error code" : "");
        break;
    default:
        printf("nothing\n");
    }
}

static uint32_t show_record(const image *it, pe_c_record *record)
{
    printf("record version %u prolog %u", (unsigned)record->codes.version, (unsigned)record->size_of_prolog);
    if (record->codes.frame_register != 0)
        printf(" frame %s-%" PRIu32, register_name(record->codes.frame_register), record->frame_register_offset);
    if (record->handler_kind != 0)
        printf(" %s handler %08" PRIx32, record->handler_kind == 1 ? "exception" : "termination", record->handler);
    printf("\n");
    pe_c_code code = PE_C_EMPTY;
    uint32_t result;
    while ((result = pe_c_next_code(BYTES(it), &record->codes, &code)) == PE_C_DONE)
        show_code(&code);
    if (record->is_chained)
        show_function("chained", &record->chained);
    return result;
}

static int show_unwinding(image *it, uint32_t rva)
{
    pe_c_range table = PE_C_EMPTY;
    pe_c_function function = PE_C_EMPTY;
    uint32_t result = read_image(it, PE_C_STRICT);
    if (result == PE_C_DONE)
        result = pe_c_function_table(&it->view, &table);
    if (result == PE_C_DONE)
        result = pe_c_find_function(BYTES(it), &table, rva, &function);
    if (result == PE_C_NOTHING) {
        printf("none\n");
        return FINE;
    }
    if (result != PE_C_DONE)
        return refused(it, result, "");
    show_function("function", &function);
    pe_c_plan_walk walk = PE_C_EMPTY;
    pe_c_plan_from(function.unwind, &walk.plan);
    pe_c_record record = PE_C_EMPTY;
    while ((result = pe_c_next_record(&it->view, &table, &walk, &record)) == PE_C_DONE) {
        result = show_record(it, &record);
        if (result != PE_C_NOTHING)
            break;
    }
    return result == PE_C_NOTHING ? FINE : refused(it, result, "");
}

/* ---- arguments */

/* Reads an RVA of one to eight hexadecimal digits. */
static int address_of(const char *word, uint32_t *out)
{
    size_t length = strlen(word);
    if (length < 1 || length > 8 || strspn(word, "0123456789abcdefABCDEF") != length)
        return 0;
    *out = (uint32_t)strtoul(word, NULL, 16);
    return 1;
}

static int usage(void)
{
    fprintf(stderr, "usage: pe_list list FILE [--permissive] | key FILE | version FILE | unwind FILE HEXRVA\n");
    return MISUSED;
}

static int run(int argc, char **argv, image *it)
{
    uint32_t rva = 0;
    const char *word = argc >= 3 ? argv[1] : "";
    int permissive = argc == 4 && strcmp(argv[3], "--permissive") == 0;
    int lists = strcmp(word, "list") == 0 && (argc == 3 || permissive);
    int keys = strcmp(word, "key") == 0 && argc == 3;
    int versions = strcmp(word, "version") == 0 && argc == 3;
    int unwinds = strcmp(word, "unwind") == 0 && argc == 4 && address_of(argv[3], &rva);
    if (!lists && !keys && !versions && !unwinds)
        return usage();
    int status = read_file(argv[2], it);
    if (status != FINE)
        return status;
    if (lists)
        return list(it, permissive ? PE_C_PERMISSIVE : PE_C_STRICT);
    if (keys)
        return show_key(it);
    return versions ? show_version(it) : show_unwinding(it, rva);
}

int main(int argc, char **argv)
{
    image it = PE_C_EMPTY;
    int status = run(argc, argv, &it);
    free(it.sections);
    free(it.bytes);
    int is_truncated = ferror(stdout);
    if (fclose(stdout) != 0 || is_truncated) {
        fprintf(stderr, "pe_list: standard output takes no more\n");
        return REFUSAL;
    }
    return status;
}
