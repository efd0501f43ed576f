/* Makes every call of pe.h on a file, in each mode, and hashes each result and each record that a call wrote, so that
 * the library for one target is compared with that for another by a number a file. Freestanding C11: it needs no C
 * library, and runs in a WebAssembly module as on Linux.
 *
 * A call of pe.h that is not made here fails tools/try_targets. To add one, add a line CALL, or WALK for the next
 * item of a list, where its arguments are known: that is all. calls.h, with number_of_NAME for each call of pe.h, is
 * made by tools/make_targets. */
#include "pe.h"
#include "calls.h"
#include "all_calls.h"

/* How far lists are walked, so that a hostile file costs no more than a large one. */
enum { ITEMS = 2000, LISTS = 300, FUNCTIONS = 24, INNER = 30, SECTIONS = 4096, RECORDS = 40 };
/* The entries of an array that a list call fills. */
enum { ROWS = 7 };
/* The addresses of a made stack start here. */
enum { STACK = 0x70000000, STACK_LENGTH = 1 << 16 };

static struct totals *totals;
static pe_c_section sections[SECTIONS];
static uint8_t stack[STACK_LENGTH];
static pe_c_memory_piece pieces[3];
static uint64_t seed;

/* A file in a mode. */
struct file {
    const uint8_t *bytes;
    size_t length;
    uint8_t *room;
    size_t room_length;
    pe_c_image_info image;
    pe_c_view view;
};

#define BYTES file->bytes, file->length
#define VIEW &file->view

/* Makes a call that writes `out`. Where a target needs more around a call, TARGET_CALL is defined for it. */
#ifndef TARGET_CALL
#define TARGET_CALL(call) call
#endif
#define CALL(call, out, ...) note(number_of_##call, TARGET_CALL(call)(__VA_ARGS__), &(out), sizeof(out))
#define IS_DONE(call, out, ...) (CALL(call, out, __VA_ARGS__) == PE_C_DONE)
/* The body runs for each item of a walk, `most` at most. */
#define WALK(most, call, out, ...) \
    for (int of_##call = 0; of_##call < (most) && IS_DONE(call, out, __VA_ARGS__); of_##call++)

/* The same of a walk whose steps have a call that says why one is refused: it is made before each. */
#define WALK_WHY(most, call, why, out, arguments, walk) \
    for (int of_##call = 0; \
         of_##call < (most) && (CALL(why, failure, arguments, &(walk), &failure), IS_DONE(call, out, arguments, &(walk), &(out))); \
         of_##call++)

/* The same of a walk that keeps sections; `place` is where it stands. */
#define WALK_KEPT(most, call, why, out, walk, place) \
    for (int of_##call = 0; \
         of_##call < (most) && (CALL(why, failure, VIEW, &(walk).place, &failure), IS_DONE(call, out, VIEW, &(walk), &(out))); \
         of_##call++)

/* Makes a call that fills an array, until it writes no entry, LISTS times at most. */
#define LIST(call, type, ...) \
    do { \
        uint64_t written = 1; \
        for (int of_##call = 0; of_##call < LISTS && written > 0; of_##call++) { \
            type entries[ROWS] = PE_C_EMPTY; \
            written = 0; \
            CALL(call, entries, __VA_ARGS__, entries, ROWS, &written); \
            add(written); \
        } \
    } while (0)

static void add(uint64_t number)
{
    /* FNV-1a, of 64 bits at a time, with the high half mixed into the low */
    uint64_t hash = (totals->hash ^ number) * 0x100000001B3u;
    totals->hash = hash ^ hash >> 29;
}

static void add_bytes(const void *from, size_t length)
{
    const uint8_t *bytes = from;
    size_t at = 0;
    for (; at + 8 <= length; at += 8) {
        uint64_t number = 0;
        for (int i = 0; i < 8; i++)
            number |= (uint64_t)bytes[at + i] << 8 * i;
        add(number);
    }
    for (; at < length; at++)
        add(bytes[at]);
}

static void count(int call, int is_done)
{
    totals->made[call]++;
    totals->done[call] += is_done ? 1 : 0;
}

static uint32_t note(int call, uint32_t result, const void *out, size_t size)
{
    count(call, result == PE_C_DONE);
    add(result);
    add_bytes(out, size);
    return result;
}

static uint64_t next_random(void)
{
    seed ^= seed << 13;
    seed ^= seed >> 7;
    seed ^= seed << 17;
    return seed;
}

/* ---- x64 */

/* A frame inside a function; way 0 is at its start. */
static pe_c_frame made_frame(const struct file *file, const pe_c_function *function, int way)
{
    pe_c_frame frame = PE_C_EMPTY;
    for (int i = 0; i < 16; i++)
        frame.registers.general[i] = STACK + next_random() % 0x4000 * 8;
    for (int i = 0; i < 32; i++)
        frame.registers.xmm[i] = next_random();
    frame.registers.general[4] = STACK + 0x100 * (uint64_t)way;
    frame.function = *function;
    frame.rva = function->begin;
    if (way)
        frame.rva += (uint32_t)(next_random() % ((uint64_t)(uint32_t)(function->end - function->begin) + 1));
    frame.registers.rip = file->image.base + frame.rva;
    return frame;
}

static void step_x64(const struct file *file, const pe_c_range *table, const pe_c_function *function, int way)
{
    pe_c_frame frame = made_frame(file, function, way), other = frame;
    uint64_t offset = 0;
    size_t code_length = 0;
    frame.interrupted = other.interrupted = 7;
    other.leaf = 1;
    if (way % 2 && IS_DONE(pe_c_offset, offset, VIEW, frame.rva, &offset)
        && offset < file->length) {
        code_length = (uint32_t)(function->end - frame.rva);
        if (code_length > file->length - offset)
            code_length = 0;
    }
    const uint8_t *code = code_length ? file->bytes + offset : 0;
    CALL(pe_c_step, frame, VIEW, table, code, code_length, stack, sizeof stack, pieces, 3, &frame);
    CALL(pe_c_step, other, VIEW, table, code, code_length, stack, sizeof stack, pieces, 3, &other);
}

static void walk_stack(const struct file *file, const pe_c_range *table, const pe_c_function *function, int way)
{
    const pe_c_module modules[] = {{file->view, *table, file->image.base}};
    pe_c_stack_walk walk = PE_C_EMPTY, other, frames[6];
    uint64_t filled = 0;
    walk.registers = made_frame(file, function, way).registers;
    walk.remaining = INNER;
    other = walk;
    for (int i = 0; i < 6; i++)
        frames[i] = walk;
    WALK(INNER + 1, pe_c_next_frame, walk, modules, 1, stack, sizeof stack, pieces, 3, &walk) {}
    CALL(pe_c_next_frames, frames, modules, 1, stack, sizeof stack, pieces, 3, &other, frames, way % 2 ? 6 : 1, &filled);
    add(filled);
}

static void record_x64(const struct file *file, pe_c_record *record)
{
    pe_c_code code = PE_C_EMPTY;
    pe_c_range scopes = PE_C_EMPTY;
    pe_c_scope scope = PE_C_EMPTY;
    pe_c_failure failure = PE_C_EMPTY;
    WALK_WHY(ITEMS, pe_c_next_code, pe_c_code_failure, code, BYTES, record->codes) {}
    if (IS_DONE(pe_c_scope_table, scopes, BYTES, &record->handler_data, &scopes))
        WALK(4, pe_c_next_scope, scope, BYTES, &scopes, &scope) {}
}

static void walk_x64(const struct file *file)
{
    pe_c_range table = PE_C_EMPTY;
    pe_c_plan_walk walk = PE_C_EMPTY;
    if (!IS_DONE(pe_c_function_table, table, VIEW, &table))
        return;
    uint64_t functions = table.length / 12, stride = functions / FUNCTIONS + 1;
    for (uint64_t i = 0; i < functions; i += stride) {
        pe_c_function function = PE_C_EMPTY, found = PE_C_EMPTY;
        pe_c_record record = PE_C_EMPTY;
        if (!IS_DONE(pe_c_function_at, function, BYTES, &table, i, &function))
            continue;
        CALL(pe_c_find_function, found, BYTES, &table, function.begin + (uint32_t)(next_random() % 64), &found);
        pe_c_plan_from(function.unwind, &walk.plan);
        WALK(RECORDS, pe_c_next_record, record, VIEW, &table, &walk, &record)
            record_x64(file, &record);
        pe_c_code codes[8] = PE_C_EMPTY;
        uint64_t coded = 0;
        pe_c_record whole = PE_C_EMPTY;
        uint32_t listed = TARGET_CALL(pe_c_unwind_record)(VIEW, &table, function.unwind, &whole);
        if (listed == PE_C_DONE)
            listed = TARGET_CALL(pe_c_list_codes)(BYTES, &whole.codes, codes, 8, &coded);
        note(number_of_pe_c_list_codes, listed, &codes, sizeof codes);
        add(coded);
        CALL(pe_c_unwind_record, record, VIEW, &table, function.unwind, &record);
        pe_c_range left = record.codes.left;
        if (left.offset <= file->length && left.length <= file->length - left.offset) {
            const uint8_t *start = file->bytes + left.offset;
            coded = 0;
            const pe_c_code_form form = {record.codes.version, record.codes.frame_register};
            CALL(pe_c_all_codes, codes, start, (size_t)left.length, &form, codes, 8, &coded);
            add(coded);
        }
        pe_c_failure failure = PE_C_EMPTY;
        CALL(pe_c_unwind_record_failure, failure, VIEW, &table, function.unwind, &failure);
        for (int way = 0; way < 4; way++) {
            step_x64(file, &table, &function, way);
            walk_stack(file, &table, &function, way);
        }
    }
}

/* ---- ARM64 */

/* A frame inside a function of so many bytes. */
static pe_c_arm64_frame made_arm64_frame(const struct file *file, const pe_c_arm64_function *function, uint32_t size, int way)
{
    pe_c_arm64_frame frame = PE_C_EMPTY;
    for (int i = 0; i < 31; i++)
        frame.registers.general[i] = STACK + next_random() % 0x4000 * 8;
    frame.registers.sp = STACK + 0x100 * (uint64_t)way;
    frame.function = *function;
    frame.rva = function->begin + (size ? (uint32_t)(next_random() % size) & ~3u : 0);
    frame.registers.pc = file->image.base + frame.rva;
    return frame;
}

static void step_arm64(const struct file *file, const pe_c_range *table, pe_c_arm64_frame frame, int way)
{
    const pe_c_module modules[] = {{file->view, *table, file->image.base}};
    pe_c_arm64_frame other = frame;
    pe_c_arm64_stack_walk walk = PE_C_EMPTY, same, frames[6];
    uint64_t filled = 0;
    walk.registers = frame.registers;
    walk.remaining = INNER;
    same = walk;
    for (int i = 0; i < 6; i++)
        frames[i] = walk;
    other.leaf = 1;
    CALL(pe_c_step_arm64, frame, &modules[0].image, stack, sizeof stack, pieces, 3, &frame);
    CALL(pe_c_step_arm64, other, &modules[0].image, stack, sizeof stack, pieces, 3, &other);
    WALK(INNER + 1, pe_c_next_arm64_frame, walk, modules, 1, stack, sizeof stack, pieces, 3, &walk) {}
    CALL(pe_c_next_arm64_frames, frames, modules, 1, stack, sizeof stack, pieces, 3, &same, frames, way % 2 ? 6 : 1, &filled);
    add(filled);
}

/* Returns the length of the function. */
static uint32_t record_arm64(const struct file *file, const pe_c_arm64_function *function)
{
    pe_c_arm64_packed packed = PE_C_EMPTY;
    pe_c_arm64_record record = PE_C_EMPTY;
    pe_c_arm64_scope scope = PE_C_EMPTY;
    pe_c_arm64_walk walk = PE_C_EMPTY;
    pe_c_arm64_code code = PE_C_EMPTY;
    pe_c_failure failure = PE_C_EMPTY;
    CALL(pe_c_arm64_packed_fields, packed, function, &packed);
    CALL(pe_c_arm64_record_failure, failure, VIEW, function, &failure);
    if (!IS_DONE(pe_c_arm64_unwind_record, record, VIEW, function, &record))
        return packed.function_length;
    WALK(ITEMS, pe_c_next_arm64_scope, scope, BYTES, &record.scopes, &scope) {}
    if (IS_DONE(pe_c_arm64_codes, walk, BYTES, &record.codes, 0, &walk))
        WALK_WHY(ITEMS, pe_c_next_arm64_code, pe_c_arm64_code_failure, code, BYTES, walk) {}
    return record.function_length;
}

static void walk_arm64(const struct file *file)
{
    pe_c_range table = PE_C_EMPTY;
    if (!IS_DONE(pe_c_arm64_table, table, VIEW, &table))
        return;
    uint64_t functions = table.length / 8, stride = functions / FUNCTIONS + 1;
    for (uint64_t i = 0; i < functions; i += stride) {
        pe_c_arm64_function function = PE_C_EMPTY, found = PE_C_EMPTY;
        if (!IS_DONE(pe_c_arm64_function_at, function, BYTES, &table, i, &function))
            continue;
        CALL(pe_c_find_arm64_function, found, VIEW, &table, function.begin + 4, &found);
        uint32_t size = record_arm64(file, &function);
        for (int way = 0; way < 4; way++)
            step_arm64(file, &table, made_arm64_frame(file, &function, size, way), way);
    }
}

/* ---- the parts of an image */

/* The record of an entry by each type, whatever the entry's is. */
static void debug_record(const struct file *file, const pe_c_debug_entry *entry)
{
    static const uint32_t types[] = {2, 12, 20, 16, 13, 17, 19};
    const uint32_t mode = file->image.mode;
    pe_c_range record = {entry->pointer_to_raw_data, entry->size_of_data};
    pe_c_key key = PE_C_EMPTY;
    pe_c_debug_records found = PE_C_EMPTY;
    pe_c_failure failure = PE_C_EMPTY;
    CALL(pe_c_codeview, key, BYTES, &record, &key);
    for (size_t i = 0; i < sizeof types / sizeof *types; i++) {
        pe_c_debug_entry typed = *entry;
        typed.data_type = types[i];
        CALL(pe_c_debug_record, found, BYTES, mode, &typed, &found);
    }
    for (uint32_t kind = 0; kind < 9; kind++)
        CALL(pe_c_debug_failure, failure, BYTES, mode, entry, kind, &failure);
}

static void debug_data(const struct file *file)
{
    pe_c_range range = PE_C_EMPTY;
    pe_c_debug_entry entry = PE_C_EMPTY;
    pe_c_key key = PE_C_EMPTY;
    pe_c_pogo_entry pogo_entry = PE_C_EMPTY;
    if (IS_DONE(pe_c_debug_entries, range, VIEW, &range))
        WALK(ITEMS, pe_c_next_debug_entry, entry, BYTES, &range, &entry)
            debug_record(file, &entry);
    CALL(pe_c_symbol_key, key, VIEW, &key);
    pe_c_debug_records all = PE_C_EMPTY;
    CALL(pe_c_debug_data, all, VIEW, &all);
    if (all.pogo_result == PE_C_DONE) {
        pe_c_range entries_walk = all.pogo.entries;
        LIST(pe_c_list_pogo_entries, pe_c_pogo_entry, BYTES, &entries_walk);
        WALK(ITEMS, pe_c_next_pogo_entry, pogo_entry, BYTES, &all.pogo.entries, &pogo_entry) {}
    }
}

/* ---- signatures */

static void name(const struct file *file, const pe_c_range *range)
{
    pe_c_signature_failure failure = PE_C_EMPTY;
    pe_c_name_walk walk = PE_C_EMPTY;
    pe_c_name_attribute attribute = PE_C_EMPTY;
    CALL(pe_c_name, walk, BYTES, range, &failure, &walk);
    WALK(INNER, pe_c_next_name_attribute, attribute, BYTES, &walk, &failure, &attribute) {}
    add_bytes(&failure, sizeof failure);
}

static void time_of(const struct file *file, const pe_c_range *range)
{
    pe_c_signature_failure failure = PE_C_EMPTY;
    pe_c_utc_time time = PE_C_EMPTY;
    CALL(pe_c_time, time, BYTES, range, &failure, &time);
    add_bytes(&failure, sizeof failure);
}

static void x509(const struct file *file, const pe_c_range *range)
{
    pe_c_signature_failure failure = PE_C_EMPTY;
    pe_c_x509_certificate certificate = PE_C_EMPTY;
    pe_c_der_element element = {*range, *range, 0, 0};
    pe_c_x509_extension extension = PE_C_EMPTY;
    uint32_t usage = 0;
    CALL(pe_c_x509, certificate, BYTES, range, &failure, &certificate);
    name(file, &certificate.issuer);
    name(file, &certificate.subject);
    time_of(file, &certificate.not_before);
    time_of(file, &certificate.not_after);
    do {
        CALL(pe_c_extension, extension, BYTES, &element.whole, &failure, &extension);
        CALL(pe_c_key_usage, usage, BYTES, &element.whole, &failure, &usage);
    } while (IS_DONE(pe_c_next_element, element, BYTES, &certificate.extensions, &failure, &element));
    add_bytes(&failure, sizeof failure);
}

static void signature(const struct file *file, const pe_c_range *range, int depth);

/* An attribute, and its values by every call that reads one. */
static void attribute(const struct file *file, const pe_c_range *range, int depth)
{
    pe_c_signature_failure failure = PE_C_EMPTY;
    pe_c_signer_attribute found = PE_C_EMPTY;
    pe_c_der_element value = {*range, *range, 0, 0};
    pe_c_spc_opus_info opus = PE_C_EMPTY;
    CALL(pe_c_attribute, found, BYTES, range, &failure, &found);
    do {
        time_of(file, &value.whole);
        CALL(pe_c_opus_info, opus, BYTES, &value.whole, &failure, &opus);
        if (depth > 0)
            signature(file, &value.whole, depth - 1);
    } while (IS_DONE(pe_c_next_element, value, BYTES, &found.values, &failure, &value));
    add_bytes(&failure, sizeof failure);
}

static void signer(const struct file *file, const pe_c_range *range, int depth)
{
    pe_c_signature_failure failure = PE_C_EMPTY;
    pe_c_signer_info found = PE_C_EMPTY;
    pe_c_der_element element = {*range, *range, 0, 0};
    CALL(pe_c_signer, found, BYTES, range, &failure, &found);
    name(file, &found.issuer);
    attribute(file, range, depth);
    pe_c_signer_attribute one = PE_C_EMPTY;
    pe_c_range sought = found.signed_attributes;
    while (IS_DONE(pe_c_find_attribute, one, BYTES, &sought, PE_C_OID_MESSAGE_DIGEST, &failure, &one))
        add_bytes(&sought, sizeof sought);
    WALK(INNER, pe_c_next_element, element, BYTES, &found.signed_attributes, &failure, &element)
        attribute(file, &element.whole, depth);
    while (IS_DONE(pe_c_next_element, element, BYTES, &found.unsigned_attributes, &failure, &element))
        attribute(file, &element.whole, depth);
    add_bytes(&failure, sizeof failure);
}

/* What a range starts with, by every call of signatures, whatever it is. */
static void signature(const struct file *file, const pe_c_range *range, int depth)
{
    pe_c_signature_failure failure = PE_C_EMPTY;
    pe_c_signed_data signed_data = PE_C_EMPTY;
    pe_c_spc_indirect_data indirect = PE_C_EMPTY;
    pe_c_spc_pe_image_data data = PE_C_EMPTY;
    pe_c_tst_info stamp = PE_C_EMPTY;
    pe_c_algorithm algorithm = PE_C_EMPTY;
    pe_c_der_element element = {*range, *range, 0, 0};
    CALL(pe_c_signature, signed_data, BYTES, range, &failure, &signed_data);
    CALL(pe_c_indirect_data, indirect, BYTES, &signed_data.content, &failure, &indirect);
    CALL(pe_c_image_data, data, BYTES, &indirect.value, &failure, &data);
    if (IS_DONE(pe_c_time_stamp, stamp, BYTES, &signed_data.content, &failure, &stamp))
        time_of(file, &stamp.time);
    WALK(INNER, pe_c_next_element, element, BYTES, &signed_data.digest_algorithms, &failure, &element)
        CALL(pe_c_algorithm_identifier, algorithm, BYTES, &element.whole, &failure, &algorithm);
    CALL(pe_c_algorithm_identifier, algorithm, BYTES, range, &failure, &algorithm);
    x509(file, range);
    while (IS_DONE(pe_c_next_element, element, BYTES, &signed_data.certificates, &failure, &element))
        x509(file, &element.whole);
    signer(file, range, 0);
    while (IS_DONE(pe_c_next_element, element, BYTES, &signed_data.signers, &failure, &element))
        signer(file, &element.whole, depth);
    add_bytes(&failure, sizeof failure);
}

static void certificates(const struct file *file)
{
    static const uint8_t certificate[16] = {16, 0, 0, 0, 0, 2, 2, 0, 1, 2, 3, 4, 5, 6, 7, 8};
    const pe_c_directory *directory = &file->image.directories[PE_C_DIRECTORY_SECURITY];
    pe_c_range walk = {directory->virtual_address, directory->size};
    pe_c_certificate entry = PE_C_EMPTY;
    pe_c_digest digest = PE_C_EMPTY;
    pe_c_checksum_field checksum = PE_C_EMPTY;
    pe_c_failure failure = PE_C_EMPTY;
    uint64_t length = 0;
    signature(file, &walk, 0);
    WALK_WHY(ITEMS, pe_c_next_certificate, pe_c_certificate_failure, entry, BYTES, walk)
        signature(file, &entry.body, 2);
    CALL(pe_c_digest_ranges, digest, VIEW, &digest);
    CALL(pe_c_checksum, checksum, VIEW, &checksum);
    for (uint32_t placement = 0; placement < 2; placement++) {
        CALL(pe_c_attach, length, VIEW, certificate, sizeof certificate, placement, NULL, 0, &length);
        if (IS_DONE(pe_c_attach, length, VIEW, certificate, sizeof certificate, placement, file->room,
                    file->room_length, &length))
            add_bytes(file->room, length);
    }
    CALL(pe_c_detach, length, VIEW, NULL, 0, &length);
    if (IS_DONE(pe_c_detach, length, VIEW, file->room, file->room_length, &length))
        add_bytes(file->room, length);
    uint64_t next = file->image.sections_offset;
    CALL(pe_c_write_sections, next, VIEW, file->image.file_alignment, file->room, file->room_length, &next);
    CALL(pe_c_write_certificates, length, VIEW, file->room, file->room_length, &length);
    /* Of an image its DOS header is added, and of a whole file as many bytes as the file has: others may be old ones. */
    CALL(pe_c_write_image, length, VIEW, NULL, 0, &length);
    if (IS_DONE(pe_c_write_image, length, VIEW, file->room, file->room_length, &length))
        add_bytes(file->room, 64);
    CALL(pe_c_write_whole, length, VIEW, NULL, 0, &length);
    if (IS_DONE(pe_c_write_whole, length, VIEW, file->room, file->room_length, &length))
        add_bytes(file->room, file->length);
}

static void exports(const struct file *file)
{
    pe_c_export_walk walk = PE_C_EMPTY;
    pe_c_export entry = PE_C_EMPTY;
    pe_c_address_table table = PE_C_EMPTY;
    pe_c_exported exported = PE_C_EMPTY;
    uint64_t index = 0;
    if (IS_DONE(pe_c_export_tables, walk.exports, VIEW, &walk.exports))
        WALK(ITEMS, pe_c_next_export, entry, VIEW, &walk, &entry) {}
    pe_c_export_fields fields = PE_C_EMPTY;
    CALL(pe_c_export_directory, fields, VIEW, &fields);
    if (IS_DONE(pe_c_export_addresses, table, VIEW, &table))
        WALK(ITEMS, pe_c_export_at, exported, VIEW, &table, index, &exported)
            index++;
}

static void function_names(const struct file *file)
{
    enum { NUMBERS = 20000 };
    static uint64_t room[NUMBERS];
    pe_c_name_sources sources = PE_C_EMPTY;
    pe_c_code_address addresses[ROWS] = PE_C_EMPTY;
    pe_c_function_name names[ROWS] = PE_C_EMPTY;
    CALL(pe_c_name_tables, sources, VIEW, &sources);
    for (int i = 0; i < ROWS; i++) {
        addresses[i].rva = (uint32_t)(next_random() % (file->image.size_of_image + 1u));
        addresses[i].is_return = (uint32_t)(next_random() % 2);
    }
    CALL(pe_c_function_names, names, VIEW, &sources, addresses, ROWS, room, NUMBERS, names, ROWS);
}

static void imports(const struct file *file)
{
    pe_c_library_walk libraries = PE_C_EMPTY;
    pe_c_import_walk imports_of = PE_C_EMPTY;
    pe_c_delay_import_walk dlls = PE_C_EMPTY;
    pe_c_delayed_function_walk functions = PE_C_EMPTY;
    pe_c_library library = PE_C_EMPTY;
    pe_c_import import = PE_C_EMPTY;
    pe_c_range walk = PE_C_EMPTY, table = PE_C_EMPTY;
    pe_c_delay_import delayed = PE_C_EMPTY;
    pe_c_delayed_function function = PE_C_EMPTY;
    pe_c_library_functions all = PE_C_EMPTY;
    pe_c_bound_import bound = PE_C_EMPTY;
    pe_c_bound_forwarder forwarder = PE_C_EMPTY;
    pe_c_run runs[ROWS] = PE_C_EMPTY;
    pe_c_failure failure = PE_C_EMPTY;
    if (IS_DONE(pe_c_import_libraries, libraries.libraries, VIEW, &libraries.libraries))
        WALK_KEPT(LISTS, pe_c_next_library, pe_c_library_failure, library, libraries, libraries) {
            imports_of.imports = library.imports;
            WALK_KEPT(ITEMS, pe_c_next_import, pe_c_import_failure, import, imports_of, imports) {}
        }
    if (IS_DONE(pe_c_delay_imports, walk, VIEW, &walk)) {
        dlls.entries = walk;
        LIST(pe_c_list_delay_imports, pe_c_delay_import, VIEW, &dlls, NULL, 0);
        dlls.entries = walk;
        LIST(pe_c_list_delay_imports, pe_c_delay_import, VIEW, &dlls, runs, ROWS);
        dlls.entries = walk;
        WALK_KEPT(LISTS, pe_c_next_delay_import, pe_c_delay_import_failure, delayed, dlls, entries) {
            functions.functions = delayed.functions;
            LIST(pe_c_list_delayed_functions, pe_c_delayed_function, VIEW, &functions, NULL, 0);
            functions.functions = delayed.functions;
            LIST(pe_c_list_delayed_functions, pe_c_delayed_function, VIEW, &functions, runs, ROWS);
            functions.functions = delayed.functions;
            WALK_KEPT(ITEMS, pe_c_next_delayed_function, pe_c_delayed_function_failure, function, functions, functions) {}
        }
    }
    if (pe_c_delay_imports(VIEW, &all.libraries) == PE_C_DONE)
        LIST(pe_c_list_all_delayed_functions, pe_c_library_function, VIEW, &all, runs, ROWS);
    if (!IS_DONE(pe_c_bound_imports, table, VIEW, &table))
        return;
    walk = table;
    LIST(pe_c_list_bound_imports, pe_c_bound_import, BYTES, &table, &walk, runs, ROWS);
    walk = table;
    LIST(pe_c_list_bound_forwarders, pe_c_bound_forwarder, BYTES, &table, &walk, runs, ROWS);
    walk = table;
    CALL(pe_c_bound_import_failure, failure, BYTES, &table, &walk, &failure);
    WALK(LISTS, pe_c_next_bound_import, bound, BYTES, &table, &walk, &bound) {
        CALL(pe_c_bound_import_failure, failure, BYTES, &table, &walk, &failure);
        WALK(LISTS, pe_c_next_bound_forwarder, forwarder, BYTES, &table, &bound.forwarders, &forwarder) {}
    }
}

/* A walk over blocks may go on after an error; each block's own blocks are walked too. */
static void version_blocks(const struct file *file)
{
    pe_c_range walk = PE_C_EMPTY;
    pe_c_version_block block = PE_C_EMPTY, inner = PE_C_EMPTY;
    if (!IS_DONE(pe_c_version_blocks, walk, VIEW, &walk))
        return;
    for (int i = 0; i < LISTS; i++) {
        uint32_t result = CALL(pe_c_next_version_block, block, BYTES, &walk, &block);
        if (result == PE_C_NOTHING)
            return;
        for (int k = 0; result == PE_C_DONE && k < LISTS; k++)
            if (CALL(pe_c_next_version_block, inner, BYTES, &block.children, &inner) == PE_C_NOTHING)
                break;
    }
}

/* A version resource in the place of all others: a block of version information, in two languages. */
static void edits(const struct file *file)
{
    static const uint8_t key[4] = {'k', 0, 'e', 0}, text[6] = {'o', 0, 'n', 0, 0, 0};
    uint8_t block[32] = {0};
    uint64_t length = 0;
    pe_c_resource both[2] = PE_C_EMPTY;
    for (uint32_t is_text = 0; is_text < 2; is_text++) {
        CALL(pe_c_write_block, length, key, sizeof key, is_text, text, sizeof text - is_text, key, 0, NULL, 0, &length);
        CALL(pe_c_write_block, length, key, sizeof key, is_text, text, sizeof text, key, 0, block, sizeof block, &length);
    }
    static const uint8_t texts[10] = {'k', 0, 'e', 0, 'o', 0, 'n', 0, 0, 0};
    static const pe_c_version fixed = {.signature = 0xFEEF04BD};
    static const pe_c_version_string string = {{0, 4}, {4, 6}};
    static const pe_c_version_table tables[2] = {{0, 1, {0x409, 1200}}, {0, 1, {0x407, 1200}}};
    uint8_t version[512] = {0};
    for (size_t count = 0; count < 3; count++) {
        CALL(pe_c_write_version, length, &fixed, tables, count, &string, 1, &tables->language, 1, texts, sizeof texts - count, NULL, 0,
             &length);
        if (IS_DONE(pe_c_write_version, length, &fixed, tables, count, &string, 1, &tables->language, 1, texts, sizeof texts, version,
                    sizeof version, &length))
            add_bytes(version, length);
    }
    length = sizeof block;
    for (uint32_t i = 0; i < 2; i++) {
        both[i].resource_type.id = 16;
        both[i].name.id = 1;
        both[i].language = 1033 + i;
        both[i].content.length = length;
    }
    CALL(pe_c_edit, length, VIEW, both, 2, block, sizeof block, NULL, 0, &length);
    if (IS_DONE(pe_c_edit, length, VIEW, both, 2, block, sizeof block, file->room, file->room_length, &length))
        add_bytes(file->room, length);
}

/* The root of a resource tree, and the directories to which its entries lead. */
static void resource_directories(const struct file *file, const pe_c_range *tree)
{
    pe_c_resource_directory directory = PE_C_EMPTY, below = PE_C_EMPTY;
    pe_c_resource_item item = PE_C_EMPTY;
    if (IS_DONE(pe_c_resource_directory_at, directory, BYTES, tree, 0, &directory))
        WALK(ITEMS, pe_c_next_resource_item, item, BYTES, tree, &directory.entries, &item)
            CALL(pe_c_resource_directory_at, below, BYTES, tree, item.offset, &below);
}

static void resources(const struct file *file)
{
    pe_c_range range = PE_C_EMPTY;
    pe_c_version version = PE_C_EMPTY;
    pe_c_leaf_walk walk = PE_C_EMPTY;
    pe_c_resource_leaf leaf = PE_C_EMPTY;
    pe_c_resource_directory root = PE_C_EMPTY;
    pe_c_failure failure = PE_C_EMPTY;
    CALL(pe_c_fixed_version, version, VIEW, &version);
    for (uint32_t name = 0; name <= PE_C_SPECIAL_BUILD + 1; name++)
        CALL(pe_c_version_text, range, VIEW, name, &range);
    CALL(pe_c_manifest, range, VIEW, &range);
    version_blocks(file);
    edits(file);
    CALL(pe_c_resource_root, root, VIEW, &root);
    if (!IS_DONE(pe_c_resource_leaves, walk.leaves, VIEW, &walk.leaves))
        return;
    resource_directories(file, &walk.leaves.tree);
    WALK_KEPT(ITEMS, pe_c_next_resource_leaf, pe_c_resource_leaf_failure, leaf, walk, leaves)
        if (leaf.resource_type.id == 16) {
            CALL(pe_c_fixed_version_in, version, BYTES, &leaf.content, &version);
            for (uint32_t name = 0; name <= PE_C_SPECIAL_BUILD + 1; name++)
                CALL(pe_c_version_text_in, range, BYTES, &leaf.content, name, &range);
        }
}

/* What the bytes are as a GUID and as a text, from each of some offsets. */
static void texts_of_bytes(const struct file *file)
{
    for (size_t at = 0; at <= 64 && at <= file->length; at += 16) {
        char room[200] = PE_C_EMPTY;
        uint64_t written = 0;
        pe_c_text_in_bytes text = PE_C_EMPTY;
        pe_c_range range = {at, file->length - at < 60 ? file->length - at : 60};
        for (uint32_t form = 0; form <= PE_C_GUID_DIGITS; form++)
            CALL(pe_c_guid_text, room, file->bytes + at, file->length - at, form, room, 36 + at, &written);
        add(written);
        CALL(pe_c_utf16_text, room, BYTES, &range, room, sizeof room, &written);
        add(written);
        CALL(pe_c_text_in, text, BYTES, &range, &text);
    }
}

static void guard_tables(const struct file *file)
{
    pe_c_guard_entries start = PE_C_EMPTY;
    pe_c_guard_entry entry = PE_C_EMPTY;
    for (uint32_t table = 0; table <= PE_C_GUARD_EH_CONTINUATIONS + 1; table++)
        if (IS_DONE(pe_c_guard_table, start, VIEW, table, &start)) {
            pe_c_guard_entries walk = start;
            WALK(ITEMS, pe_c_next_guard_entry, entry, BYTES, &walk, &entry) {}
            LIST(pe_c_list_guard_entries, pe_c_guard_entry, BYTES, &start);
        }
}

static void directories(const struct file *file)
{
    pe_c_tls_directory tls = PE_C_EMPTY;
    pe_c_range walk = PE_C_EMPTY;
    uint64_t callback = 0;
    pe_c_load_config_directory config = PE_C_EMPTY;
    uint64_t number = 0;
    pe_c_relocation_block block = PE_C_EMPTY;
    pe_c_relocation relocation = PE_C_EMPTY;
    pe_c_cor20_header header = PE_C_EMPTY;
    pe_c_metadata metadata = PE_C_EMPTY;
    pe_c_metadata_stream stream = PE_C_EMPTY;
    pe_c_failure failure = PE_C_EMPTY;
    if (IS_DONE(pe_c_tls, tls, VIEW, &tls) && IS_DONE(pe_c_tls_callbacks, walk, VIEW, &tls, &walk))
        WALK(ITEMS, pe_c_next_tls_callback, callback, VIEW, &walk, &callback) {}
    CALL(pe_c_load_config, config, VIEW, &config);
    for (uint32_t field = 0; field <= PE_C_CONFIG_GUARD_MEMCPY_FUNCTION_POINTER + 1; field++)
        CALL(pe_c_load_config_field, number, VIEW, field, &number);
    guard_tables(file);
    texts_of_bytes(file);
    if (IS_DONE(pe_c_relocation_blocks, walk, VIEW, &walk))
        WALK_WHY(ITEMS, pe_c_next_relocation_block, pe_c_relocation_block_failure, block, BYTES, walk) {
            uint32_t page = block.page_rva;
            CALL(pe_c_relocation_failure, failure, BYTES, page, &block.entries, &failure);
            WALK(INNER, pe_c_next_relocation, relocation, BYTES, page, &block.entries, &relocation)
                CALL(pe_c_relocation_failure, failure, BYTES, page, &block.entries, &failure);
        }
    if (IS_DONE(pe_c_clr_header, header, VIEW, &header)
        && IS_DONE(pe_c_clr_metadata, metadata, VIEW, &header, &metadata))
        WALK(ITEMS, pe_c_next_metadata_stream, stream, BYTES, &metadata.streams, &stream) {}
}

/* The lists of what the walks above step through. */
static void lists_of_names(const struct file *file)
{
    pe_c_export_walk tables = PE_C_EMPTY;
    pe_c_address_table table = PE_C_EMPTY;
    pe_c_library_walk libraries = PE_C_EMPTY;
    pe_c_library library = PE_C_EMPTY;
    uint64_t next = 0;
    pe_c_run runs[ROWS] = PE_C_EMPTY;
    if (pe_c_export_tables(VIEW, &tables.exports) == PE_C_DONE) {
        pe_c_export_walk together = tables;
        LIST(pe_c_list_exports, pe_c_export, VIEW, &tables, NULL, 0);
        LIST(pe_c_list_exports, pe_c_export, VIEW, &together, runs, ROWS);
    }
    if (pe_c_export_addresses(VIEW, &table) == PE_C_DONE) {
        uint64_t together = 0;
        LIST(pe_c_list_export_addresses, pe_c_exported, VIEW, &table, &next, NULL, 0);
        LIST(pe_c_list_export_addresses, pe_c_exported, VIEW, &table, &together, runs, ROWS);
    }
    if (pe_c_import_libraries(VIEW, &libraries.libraries) != PE_C_DONE)
        return;
    pe_c_library_walk walk = libraries, steps = libraries;
    LIST(pe_c_list_libraries, pe_c_library, VIEW, &walk, NULL, 0);
    walk = libraries;
    LIST(pe_c_list_libraries, pe_c_library, VIEW, &walk, runs, ROWS);
    if (pe_c_next_library(VIEW, &steps, &library) == PE_C_DONE) {
        pe_c_import_walk imports_of = {.imports = library.imports}, together = imports_of;
        LIST(pe_c_list_imports, pe_c_import, VIEW, &imports_of, NULL, 0);
        LIST(pe_c_list_imports, pe_c_import, VIEW, &together, runs, ROWS);
    }
    pe_c_library_imports all = PE_C_EMPTY;
    all.libraries = libraries.libraries;
    LIST(pe_c_list_all_imports, pe_c_library_import, VIEW, &all, runs, ROWS);
}

static void lists_of_functions(const struct file *file)
{
    pe_c_range table = PE_C_EMPTY;
    pe_c_function function = PE_C_EMPTY;
    pe_c_record record = PE_C_EMPTY;
    pe_c_arm64_function arm64 = PE_C_EMPTY;
    pe_c_arm64_record info = PE_C_EMPTY;
    pe_c_arm64_walk codes = PE_C_EMPTY;
    uint64_t next = 0;
    if (pe_c_function_table(VIEW, &table) == PE_C_DONE) {
        LIST(pe_c_list_functions, pe_c_function, BYTES, &table, &next);
        if (pe_c_function_at(BYTES, &table, 0, &function) == PE_C_DONE
            && pe_c_unwind_record(VIEW, &table, function.unwind, &record) == PE_C_DONE)
            LIST(pe_c_list_codes, pe_c_code, BYTES, &record.codes);
    }
    if (pe_c_arm64_table(VIEW, &table) != PE_C_DONE)
        return;
    LIST(pe_c_list_arm64_functions, pe_c_arm64_function, BYTES, &table, &next);
    /* The first functions may have packed data and no record. */
    for (uint64_t i = 0; i < INNER; i++)
        if (pe_c_arm64_function_at(BYTES, &table, i, &arm64) == PE_C_DONE
            && pe_c_arm64_unwind_record(VIEW, &arm64, &info) == PE_C_DONE
            && pe_c_arm64_codes(BYTES, &info.codes, 0, &codes) == PE_C_DONE) {
            LIST(pe_c_list_arm64_codes, pe_c_arm64_code, BYTES, &codes);
            return;
        }
}

static void lists(const struct file *file)
{
    pe_c_leaf_walk leaves = PE_C_EMPTY;
    pe_c_range walk = PE_C_EMPTY;
    pe_c_relocation_block block = PE_C_EMPTY;
    lists_of_names(file);
    lists_of_functions(file);
    if (pe_c_resource_leaves(VIEW, &leaves.leaves) == PE_C_DONE)
        LIST(pe_c_list_resource_leaves, pe_c_resource_leaf, VIEW, &leaves);
    if (pe_c_version_blocks(VIEW, &walk) == PE_C_DONE)
        LIST(pe_c_list_version_blocks, pe_c_version_block, BYTES, &walk);
    if (pe_c_relocation_blocks(VIEW, &walk) != PE_C_DONE)
        return;
    pe_c_range blocks = walk;
    LIST(pe_c_list_relocation_blocks, pe_c_relocation_block, BYTES, &blocks);
    if (pe_c_next_relocation_block(BYTES, &walk, &block) == PE_C_DONE)
        LIST(pe_c_list_relocations, pe_c_relocation, BYTES, block.page_rva, &block.entries);
}

static void headers(const struct file *file)
{
    pe_c_range range = PE_C_EMPTY, table = PE_C_EMPTY;
    uint64_t offset = 0;
    uint32_t rva = 0;
    pe_c_rich_header_info rich = PE_C_EMPTY;
    pe_c_rich_entry entry = PE_C_EMPTY;
    CALL(pe_c_offset, offset, VIEW, file->image.entry, &offset);
    CALL(pe_c_section_at, offset, VIEW, file->image.entry, &offset);
    pe_c_range_entry room[64] = PE_C_EMPTY;
    uint64_t made = 0;
    pe_c_view indexed = file->view;
    if (IS_DONE(pe_c_index, made, VIEW, room, 64, &made)) {
        indexed.index = room;
        indexed.entries = (size_t)made;
    }
    add(made);
    CALL(pe_c_section_at, offset, &indexed, file->image.entry, &offset);
    CALL(pe_c_range_at, range, VIEW, file->image.entry, &range);
    CALL(pe_c_rva, rva, VIEW, range.offset, &rva);
    uint64_t loaded = 0;
    if (IS_DONE(pe_c_map, loaded, VIEW, file->room, file->room_length, &loaded)) {
        add_bytes(file->room, loaded);
        CALL(pe_c_relocate, loaded, VIEW, 0x10000, file->room, (size_t)loaded);
        add_bytes(file->room, loaded);
    }
    for (size_t i = 0; i < file->view.count; i++)
        CALL(pe_c_section_range, range, VIEW, &sections[i], &range);
    CALL(pe_c_overlay, range, VIEW, &range);
    if (IS_DONE(pe_c_string_table, table, VIEW, &table)) {
        pe_c_run runs[ROWS] = PE_C_EMPTY;
        uint64_t next = 0;
        for (size_t i = 0; i < file->view.count; i++)
            CALL(pe_c_long_section_name, range, BYTES, &table, &sections[i], &range);
        LIST(pe_c_list_long_section_names, pe_c_range, VIEW, &table, &next, runs, ROWS);
    }
    if (IS_DONE(pe_c_rich_header, rich, BYTES, &rich))
        WALK(ITEMS, pe_c_next_rich_entry, entry, BYTES, rich.key, &rich.entries, &entry) {}
}

/* ---- COFF symbols, of an object or an image */

static void symbols(const struct file *file, const pe_c_coff_header *coff)
{
    pe_c_symbol_walk walk = PE_C_EMPTY;
    pe_c_range strings = PE_C_EMPTY, name = PE_C_EMPTY;
    pe_c_symbol_entry symbol = PE_C_EMPTY;
    pe_c_failure failure = PE_C_EMPTY;
    CALL(pe_c_coff_strings, strings, BYTES, coff, &strings);
    if (!IS_DONE(pe_c_coff_symbols, walk, BYTES, coff, &walk))
        return;
    pe_c_run runs[ROWS] = PE_C_EMPTY;
    pe_c_named_symbol_walk named = PE_C_EMPTY;
    named.symbols = walk;
    named.strings = strings;
    LIST(pe_c_list_symbols, pe_c_named_symbol, BYTES, &named, runs, ROWS);
    WALK(ITEMS, pe_c_next_symbol, symbol, BYTES, &walk, &symbol) {
        CALL(pe_c_symbol_name, name, BYTES, &walk.table, &strings, symbol.index, &name);
        CALL(pe_c_symbol_name_failure, failure, BYTES, &walk.table, &strings, symbol.index, &failure);
        CALL(pe_c_symbol, symbol, BYTES, &walk.table, symbol.index + 1, &symbol);
    }
}

/* The file as a COFF object and as a TE image, whatever it is. */
static void others(struct file *file)
{
    pe_c_coff_header coff = PE_C_EMPTY;
    pe_c_te_image te = PE_C_EMPTY;
    pe_c_range entries = PE_C_EMPTY;
    pe_c_debug_entry entry = PE_C_EMPTY;
    pe_c_failure failure = PE_C_EMPTY;
    if (IS_DONE(pe_c_coff, coff, BYTES, &coff)) {
        pe_c_image_info headers = PE_C_EMPTY;
        headers.sections_offset = 20u + coff.size_of_optional_header;
        headers.number_of_sections = coff.number_of_sections;
        CALL(pe_c_sections, sections, BYTES, &headers, sections, SECTIONS);
        CALL(pe_c_sections_failure, failure, BYTES, &headers, &failure);
        symbols(file, &coff);
    }
    CALL(pe_c_te_failure, failure, BYTES, &failure);
    CALL(pe_c_te, te, BYTES, &te);
    CALL(pe_c_te_sections, sections, BYTES, &te, sections, SECTIONS);
    CALL(pe_c_te_debug_entries, entries, BYTES, &te, &entries);
    WALK(ITEMS, pe_c_next_te_debug_entry, entry, BYTES, &te, &entries, &entry) {}
}

/* Why steps are refused whose walk is past the end of the bytes, and what is read by a key that no image has. */
static void refused_steps(const struct file *file)
{
    const pe_c_range past = {file->length, 1}, none = PE_C_EMPTY;
    const pe_c_libraries libraries = {.next = file->length};
    const pe_c_imports imports = {.left = past};
    const pe_c_walk codes = {.left = past};
    const pe_c_resource_walk leaves = {.tree = past};
    const pe_c_arm64_walk arm64_codes = {.left = past};
    const pe_c_delayed_functions functions = {.left = past};
    const pe_c_arm64_function function = {.unwind = 0xFFFFFFF0};
    pe_c_image_info image = file->image;
    pe_c_failure failure = PE_C_EMPTY;
    image.sections_offset = file->length;
    image.number_of_sections = 1;
    CALL(pe_c_sections_failure, failure, BYTES, &image, &failure);
    CALL(pe_c_library_failure, failure, VIEW, &libraries, &failure);
    CALL(pe_c_import_failure, failure, VIEW, &imports, &failure);
    CALL(pe_c_unwind_record_failure, failure, VIEW, &none, 0xFFFFFFF0, &failure);
    CALL(pe_c_code_failure, failure, BYTES, &codes, &failure);
    CALL(pe_c_resource_leaf_failure, failure, VIEW, &leaves, &failure);
    CALL(pe_c_certificate_failure, failure, BYTES, &past, &failure);
    CALL(pe_c_relocation_block_failure, failure, BYTES, &past, &failure);
    CALL(pe_c_relocation_failure, failure, BYTES, 0x1000, &past, &failure);
    CALL(pe_c_arm64_record_failure, failure, VIEW, &function, &failure);
    CALL(pe_c_arm64_code_failure, failure, BYTES, &arm64_codes, &failure);
    CALL(pe_c_delay_import_failure, failure, VIEW, &past, &failure);
    CALL(pe_c_delayed_function_failure, failure, VIEW, &functions, &failure);
    CALL(pe_c_bound_import_failure, failure, BYTES, &none, &past, &failure);
    CALL(pe_c_symbol_name_failure, failure, BYTES, &past, &none, 0, &failure);
}

static void in_mode(struct file *file, uint32_t mode)
{
    pe_c_headers_info all = PE_C_EMPTY;
    pe_c_failure failure = PE_C_EMPTY;
    CALL(pe_c_image_failure, failure, BYTES, mode, &failure);
    if (IS_DONE(pe_c_headers, all, BYTES, mode, &all))
        symbols(file, &all.coff);
    if (!IS_DONE(pe_c_image, file->image, BYTES, mode, &file->image))
        return;
    CALL(pe_c_sections_failure, failure, BYTES, &file->image, &failure);
    size_t count = file->image.number_of_sections;
    if (count > SECTIONS || !IS_DONE(pe_c_sections, sections, BYTES, &file->image, sections, count))
        return;
    file->view = (pe_c_view){BYTES, &file->image, sections, count, NULL, 0};
    headers(file);
    for (uint32_t index = 0; index < 17; index++)
        CALL(pe_c_directory_failure, failure, VIEW, index, &failure);
    debug_data(file);
    certificates(file);
    walk_x64(file);
    walk_arm64(file);
    exports(file);
    function_names(file);
    imports(file);
    resources(file);
    directories(file);
    lists(file);
    refused_steps(file);
}

/* ---- the file as a minidump, whatever it is */

/* Four pieces of memory in order, and where an address and the one after a piece are. */
static void dump_memory(const struct file *file, const pe_c_memory_piece *pieces)
{
    pe_c_range_entry entries[16] = PE_C_EMPTY;
    pe_c_memory_piece runs[8] = PE_C_EMPTY;
    uint64_t count = 0;
    if (!IS_DONE(pe_c_memory_runs, count, pieces, 4, entries, 16, runs, 8, &count))
        return;
    add_bytes((const uint8_t *)runs, count * sizeof *runs);
    pe_c_range asked[2] = {{runs->start, 64}, {pieces->start + pieces->length, 64}}, found[2] = PE_C_EMPTY;
    CALL(pe_c_memory_ranges, found, BYTES, runs, (size_t)count, asked, 2, found, 2, &count);
}

static void dump_lists(const struct file *file, const pe_c_range *stream)
{
    pe_c_memory_piece pieces[4] = PE_C_EMPTY;
    pe_c_dump_thread thread = PE_C_EMPTY;
    pe_c_dump_module module = PE_C_EMPTY;
    pe_c_dump_thread_name name = PE_C_EMPTY;
    pe_c_dump_unloaded unloaded = PE_C_EMPTY;
    pe_c_dump_thread_info more = PE_C_EMPTY;
    pe_c_dump_handle handle = PE_C_EMPTY;
    pe_c_dump_region region = PE_C_EMPTY;
    pe_c_dump_piece piece = PE_C_EMPTY;
    pe_c_range range = PE_C_EMPTY;
    pe_c_context context = PE_C_EMPTY;
    pe_c_arm64_context arm64_context = PE_C_EMPTY;
    pe_c_dump_any_record any = PE_C_EMPTY;
    pe_c_dump_any_context any_context = PE_C_EMPTY;
    uint32_t is_image = 0;
    for (uint64_t i = 0; i < 4; i++) {
        CALL(pe_c_dump_thread_at, thread, BYTES, stream, i, &thread);
        CALL(pe_c_dump_context, context, BYTES, &thread.thread_context, &context);
        CALL(pe_c_dump_context_arm64, arm64_context, BYTES, &thread.thread_context, &arm64_context);
        CALL(pe_c_dump_module_at, module, BYTES, stream, i, &module);
        pe_c_image_info image = file->image;
        CALL(pe_c_is_image_of, is_image, &image, &module);
        image.width = 64;
        image.time_date_stamp = module.time_date_stamp;
        image.size_of_image = module.size_of_image;
        CALL(pe_c_is_image_of, is_image, &image, &module);
        CALL(pe_c_dump_text, range, BYTES, module.module_name_rva, &range);
        CALL(pe_c_dump_thread_name_at, name, BYTES, stream, i, &name);
        CALL(pe_c_dump_unloaded_at, unloaded, BYTES, stream, i, &unloaded);
        CALL(pe_c_dump_thread_info_at, more, BYTES, stream, i, &more);
        CALL(pe_c_dump_handle_at, handle, BYTES, stream, i, &handle);
        CALL(pe_c_dump_region_at, region, BYTES, stream, i, &region);
        CALL(pe_c_dump_memory_at, piece, BYTES, stream, i, &piece);
        for (uint32_t kind = 0; kind <= PE_C_THREAD_NAMES_STREAM; kind++)
            CALL(pe_c_dump_record, any, BYTES, stream, kind, i, &any);
        for (uint32_t machine = 0; machine <= 12; machine++)
            CALL(pe_c_read_dump_context, any_context, BYTES, &thread.thread_context, machine, &any_context);
        pieces[i] = piece.memory;
    }
    dump_memory(file, pieces);
}

static void dump_stream(const struct file *file, const pe_c_range *stream)
{
    pe_c_dump_raised raised = PE_C_EMPTY;
    pe_c_dump_system_info system = PE_C_EMPTY;
    pe_c_dump_process_info process = PE_C_EMPTY;
    pe_c_memory64_walk walk = PE_C_EMPTY;
    pe_c_dump_piece piece = PE_C_EMPTY;
    pe_c_context context = PE_C_EMPTY;
    pe_c_arm64_context arm64_context = PE_C_EMPTY;
    dump_lists(file, stream);
    if (IS_DONE(pe_c_dump_exception, raised, BYTES, stream, &raised)) {
        CALL(pe_c_dump_context, context, BYTES, &raised.thread_context, &context);
        CALL(pe_c_dump_context_arm64, arm64_context, BYTES, &raised.thread_context, &arm64_context);
    }
    CALL(pe_c_dump_system, system, BYTES, stream, &system);
    CALL(pe_c_dump_process, process, BYTES, stream, &process);
    if (IS_DONE(pe_c_dump_memory64, walk, BYTES, stream, &walk))
        WALK(ITEMS, pe_c_next_memory64, piece, BYTES, &walk, &piece) {}
}

static void dump(const struct file *file)
{
    pe_c_dump_info info = PE_C_EMPTY;
    pe_c_dump_entry entry = PE_C_EMPTY;
    pe_c_range stream = PE_C_EMPTY;
    if (!IS_DONE(pe_c_dump, info, BYTES, &info))
        return;
    CALL(pe_c_dump_entry_at, entry, BYTES, &info.directory, 1, &entry);
    for (uint32_t kind = 0; kind <= PE_C_THREAD_NAMES_STREAM; kind++)
        if (IS_DONE(pe_c_dump_stream, stream, BYTES, &info.directory, kind, &stream))
            dump_stream(file, &stream);
}

/* ---- program databases */

/* How many bytes of a stream are read, and how many numbers of a room. */
enum { STREAM = 1 << 16, NUMBERS = 256 };

static uint8_t stream_bytes[STREAM], section_bytes[STREAM], name_bytes[STREAM];

/* What streams of a PDB say, by bytes of the section headers. */
static void pdb_symbols(const uint8_t *bytes, size_t length, const uint8_t *headers, size_t headers_length,
                        pe_c_range walk)
{
    for (uint32_t kind = PE_C_PDB_PUBLICS; kind <= PE_C_PDB_PROCEDURES; kind++) {
        uint64_t index[NUMBERS] = PE_C_EMPTY, written = 0;
        pe_c_pdb_symbol found = PE_C_EMPTY;
        CALL(pe_c_pdb_index, index, kind, bytes, length, &walk, headers, headers_length, index, NUMBERS, &written);
        add(written);
        for (uint32_t rva = 0xFFF; rva < 0x2000; rva += 0x51) {
            CALL(pe_c_find_pdb_symbol, found, kind, bytes, length, headers, headers_length, index,
                 written < NUMBERS ? (size_t)written : NUMBERS, rva, &found);
            CALL(pe_c_read_pdb_symbol, found, kind, bytes, length, &walk, headers, headers_length, rva, &found);
        }
    }
    LIST(pe_c_list_pdb_symbols, pe_c_pdb_symbol, bytes, length, headers, headers_length, &walk);
}

/* The lines and source files of a range of a stream. */
static void pdb_lines(const uint8_t *bytes, size_t length, const pe_c_range *range, const uint8_t *headers,
                      size_t headers_length, const uint8_t *names, size_t names_length)
{
    pe_c_pdb_line_entry index[NUMBERS] = PE_C_EMPTY;
    pe_c_pdb_line line = PE_C_EMPTY, read = PE_C_EMPTY;
    pe_c_range files = PE_C_EMPTY, name = PE_C_EMPTY;
    uint64_t written = 0;
    CALL(pe_c_pdb_lines, index, bytes, length, range, headers, headers_length, index, NUMBERS, &written);
    add(written);
    for (uint32_t rva = 0xFFF; rva < 0x1100; rva += 11) {
        CALL(pe_c_read_pdb_line, read, bytes, length, range, headers, headers_length, rva, &read);
        CALL(pe_c_find_pdb_line, line, index, written < NUMBERS ? (size_t)written : NUMBERS, rva, &line);
    }
    CALL(pe_c_pdb_files, files, bytes, length, range, &files);
    CALL(pe_c_pdb_file_name, name, bytes, length, &files, names, names_length, line.file, &name);
}

/* The inlined functions of the procedures of a module, by the stream of ids. */
static void pdb_inlined(const uint8_t *bytes, size_t length, const pe_c_pdb_module *module, const uint8_t *headers,
                        size_t headers_length, const uint8_t *ids, size_t ids_length)
{
    uint64_t index[NUMBERS] = PE_C_EMPTY, starts[NUMBERS] = PE_C_EMPTY, entries = 0, count = 0, written = 0;
    pe_c_pdb_symbol found = PE_C_EMPTY;
    pe_c_pdb_inlined frames[4] = PE_C_EMPTY;
    CALL(pe_c_pdb_ids, starts, ids, ids_length, starts, NUMBERS, &count);
    count = count < NUMBERS ? count : NUMBERS;
    CALL(pe_c_pdb_index, index, PE_C_PDB_PROCEDURES, bytes, length, &module->symbols, headers, headers_length, index, NUMBERS, &entries);
    for (uint32_t rva = 0xFFF; rva < 0x1100; rva += 3) {
        CALL(pe_c_find_pdb_symbol, found, PE_C_PDB_PROCEDURES, bytes, length, headers, headers_length, index,
             entries < NUMBERS ? (size_t)entries : NUMBERS, rva, &found);
        CALL(pe_c_find_pdb_inlined, frames, bytes, length, module, &found, rva, ids, ids_length, starts, (size_t)count, frames, 4,
             &written);
        add(written);
    }
}

static size_t stream_of(const struct file *file, const uint64_t *starts, size_t count, uint32_t index, uint8_t *room)
{
    uint64_t written = 0;
    uint32_t result = TARGET_CALL(pe_c_pdb_stream)(BYTES, starts, count, index, room, STREAM, &written);
    note(number_of_pe_c_pdb_stream, result, &written, sizeof written);
    pe_c_range range = PE_C_EMPTY;
    CALL(pe_c_pdb_stream_range, range, BYTES, starts, count, index, &range);
    if (result != PE_C_DONE)
        return 0;
    add_bytes(room, (size_t)written);
    return (size_t)written;
}

/* As if a file were a stream of a PDB. */
static void pdb_stream(const struct file *file, const uint64_t *starts)
{
    pe_c_range all = {0, file->length}, walk = all;
    pdb_symbols(BYTES, file->bytes, file->length / 40 * 40, all);
    LIST(pe_c_list_pdb_modules, pe_c_pdb_module, BYTES, &walk);
    pdb_lines(BYTES, &all, file->bytes, file->length / 40 * 40, BYTES);
    pe_c_pdb_module module = {all, all, all, all, 0, 0, 0, 0, 0, 0};
    pdb_inlined(BYTES, &module, file->bytes, file->length / 40 * 40, BYTES);
    pe_c_pdb_module_range ranges[NUMBERS] = PE_C_EMPTY;
    uint64_t written = 0;
    CALL(pe_c_pdb_module_ranges, ranges, BYTES, &all, file->bytes, file->length / 40 * 40, ranges, NUMBERS, &written);
    stream_of(file, starts, NUMBERS, 1, stream_bytes);
}

/* The streams of a PDB. */
static void pdb_streams(const struct file *file, const pe_c_pdb_info *info, const uint64_t *starts, size_t count)
{
    static const uint8_t name[6] = {'/', 'n', 'a', 'm', 'e', 's'};
    pe_c_pdb_module module = PE_C_EMPTY;
    pe_c_range walk = info->modules;
    uint32_t number = 0, moved = 0;
    uint64_t one = 0;
    size_t headers = stream_of(file, NULL, 0, info->section_headers, section_bytes);
    size_t length = stream_of(file, starts, count, info->symbol_stream, stream_bytes);
    pe_c_range all = {0, length};
    pdb_symbols(stream_bytes, length, section_bytes, headers, all);
    length = stream_of(file, starts, count, 1, stream_bytes);
    CALL(pe_c_pdb_named_stream, number, stream_bytes, length, name, sizeof name, &number);
    CALL(pe_c_pdb_moved_rva, moved, stream_bytes, length, 0x1050, &moved);
    length = stream_of(file, starts, count, 3, stream_bytes);
    CALL(pe_c_list_pdb_modules, module, stream_bytes, length, &walk, &module, 1, &one);
    LIST(pe_c_list_pdb_modules, pe_c_pdb_module, stream_bytes, length, &walk);
    pe_c_pdb_module_range ranges[NUMBERS] = PE_C_EMPTY;
    CALL(pe_c_pdb_module_ranges, ranges, stream_bytes, length, &info->contributions, section_bytes, headers, ranges, NUMBERS, &one);
    add(one);
    size_t ids = stream_of(file, starts, count, 4, name_bytes);
    length = stream_of(file, starts, count, module.stream, stream_bytes);
    pdb_inlined(stream_bytes, length, &module, section_bytes, headers, name_bytes, ids);
    size_t names = stream_of(file, starts, count, number, name_bytes);
    pdb_lines(stream_bytes, length, &module.lines, section_bytes, headers, name_bytes, names);
}

static void pdb(const struct file *file)
{
    pe_c_pdb_info info = PE_C_EMPTY;
    pe_c_key key = PE_C_EMPTY;
    uint64_t starts[NUMBERS] = PE_C_EMPTY, written = 0;
    int is_pdb = IS_DONE(pe_c_pdb, info, BYTES, &info);
    CALL(pe_c_pdb_starts, starts, BYTES, starts, NUMBERS, &written);
    key.age = info.dbi_age;
    for (int i = 0; i < 16; i++)
        key.guid[i] = info.guid[i];
    CALL(pe_c_is_pdb_of, key, &key, &info);
    if (is_pdb)
        pdb_streams(file, &info, starts, written < NUMBERS ? (size_t)written : NUMBERS);
    else
        pdb_stream(file, starts);
}

/* ---- all of it */

static void make_stack(void)
{
    static const pe_c_memory_piece parts[3] = {{STACK, 0, 0x4004}, {STACK + 0x4004, 0x4004, 0x4000},
                                               {STACK + 0x8004, 0x8004, 0x7FFC}};
    for (int i = 0; i < 3; i++)
        pieces[i] = parts[i];
    for (size_t at = 0; at < sizeof stack; at += 8) {
        uint64_t word = STACK + (next_random() & 0xFFF8);
        for (int i = 0; i < 8; i++)
            stack[at + i] = (uint8_t)(word >> 8 * i);
    }
}

/* The texts of all results that there may be, and the number of the ABI. */
static void texts(void)
{
    for (uint32_t number = 0; number < 640; number++) {
        char text[128] = {0};
        size_t length = TARGET_CALL(pe_c_text)(number, text, sizeof text);
        count(number_of_pe_c_text, length > 0);
        add(length);
        add_bytes(text, sizeof text);
        /* And as the header has it, compiled for the target. */
        const char *message = pe_c_message(number);
        for (size_t i = 0; message[i] != 0; i++)
            add((uint8_t)message[i]);
    }
    uint32_t abi = TARGET_CALL(PE_C_ABI)();
    count(NUMBER_OF_ABI, abi == ABI);
    add(abi);
}

void all_calls(const uint8_t *bytes, size_t length, uint8_t *room, size_t room_length, struct totals *out)
{
    struct file file = {bytes, length, room, room_length, PE_C_EMPTY, PE_C_EMPTY};
    totals = out;
    out->hash = 0xCBF29CE484222325u;
    out->calls = CALLS;
    seed = 0x9E3779B97F4A7C15u ^ length;
    for (size_t i = 0; i < SECTIONS; i++)
        sections[i] = (pe_c_section)PE_C_EMPTY;
    make_stack();
    texts();
    others(&file);
    dump(&file);
    pdb(&file);
    for (uint32_t mode = 0; mode < 4; mode++)
        in_mode(&file, mode);
}
