/* The rows that records of pe.h become. Written by tools/make_python of pe.h. */

static PyObject *row_range(Image *self, Rows *rows, const pe_c_range *it);
static PyObject *row_directory(Image *self, Rows *rows, const pe_c_directory *it);
static PyObject *row_image_info(Image *self, Rows *rows, const pe_c_image_info *it);
static PyObject *row_section(Image *self, Rows *rows, const pe_c_section *it);
static PyObject *section_name(Image *self, Rows *rows, const pe_c_section *it);
static PyObject *row_dos_header(Image *self, Rows *rows, const pe_c_dos_header *it);
static PyObject *row_coff_header(Image *self, Rows *rows, const pe_c_coff_header *it);
static PyObject *row_optional_header(Image *self, Rows *rows, const pe_c_optional_header *it);
static PyObject *row_headers_info(Image *self, Rows *rows, const pe_c_headers_info *it);
static PyObject *row_symbol_entry(Image *self, Rows *rows, const pe_c_symbol_entry *it, pe_c_range name);
static PyObject *row_rich_header_info(Image *self, Rows *rows, const pe_c_rich_header_info *it);
static PyObject *rich_entries(Image *self, Rows *rows, const pe_c_rich_header_info *it);
static PyObject *row_rich_entry(Image *self, Rows *rows, const pe_c_rich_entry *it);
static PyObject *row_debug_entry(Image *self, Rows *rows, const pe_c_debug_entry *it);
static PyObject *row_key(Image *self, Rows *rows, const pe_c_key *it);
static PyObject *row_pdb20(Image *self, Rows *rows, const pe_c_pdb20 *it);
static PyObject *row_vc_features(Image *self, Rows *rows, const pe_c_vc_features *it);
static PyObject *row_repro(Image *self, Rows *rows, const pe_c_repro *it);
static PyObject *row_pogo(Image *self, Rows *rows, const pe_c_pogo *it);
static PyObject *pogo_entries(Image *self, Rows *rows, const pe_c_pogo *it);
static PyObject *row_pogo_entry(Image *self, Rows *rows, const pe_c_pogo_entry *it);
static PyObject *row_embedded_pdb(Image *self, Rows *rows, const pe_c_embedded_pdb *it);
static PyObject *row_pdb_checksum(Image *self, Rows *rows, const pe_c_pdb_checksum *it);
static PyObject *row_te_image(Image *self, Rows *rows, const pe_c_te_image *it);
static PyObject *row_certificate(Image *self, Rows *rows, const pe_c_certificate *it);
static PyObject *row_oid(Image *self, Rows *rows, const pe_c_oid *it);
static PyObject *row_algorithm(Image *self, Rows *rows, const pe_c_algorithm *it);
static PyObject *row_der_element(Image *self, Rows *rows, const pe_c_der_element *it);
static PyObject *row_signed_data(Image *self, Rows *rows, const pe_c_signed_data *it);
static PyObject *row_spc_indirect_data(Image *self, Rows *rows, const pe_c_spc_indirect_data *it);
static PyObject *row_spc_pe_image_data(Image *self, Rows *rows, const pe_c_spc_pe_image_data *it);
static PyObject *row_signer_info(Image *self, Rows *rows, const pe_c_signer_info *it);
static PyObject *row_signer_attribute(Image *self, Rows *rows, const pe_c_signer_attribute *it);
static PyObject *row_spc_opus_info(Image *self, Rows *rows, const pe_c_spc_opus_info *it);
static PyObject *row_x509_certificate(Image *self, Rows *rows, const pe_c_x509_certificate *it);
static PyObject *row_x509_extension(Image *self, Rows *rows, const pe_c_x509_extension *it);
static PyObject *row_name_attribute(Image *self, Rows *rows, const pe_c_name_attribute *it);
static PyObject *row_utc_time(Image *self, Rows *rows, const pe_c_utc_time *it);
static PyObject *row_tst_info(Image *self, Rows *rows, const pe_c_tst_info *it);
static PyObject *row_checksum_field(Image *self, Rows *rows, const pe_c_checksum_field *it);
static PyObject *row_function(Image *self, Rows *rows, const pe_c_function *it);
static PyObject *row_record(Image *self, Rows *rows, const pe_c_record *it);
static PyObject *unwind_codes(Image *self, Rows *rows, const pe_c_record *it);
static PyObject *row_code(Image *self, Rows *rows, const pe_c_code *it);
static PyObject *row_registers(Image *self, Rows *rows, const pe_c_registers *it);
static PyObject *row_stack_walk(Image *self, Rows *rows, const pe_c_stack_walk *it);
static PyObject *row_arm64_function(Image *self, Rows *rows, const pe_c_arm64_function *it);
static PyObject *row_arm64_packed(Image *self, Rows *rows, const pe_c_arm64_packed *it);
static PyObject *row_arm64_record(Image *self, Rows *rows, const pe_c_arm64_record *it);
static PyObject *arm64_scopes(Image *self, Rows *rows, const pe_c_arm64_record *it);
static PyObject *arm64_codes(Image *self, Rows *rows, const pe_c_arm64_record *it);
static PyObject *row_arm64_scope(Image *self, Rows *rows, const pe_c_arm64_scope *it);
static PyObject *row_arm64_code(Image *self, Rows *rows, const pe_c_arm64_code *it);
static PyObject *row_arm64_registers(Image *self, Rows *rows, const pe_c_arm64_registers *it);
static PyObject *row_arm64_stack_walk(Image *self, Rows *rows, const pe_c_arm64_stack_walk *it);
static PyObject *row_address_table(Image *self, Rows *rows, const pe_c_address_table *it);
static PyObject *row_exported(Image *self, Rows *rows, const pe_c_exported *it, const pe_c_export *named);
static PyObject *row_export_fields(Image *self, Rows *rows, const pe_c_export_fields *it);
static PyObject *row_name_sources(Image *self, Rows *rows, const pe_c_name_sources *it);
static PyObject *row_function_name(Image *self, Rows *rows, const pe_c_function_name *it);
static PyObject *row_library(Image *self, Rows *rows, const pe_c_library *it);
static PyObject *imports_of(Image *self, Rows *rows, const pe_c_library *it);
static PyObject *row_import(Image *self, Rows *rows, const pe_c_import *it);
static PyObject *row_delay_descriptor(Image *self, Rows *rows, const pe_c_delay_descriptor *it);
static PyObject *row_delay_import(Image *self, Rows *rows, const pe_c_delay_import *it);
static PyObject *delayed_functions(Image *self, Rows *rows, const pe_c_delay_import *it);
static PyObject *row_delayed_function(Image *self, Rows *rows, const pe_c_delayed_function *it);
static PyObject *row_bound_import(Image *self, Rows *rows, const pe_c_bound_import *it);
static PyObject *bound_forwarders(Image *self, Rows *rows, const pe_c_bound_import *it);
static PyObject *row_bound_forwarder(Image *self, Rows *rows, const pe_c_bound_forwarder *it);
static PyObject *row_version(Image *self, Rows *rows, const pe_c_version *it);
static PyObject *row_version_block(Image *self, Rows *rows, const pe_c_version_block *it);
static PyObject *version_children(Image *self, Rows *rows, const pe_c_version_block *it);
static PyObject *row_resource_leaf(Image *self, Rows *rows, const pe_c_resource_leaf *it);
static PyObject *row_resource_directory(Image *self, Rows *rows, const pe_c_resource_directory *it);
static PyObject *row_tls_directory(Image *self, Rows *rows, const pe_c_tls_directory *it);
static PyObject *tls_callbacks(Image *self, Rows *rows, const pe_c_tls_directory *it);
static PyObject *row_load_config_directory(Image *self, Rows *rows, const pe_c_load_config_directory *it);
static PyObject *row_guard_entry(Image *self, Rows *rows, const pe_c_guard_entry *it);
static PyObject *row_relocation_block(Image *self, Rows *rows, const pe_c_relocation_block *it);
static PyObject *relocations_of(Image *self, Rows *rows, const pe_c_relocation_block *it);
static PyObject *row_relocation(Image *self, Rows *rows, const pe_c_relocation *it);
static PyObject *row_cor20_header(Image *self, Rows *rows, const pe_c_cor20_header *it);
static PyObject *row_metadata(Image *self, Rows *rows, const pe_c_metadata *it);
static PyObject *metadata_streams(Image *self, Rows *rows, const pe_c_metadata *it);
static PyObject *row_metadata_stream(Image *self, Rows *rows, const pe_c_metadata_stream *it);
static PyObject *row_dump_info(Image *self, Rows *rows, const pe_c_dump_info *it);
static PyObject *row_dump_location(Image *self, Rows *rows, const pe_c_dump_location *it);
static PyObject *row_dump_entry(Image *self, Rows *rows, const pe_c_dump_entry *it);
static PyObject *row_dump_stack(Image *self, Rows *rows, const pe_c_dump_stack *it);
static PyObject *row_dump_thread(Image *self, Rows *rows, const pe_c_dump_thread *it);
static PyObject *row_dump_version(Image *self, Rows *rows, const pe_c_dump_version *it);
static PyObject *row_dump_module(Image *self, Rows *rows, const pe_c_dump_module *it);
static PyObject *row_dump_thread_name(Image *self, Rows *rows, const pe_c_dump_thread_name *it);
static PyObject *row_dump_unloaded(Image *self, Rows *rows, const pe_c_dump_unloaded *it);
static PyObject *row_dump_thread_info(Image *self, Rows *rows, const pe_c_dump_thread_info *it);
static PyObject *row_dump_handle(Image *self, Rows *rows, const pe_c_dump_handle *it);
static PyObject *row_dump_region(Image *self, Rows *rows, const pe_c_dump_region *it);
static PyObject *row_dump_raised(Image *self, Rows *rows, const pe_c_dump_raised *it);
static PyObject *row_dump_system_info(Image *self, Rows *rows, const pe_c_dump_system_info *it);
static PyObject *row_dump_times(Image *self, Rows *rows, const pe_c_dump_times *it);
static PyObject *row_dump_power(Image *self, Rows *rows, const pe_c_dump_power *it);
static PyObject *row_dump_process_info(Image *self, Rows *rows, const pe_c_dump_process_info *it);
static PyObject *row_dump_piece(Image *self, Rows *rows, const pe_c_dump_piece *it);
static PyObject *row_context(Image *self, Rows *rows, const pe_c_context *it);
static PyObject *row_arm64_context(Image *self, Rows *rows, const pe_c_arm64_context *it);
static PyObject *row_pdb_info(Image *self, Rows *rows, const pe_c_pdb_info *it);
static PyObject *row_pdb_module(Image *self, Rows *rows, const pe_c_pdb_module *it);
static PyObject *row_pdb_symbol(Image *self, Rows *rows, const pe_c_pdb_symbol *it);
static PyObject *row_pdb_line(Image *self, Rows *rows, const pe_c_pdb_line *it, PyObject *file);

static PyStructSequence_Field row_range_fields[] = {
    {"offset", "from the start of the bytes"},
    {"length", "bytes"},
    {NULL, NULL}};

static PyObject *row_range(Image *self, Rows *rows, const pe_c_range *it)
{
    if (!takes(rows, 0))
        return NULL;
    PyObject *items[] = {
        N(it->offset),
        N(it->length),
    };
    return filled(self, ROW_RANGE, items, 2);
}

static PyStructSequence_Field row_directory_fields[] = {
    {"virtual_address", "RVA; of the certificate table a file offset"},
    {"size", "bytes"},
    {NULL, NULL}};

static PyObject *row_directory(Image *self, Rows *rows, const pe_c_directory *it)
{
    if (!takes(rows, 0))
        return NULL;
    PyObject *items[] = {
        N(it->virtual_address),
        N(it->size),
    };
    return filled(self, ROW_DIRECTORY, items, 2);
}

static PyStructSequence_Field row_image_info_fields[] = {
    {"base", "ImageBase, the preferred virtual address of the image; add RVAs to it"},
    {"sections_offset", "offset of the section headers"},
    {"checksum_offset", "offset of the field CheckSum, 4 bytes; 0 without an optional header"},
    {"certificate_entry_offset", "offset of directory PE_C_DIRECTORY_SECURITY, 8 bytes; 0 without that entry"},
    {"entry", "RVA of the entry point"},
    {"file_alignment", "bytes; a power of two, or no RVA of a file is mapped"},
    {"mode", "how the image is read: PE_C_PERMISSIVE, PE_C_MAPPED, both or 0, that of the call of pe_c_image. A caller may change it"},
    {"section_alignment", "bytes: sections start at multiples of it in memory"},
    {"size_of_image", "bytes of the image in memory"},
    {"size_of_headers", "bytes of the headers in the file, rounded up to the file alignment"},
    {"checksum", "CheckSum, as the file has it; 0 in most that are no drivers"},
    {"time_date_stamp", "seconds since 1970, or a hash in a reproducible build"},
    {"number_of_directories", "those that the optional header has, at most 16; the others are absent"},
    {"directories", "by their indices, PE_C_DIRECTORY_EXPORT and so on"},
    {"machine", "IMAGE_FILE_MACHINE_AMD64 0x8664, _ARM64 0xAA64, _I386 0x14C, or another"},
    {"width", "64 for PE32+, 32 for PE32, 0 without an optional header"},
    {"number_of_sections", "the number of section headers"},
    {"characteristics", "IMAGE_FILE_ flags; IMAGE_FILE_DLL 0x2000"},
    {"subsystem", "IMAGE_SUBSYSTEM_: 1 native, 2 Windows GUI, 3 Windows console, 10 EFI, or another"},
    {"dll_characteristics", "IMAGE_DLLCHARACTERISTICS_ flags"},
    {NULL, NULL}};

static PyObject *row_image_info(Image *self, Rows *rows, const pe_c_image_info *it)
{
    if (!takes(rows, 0))
        return NULL;
    PyObject *items[] = {
        N(it->base),
        N(it->sections_offset),
        N(it->checksum_offset),
        N(it->certificate_entry_offset),
        N(it->entry),
        N(it->file_alignment),
        N(it->mode),
        N(it->section_alignment),
        N(it->size_of_image),
        N(it->size_of_headers),
        N(it->checksum),
        N(it->time_date_stamp),
        N(it->number_of_directories),
        directories_of(self, rows, it->directories, it->number_of_directories),
        N(it->machine),
        N(it->width),
        N(it->number_of_sections),
        N(it->characteristics),
        N(it->subsystem),
        N(it->dll_characteristics),
    };
    return filled(self, ROW_IMAGE_INFO, items, 20);
}

static PyStructSequence_Field row_section_fields[] = {
    {"name", NULL},
    {"raw_name", "padded with zeros; a name of 8 bytes is not NUL-terminated"},
    {"virtual_size", "bytes in memory"},
    {"virtual_address", "RVA of its first byte"},
    {"size_of_raw_data", "bytes in the file"},
    {"pointer_to_raw_data", "file offset of its first byte"},
    {"pointer_to_relocations", "file offset; 0 in images"},
    {"pointer_to_linenumbers", "file offset, or 0"},
    {"number_of_relocations", "0 in images"},
    {"number_of_linenumbers", "the number of COFF line numbers"},
    {"characteristics", "IMAGE_SCN_ flags"},
    {NULL, NULL}};

static PyObject *row_section(Image *self, Rows *rows, const pe_c_section *it)
{
    if (!takes(rows, 0))
        return NULL;
    PyObject *items[] = {
        section_name(self, rows, it),
        bytes_of(it->name, sizeof it->name),
        N(it->virtual_size),
        N(it->virtual_address),
        N(it->size_of_raw_data),
        N(it->pointer_to_raw_data),
        N(it->pointer_to_relocations),
        N(it->pointer_to_linenumbers),
        N(it->number_of_relocations),
        N(it->number_of_linenumbers),
        N(it->characteristics),
    };
    return filled(self, ROW_SECTION, items, 11);
}

static PyStructSequence_Field row_dos_header_fields[] = {
    {"signature", "e_magic: 0x5A4D, \"MZ\""},
    {"bytes_on_last_page", "e_cblp"},
    {"pages_in_file", "e_cp: of 512 bytes"},
    {"relocations", "e_crlc: how many"},
    {"size_of_header_in_paragraphs", "e_cparhdr: of 16 bytes"},
    {"minimum_extra_paragraphs", "e_minalloc"},
    {"maximum_extra_paragraphs", "e_maxalloc"},
    {"initial_relative_ss", "e_ss"},
    {"initial_sp", "e_sp"},
    {"checksum", "e_csum"},
    {"initial_ip", "e_ip"},
    {"initial_relative_cs", "e_cs"},
    {"relocations_offset", "e_lfarlc: file offset of the relocations"},
    {"overlay_number", "e_ovno"},
    {"reserved", "e_res"},
    {"oem_id", "e_oemid"},
    {"oem_information", "e_oeminfo"},
    {"reserved2", "e_res2"},
    {"pe_pointer", "e_lfanew: file offset of the PE signature"},
    {NULL, NULL}};

static PyObject *row_dos_header(Image *self, Rows *rows, const pe_c_dos_header *it)
{
    if (!takes(rows, 0))
        return NULL;
    PyObject *items[] = {
        N(it->signature),
        N(it->bytes_on_last_page),
        N(it->pages_in_file),
        N(it->relocations),
        N(it->size_of_header_in_paragraphs),
        N(it->minimum_extra_paragraphs),
        N(it->maximum_extra_paragraphs),
        N(it->initial_relative_ss),
        N(it->initial_sp),
        N(it->checksum),
        N(it->initial_ip),
        N(it->initial_relative_cs),
        N(it->relocations_offset),
        N(it->overlay_number),
        bytes_of((const uint8_t *)it->reserved, sizeof it->reserved),
        N(it->oem_id),
        N(it->oem_information),
        bytes_of((const uint8_t *)it->reserved2, sizeof it->reserved2),
        N(it->pe_pointer),
    };
    return filled(self, ROW_DOS_HEADER, items, 19);
}

static PyStructSequence_Field row_coff_header_fields[] = {
    {"time_date_stamp", "seconds since 1970, or a hash in a reproducible build"},
    {"pointer_to_symbol_table", "file offset of the COFF symbols, or 0"},
    {"number_of_symbol_table", "their entries of 18 bytes, auxiliary records included"},
    {"machine", "IMAGE_FILE_MACHINE_"},
    {"number_of_sections", "the number of section headers"},
    {"size_of_optional_header", "bytes; 0 where there is no optional header"},
    {"characteristics", "IMAGE_FILE_ flags"},
    {NULL, NULL}};

static PyObject *row_coff_header(Image *self, Rows *rows, const pe_c_coff_header *it)
{
    if (!takes(rows, 0))
        return NULL;
    PyObject *items[] = {
        N(it->time_date_stamp),
        N(it->pointer_to_symbol_table),
        N(it->number_of_symbol_table),
        N(it->machine),
        N(it->number_of_sections),
        N(it->size_of_optional_header),
        N(it->characteristics),
    };
    return filled(self, ROW_COFF_HEADER, items, 7);
}

static PyStructSequence_Field row_optional_header_fields[] = {
    {"image_base", "preferred virtual address of the image"},
    {"size_of_stack_reserve", "bytes of the stack to reserve"},
    {"size_of_stack_commit", "bytes of the stack to commit"},
    {"size_of_heap_reserve", "bytes of the heap to reserve"},
    {"size_of_heap_commit", "bytes of the heap to commit"},
    {"size_of_code", "bytes of all sections of code"},
    {"size_of_initialized_data", "bytes of all sections of initialized data"},
    {"size_of_uninitialized_data", "bytes of all sections of uninitialized data"},
    {"address_of_entry_point", "RVA, or 0"},
    {"base_of_code", "RVA"},
    {"base_of_data", "RVA; 0 in PE32+, which has no such field"},
    {"section_alignment", "bytes"},
    {"file_alignment", "bytes"},
    {"win32_version_value", "reserved"},
    {"size_of_image", "bytes in memory"},
    {"size_of_headers", "bytes in the file, rounded up to the file alignment"},
    {"check_sum", "`CheckSum`, as the file has it"},
    {"loader_flags", "reserved"},
    {"number_of_rva_and_sizes", "directories, as the header says"},
    {"number_of_directories", "those of them that are kept, at most 16"},
    {"magic", "0x10B in PE32, 0x20B in PE32+"},
    {"major_operating_system_version", "the major version of the operating system that is required"},
    {"minor_operating_system_version", "the minor version of the operating system that is required"},
    {"major_image_version", "the major version of the image"},
    {"minor_image_version", "the minor version of the image"},
    {"major_subsystem_version", "the major version of the subsystem"},
    {"minor_subsystem_version", "the minor version of the subsystem"},
    {"subsystem", "IMAGE_SUBSYSTEM_"},
    {"dll_characteristics", "IMAGE_DLLCHARACTERISTICS_ flags"},
    {"major_linker_version", "the major version of the linker"},
    {"minor_linker_version", "the minor version of the linker"},
    {NULL, NULL}};

static PyObject *row_optional_header(Image *self, Rows *rows, const pe_c_optional_header *it)
{
    if (!takes(rows, 0))
        return NULL;
    PyObject *items[] = {
        N(it->image_base),
        N(it->size_of_stack_reserve),
        N(it->size_of_stack_commit),
        N(it->size_of_heap_reserve),
        N(it->size_of_heap_commit),
        N(it->size_of_code),
        N(it->size_of_initialized_data),
        N(it->size_of_uninitialized_data),
        N(it->address_of_entry_point),
        N(it->base_of_code),
        N(it->base_of_data),
        N(it->section_alignment),
        N(it->file_alignment),
        N(it->win32_version_value),
        N(it->size_of_image),
        N(it->size_of_headers),
        N(it->check_sum),
        N(it->loader_flags),
        N(it->number_of_rva_and_sizes),
        N(it->number_of_directories),
        N(it->magic),
        N(it->major_operating_system_version),
        N(it->minor_operating_system_version),
        N(it->major_image_version),
        N(it->minor_image_version),
        N(it->major_subsystem_version),
        N(it->minor_subsystem_version),
        N(it->subsystem),
        N(it->dll_characteristics),
        N(it->major_linker_version),
        N(it->minor_linker_version),
    };
    return filled(self, ROW_OPTIONAL_HEADER, items, 31);
}

static PyStructSequence_Field row_headers_info_fields[] = {
    {"optional", "the optional header"},
    {"dos_stub", "between the DOS header and the PE signature; no bytes where these overlap"},
    {"optional_offset", "offset of the optional header"},
    {"directories_offset", "offset of the data directories, 8 bytes each"},
    {"dos", "the DOS header"},
    {"coff", "the COFF header"},
    {"signature", "0x4550, \"PE\""},
    {"directories", "by their indices; absent from number_of_directories on"},
    {NULL, NULL}};

static PyObject *row_headers_info(Image *self, Rows *rows, const pe_c_headers_info *it)
{
    if (!takes(rows, 0))
        return NULL;
    PyObject *items[] = {
        row_optional_header(self, rows, &it->optional),
        view_of(self, it->dos_stub),
        N(it->optional_offset),
        N(it->directories_offset),
        row_dos_header(self, rows, &it->dos),
        row_coff_header(self, rows, &it->coff),
        N(it->signature),
        directories_of(self, rows, it->directories, it->optional.number_of_directories),
    };
    return filled(self, ROW_HEADERS_INFO, items, 8);
}

static PyStructSequence_Field row_symbol_entry_fields[] = {
    {"name", NULL},
    {"auxiliary", "its auxiliary records, 18 bytes each, up to the end of the table"},
    {"at", "index of its entry in the table; auxiliary records count"},
    {"raw_name", "padded with zeros; or 4 zeros, and the offset of a longer name in the string table"},
    {"value", "by the storage class, for instance an offset in the section"},
    {"string_offset", "offset of the name in the string table, from its size field; 0 where `name` has it"},
    {"section_number", "from 1; 0 IMAGE_SYM_UNDEFINED, -1 _ABSOLUTE, -2 _DEBUG"},
    {"type", "IMAGE_SYM_TYPE_ and IMAGE_SYM_DTYPE_"},
    {"storage_class", "IMAGE_SYM_CLASS_"},
    {"number_of_aux_symbols", "auxiliary records that follow"},
    {NULL, NULL}};

static PyObject *row_symbol_entry(Image *self, Rows *rows, const pe_c_symbol_entry *it, pe_c_range name)
{
    if (!takes(rows, 0))
        return NULL;
    PyObject *items[] = {
        utf8(self, name),
        view_of(self, it->auxiliary),
        N(it->index),
        bytes_of(it->name, sizeof it->name),
        N(it->value),
        N(it->string_offset),
        PyLong_FromLong(it->section_number),
        N(it->type),
        N(it->storage_class),
        N(it->number_of_aux_symbols),
    };
    return filled(self, ROW_SYMBOL_ENTRY, items, 10);
}

static PyStructSequence_Field row_rich_header_info_fields[] = {
    {"entries", "8 bytes each, XORed with the key; a walk through them"},
    {"key", "what the header is XORed with"},
    {"checksum", "of the DOS header, the DOS stub and the entries: the linker takes it as the key"},
    {"key_is_checksum", "1 where they are equal, so that nobody changed what the checksum covers; else 0"},
    {NULL, NULL}};

static PyObject *row_rich_header_info(Image *self, Rows *rows, const pe_c_rich_header_info *it)
{
    if (!takes(rows, 0))
        return NULL;
    PyObject *items[] = {
        rich_entries(self, rows, it),
        N(it->key),
        N(it->checksum),
        B(it->key_is_checksum),
    };
    return filled(self, ROW_RICH_HEADER_INFO, items, 4);
}

static PyStructSequence_Field row_rich_entry_fields[] = {
    {"build", "the build of the tool"},
    {"product", "which tool it is"},
    {"objects", "how many objects it made"},
    {NULL, NULL}};

static PyObject *row_rich_entry(Image *self, Rows *rows, const pe_c_rich_entry *it)
{
    if (!takes(rows, 0))
        return NULL;
    PyObject *items[] = {
        N(it->build),
        N(it->product),
        N(it->count),
    };
    return filled(self, ROW_RICH_ENTRY, items, 3);
}

static PyStructSequence_Field row_debug_entry_fields[] = {
    {"characteristics", "reserved"},
    {"time_date_stamp", "seconds since 1970, or a hash in a reproducible build"},
    {"major_version", "of the record's format"},
    {"minor_version", "of the record's format"},
    {"data_type", "IMAGE_DEBUG_TYPE_CODEVIEW 2, _VC_FEATURE 12, _POGO 13, _REPRO 16, _EMBEDDEDPORTABLEPDB 17, _PDBCHECKSUM 19, _EX_DLLCHARACTERISTICS 20, or another"},
    {"size_of_data", "bytes of the record"},
    {"address_of_raw_data", "RVA of the record, or 0; in an image as loaded the library reads it there"},
    {"pointer_to_raw_data", "file offset of the record; in a file the library reads it there"},
    {NULL, NULL}};

static PyObject *row_debug_entry(Image *self, Rows *rows, const pe_c_debug_entry *it)
{
    if (!takes(rows, 0))
        return NULL;
    PyObject *items[] = {
        N(it->characteristics),
        N(it->time_date_stamp),
        N(it->major_version),
        N(it->minor_version),
        N(it->data_type),
        N(it->size_of_data),
        N(it->address_of_raw_data),
        N(it->pointer_to_raw_data),
    };
    return filled(self, ROW_DEBUG_ENTRY, items, 8);
}

static PyStructSequence_Field row_key_fields[] = {
    {"guid", "as in the file: little-endian u32, u16, u16, then 8 bytes"},
    {"age", "grows by one each time the PDB is written"},
    {"name", "the rest of the record: the PDB file's name, as a rule with a zero after it"},
    {"raw_name", "the rest of the record: the PDB file's name, as a rule with a zero after it"},
    {NULL, NULL}};

static PyObject *row_key(Image *self, Rows *rows, const pe_c_key *it)
{
    if (!takes(rows, it->name.length))
        return NULL;
    PyObject *items[] = {
        bytes_of(it->guid, sizeof it->guid),
        N(it->age),
        utf8_to_zero(self, it->name),
        raw(self, it->name),
    };
    return filled(self, ROW_KEY, items, 4);
}

static PyStructSequence_Field row_pdb20_fields[] = {
    {"name", "the rest of the record: the PDB file's name, as a rule with a zero after it"},
    {"offset", "0 where the symbols are in a file of their own"},
    {"signature", "time stamp of the PDB, seconds since 1970"},
    {"age", "grows by one each time the PDB is written"},
    {NULL, NULL}};

static PyObject *row_pdb20(Image *self, Rows *rows, const pe_c_pdb20 *it)
{
    if (!takes(rows, it->name.length))
        return NULL;
    PyObject *items[] = {
        utf8_to_zero(self, it->name),
        N(it->offset),
        N(it->signature),
        N(it->age),
    };
    return filled(self, ROW_PDB20, items, 4);
}

static PyStructSequence_Field row_vc_features_fields[] = {
    {"pre_vc_plusplus_count", "\"Pre-VC++ 11.00\""},
    {"c_and_cplusplus_count", "\"C/C++\""},
    {"guard_stack_count", "\"/GS\""},
    {"sdl_count", "\"/sdl\""},
    {"guard_count", "\"guardN\""},
    {NULL, NULL}};

static PyObject *row_vc_features(Image *self, Rows *rows, const pe_c_vc_features *it)
{
    if (!takes(rows, 0))
        return NULL;
    PyObject *items[] = {
        N(it->pre_vc_plusplus_count),
        N(it->c_and_cplusplus_count),
        N(it->guard_stack_count),
        N(it->sdl_count),
        N(it->guard_count),
    };
    return filled(self, ROW_VC_FEATURES, items, 5);
}

static PyStructSequence_Field row_repro_fields[] = {
    {"hash", "empty unless has_hash"},
    {NULL, NULL}};

static PyObject *row_repro(Image *self, Rows *rows, const pe_c_repro *it)
{
    if (!takes(rows, 0))
        return NULL;
    PyObject *items[] = {
        OPTIONAL(it->has_hash, view_of(self, it->hash)),
    };
    return filled(self, ROW_REPRO, items, 1);
}

static PyStructSequence_Field row_pogo_fields[] = {
    {"entries", "a walk for pe_c_next_pogo_entry, at its start"},
    {"signature", "0x4C544347 (LTCG) or 0x50475500 (PGU)"},
    {NULL, NULL}};

static PyObject *row_pogo(Image *self, Rows *rows, const pe_c_pogo *it)
{
    if (!takes(rows, 0))
        return NULL;
    PyObject *items[] = {
        pogo_entries(self, rows, it),
        N(it->signature),
    };
    return filled(self, ROW_POGO, items, 2);
}

static PyStructSequence_Field row_pogo_entry_fields[] = {
    {"name", "with its final zero"},
    {"rva", "RVA of the part"},
    {"size", "bytes of the part"},
    {NULL, NULL}};

static PyObject *row_pogo_entry(Image *self, Rows *rows, const pe_c_pogo_entry *it)
{
    if (!takes(rows, it->name.length))
        return NULL;
    PyObject *items[] = {
        utf8_to_zero(self, it->name),
        N(it->rva),
        N(it->size),
    };
    return filled(self, ROW_POGO_ENTRY, items, 3);
}

static PyStructSequence_Field row_embedded_pdb_fields[] = {
    {"compressed", "raw Deflate data"},
    {"uncompressed_size", "bytes of the PDB, as the record states it"},
    {NULL, NULL}};

static PyObject *row_embedded_pdb(Image *self, Rows *rows, const pe_c_embedded_pdb *it)
{
    if (!takes(rows, 0))
        return NULL;
    PyObject *items[] = {
        view_of(self, it->compressed),
        N(it->uncompressed_size),
    };
    return filled(self, ROW_EMBEDDED_PDB, items, 2);
}

static PyStructSequence_Field row_pdb_checksum_fields[] = {
    {"algorithm", "the name of the algorithm, as \"SHA256\", not NUL-terminated"},
    {"checksum", "the rest of the record"},
    {NULL, NULL}};

static PyObject *row_pdb_checksum(Image *self, Rows *rows, const pe_c_pdb_checksum *it)
{
    if (!takes(rows, it->algorithm.length + it->checksum.length))
        return NULL;
    PyObject *items[] = {
        utf8(self, it->algorithm),
        raw(self, it->checksum),
    };
    return filled(self, ROW_PDB_CHECKSUM, items, 2);
}

static PyStructSequence_Field row_te_image_fields[] = {
    {"image_base", "preferred virtual address of the image"},
    {"entry_point", "RVA of the entry point"},
    {"base_of_code", "RVA of the code"},
    {"reloc_dir", "the base relocations; the RVA is reduced where it is absent too"},
    {"debug_dir", "the debug directory; both fields are 0 where it is absent"},
    {"rva_offset", "how many bytes the file is shorter: stripped_size less 40"},
    {"signature", "0x5A56, \"VZ\""},
    {"machine", "IMAGE_FILE_MACHINE_"},
    {"stripped_size", "bytes of headers that were stripped"},
    {"number_of_sections", "the number of section headers"},
    {"subsystem", "IMAGE_SUBSYSTEM_"},
    {NULL, NULL}};

static PyObject *row_te_image(Image *self, Rows *rows, const pe_c_te_image *it)
{
    if (!takes(rows, 0))
        return NULL;
    PyObject *items[] = {
        N(it->image_base),
        N(it->entry_point),
        N(it->base_of_code),
        row_directory(self, rows, &it->reloc_dir),
        row_directory(self, rows, &it->debug_dir),
        N(it->rva_offset),
        N(it->signature),
        N(it->machine),
        N(it->stripped_size),
        N(it->number_of_sections),
        N(it->subsystem),
    };
    return filled(self, ROW_TE_IMAGE, items, 11);
}

static PyStructSequence_Field row_certificate_fields[] = {
    {"body", "what follows the header of 8 bytes"},
    {"length", "dwLength: bytes of header and body"},
    {"revision", "WIN_CERT_REVISION_1_0 0x100 or _2_0 0x200"},
    {"type", "WIN_CERT_TYPE_X509 1, _PKCS_SIGNED_DATA 2, _RESERVED_1 3, _TS_STACK_SIGNED 4"},
    {NULL, NULL}};

static PyObject *row_certificate(Image *self, Rows *rows, const pe_c_certificate *it)
{
    if (!takes(rows, 0))
        return NULL;
    PyObject *items[] = {
        view_of(self, it->body),
        N(it->length),
        N(it->revision),
        N(it->type),
    };
    return filled(self, ROW_CERTIFICATE, items, 4);
}

static PyStructSequence_Field row_oid_fields[] = {
    {"octets", "its content"},
    {"id", "PE_C_OID_, of the group that the field has"},
    {NULL, NULL}};

static PyObject *row_oid(Image *self, Rows *rows, const pe_c_oid *it)
{
    if (!takes(rows, it->octets.length))
        return NULL;
    PyObject *items[] = {
        raw(self, it->octets),
        N(it->id),
    };
    return filled(self, ROW_OID, items, 2);
}

static PyStructSequence_Field row_algorithm_fields[] = {
    {"oid", "of algorithms"},
    {"parameters", "whole"},
    {NULL, NULL}};

static PyObject *row_algorithm(Image *self, Rows *rows, const pe_c_algorithm *it)
{
    if (!takes(rows, it->parameters.length))
        return NULL;
    PyObject *items[] = {
        row_oid(self, rows, &it->oid),
        raw(self, it->parameters),
    };
    return filled(self, ROW_ALGORITHM, items, 2);
}

static PyStructSequence_Field row_der_element_fields[] = {
    {"whole", "all octets: tag, length and content"},
    {"content", "the content"},
    {"tag", "the identifier octet, such as 0x30 for a SEQUENCE, 4 for an OCTET STRING"},
    {NULL, NULL}};

static PyObject *row_der_element(Image *self, Rows *rows, const pe_c_der_element *it)
{
    if (!takes(rows, 0))
        return NULL;
    PyObject *items[] = {
        row_range(self, rows, &it->whole),
        row_range(self, rows, &it->content),
        N(it->tag),
    };
    return filled(self, ROW_DER_ELEMENT, items, 3);
}

static PyStructSequence_Field row_signed_data_fields[] = {
    {"content_type", "of what is signed, by content types"},
    {"version", "an INTEGER, which is 1 in Authenticode"},
    {"digest_algorithms", "a walk for pe_c_next_element, each for pe_c_algorithm_identifier"},
    {"content", "what is signed, whole: for pe_c_indirect_data, or in a time stamp for pe_c_time_stamp"},
    {"digested", "what messageDigest is the digest of: the content of `content`"},
    {"certificates", "a walk, each for pe_c_x509"},
    {"crls", "a walk over certificate revocation lists"},
    {"signers", "a walk, each for pe_c_signer"},
    {NULL, NULL}};

static PyObject *row_signed_data(Image *self, Rows *rows, const pe_c_signed_data *it)
{
    if (!takes(rows, 0))
        return NULL;
    PyObject *items[] = {
        row_oid(self, rows, &it->content_type),
        row_range(self, rows, &it->version),
        row_range(self, rows, &it->digest_algorithms),
        OPTIONAL(it->has_content, row_range(self, rows, &it->content)),
        row_range(self, rows, &it->digested),
        row_range(self, rows, &it->certificates),
        row_range(self, rows, &it->crls),
        row_range(self, rows, &it->signers),
    };
    return filled(self, ROW_SIGNED_DATA, items, 8);
}

static PyStructSequence_Field row_spc_indirect_data_fields[] = {
    {"value_type", "by content types; of an image PE_C_OID_SPC_PE_IMAGE_DATA"},
    {"value", "whole; of an image for pe_c_image_data"},
    {"digest_algorithm", "of the digest"},
    {"digest", "of what pe_c_digest_ranges says"},
    {NULL, NULL}};

static PyObject *row_spc_indirect_data(Image *self, Rows *rows, const pe_c_spc_indirect_data *it)
{
    if (!takes(rows, it->digest.length))
        return NULL;
    PyObject *items[] = {
        row_oid(self, rows, &it->value_type),
        row_range(self, rows, &it->value),
        row_algorithm(self, rows, &it->digest_algorithm),
        raw(self, it->digest),
    };
    return filled(self, ROW_SPC_INDIRECT_DATA, items, 4);
}

static PyStructSequence_Field row_spc_pe_image_data_fields[] = {
    {"flags", "a BIT STRING, not used"},
    {"file", "whole: [2] with the text <<<Obsolete>>>, or [1] with page hashes"},
    {NULL, NULL}};

static PyObject *row_spc_pe_image_data(Image *self, Rows *rows, const pe_c_spc_pe_image_data *it)
{
    if (!takes(rows, 0))
        return NULL;
    PyObject *items[] = {
        row_range(self, rows, &it->flags),
        row_range(self, rows, &it->file),
    };
    return filled(self, ROW_SPC_PE_IMAGE_DATA, items, 2);
}

static PyStructSequence_Field row_signer_info_fields[] = {
    {"version", "an INTEGER, which is 1 with an issuer and a serial number"},
    {"issuer", "whole, for pe_c_name"},
    {"serial", "serial number, an INTEGER: two's complement, the high byte first"},
    {"key_identifier", "of the certificate, where there is no issuer"},
    {"digest_algorithm", "of `messageDigest`, and of what is signed"},
    {"signed_attributes", "a walk for pe_c_next_element, each for pe_c_attribute"},
    {"signed_rest", "the octets of the signed attributes after their tag"},
    {"signature_algorithm", "of the signature"},
    {"signature", "the signature"},
    {"unsigned_attributes", "a walk, each for pe_c_attribute"},
    {"signed_first", "0x31, the tag of a SET, in place of their own tag; 0 without them"},
    {NULL, NULL}};

static PyObject *row_signer_info(Image *self, Rows *rows, const pe_c_signer_info *it)
{
    if (!takes(rows, it->serial.length + it->key_identifier.length + it->signature.length))
        return NULL;
    PyObject *items[] = {
        row_range(self, rows, &it->version),
        row_range(self, rows, &it->issuer),
        raw(self, it->serial),
        raw(self, it->key_identifier),
        row_algorithm(self, rows, &it->digest_algorithm),
        OPTIONAL(it->has_signed_attributes, row_range(self, rows, &it->signed_attributes)),
        row_range(self, rows, &it->signed_rest),
        row_algorithm(self, rows, &it->signature_algorithm),
        raw(self, it->signature),
        row_range(self, rows, &it->unsigned_attributes),
        N(it->signed_first),
    };
    return filled(self, ROW_SIGNER_INFO, items, 11);
}

static PyStructSequence_Field row_signer_attribute_fields[] = {
    {"type", "by attributes"},
    {"values", "a walk over its values"},
    {NULL, NULL}};

static PyObject *row_signer_attribute(Image *self, Rows *rows, const pe_c_signer_attribute *it)
{
    if (!takes(rows, 0))
        return NULL;
    PyObject *items[] = {
        row_oid(self, rows, &it->type),
        row_range(self, rows, &it->values),
    };
    return filled(self, ROW_SIGNER_ATTRIBUTE, items, 2);
}

static PyStructSequence_Field row_spc_opus_info_fields[] = {
    {"program_name", "the name of the program"},
    {"more_info", "where more is said"},
    {"program_name_tag", "0x80 for UTF-16, the high byte first; 0x81 for ASCII; 0 without a name"},
    {"more_info_tag", "0x80 for a URL in ASCII; 0xA1 for an object, 0xA2 for a file; 0 without one"},
    {NULL, NULL}};

static PyObject *row_spc_opus_info(Image *self, Rows *rows, const pe_c_spc_opus_info *it)
{
    if (!takes(rows, it->program_name.length + it->more_info.length))
        return NULL;
    PyObject *items[] = {
        raw(self, it->program_name),
        raw(self, it->more_info),
        N(it->program_name_tag),
        N(it->more_info_tag),
    };
    return filled(self, ROW_SPC_OPUS_INFO, items, 4);
}

static PyStructSequence_Field row_x509_certificate_fields[] = {
    {"to_be_signed", "whole"},
    {"serial", "serial number, an INTEGER: two's complement, the high byte first"},
    {"issuer", "whole, for pe_c_name"},
    {"subject", "whole, for pe_c_name"},
    {"not_before", "the first time when it is valid: whole, for pe_c_time"},
    {"not_after", "the last one: whole, for pe_c_time"},
    {"public_key", "whole: SubjectPublicKeyInfo"},
    {"extensions", "a walk for pe_c_next_element, each for pe_c_extension"},
    {"signature_algorithm", "of the signature"},
    {"signature", "the bits of the BIT STRING, without the octet before them"},
    {NULL, NULL}};

static PyObject *row_x509_certificate(Image *self, Rows *rows, const pe_c_x509_certificate *it)
{
    if (!takes(rows, it->serial.length + it->signature.length))
        return NULL;
    PyObject *items[] = {
        row_range(self, rows, &it->to_be_signed),
        raw(self, it->serial),
        row_range(self, rows, &it->issuer),
        row_range(self, rows, &it->subject),
        row_range(self, rows, &it->not_before),
        row_range(self, rows, &it->not_after),
        row_range(self, rows, &it->public_key),
        row_range(self, rows, &it->extensions),
        row_algorithm(self, rows, &it->signature_algorithm),
        raw(self, it->signature),
    };
    return filled(self, ROW_X509_CERTIFICATE, items, 10);
}

static PyStructSequence_Field row_x509_extension_fields[] = {
    {"type", "by extensions"},
    {"value", "the content of its OCTET STRING: an element"},
    {"critical", "1 where it is critical, else 0"},
    {NULL, NULL}};

static PyObject *row_x509_extension(Image *self, Rows *rows, const pe_c_x509_extension *it)
{
    if (!takes(rows, it->value.length))
        return NULL;
    PyObject *items[] = {
        row_oid(self, rows, &it->type),
        raw(self, it->value),
        N(it->critical),
    };
    return filled(self, ROW_X509_EXTENSION, items, 3);
}

static PyStructSequence_Field row_name_attribute_fields[] = {
    {"type", "by attributes of names"},
    {"value", "the content of the value"},
    {"tag", "of the value: PrintableString 0x13, UTF8String 0x0C, IA5String 0x16, BMPString 0x1E, .."},
    {"starts_rdn", "1 where it is the first of its relative distinguished name, else 0"},
    {NULL, NULL}};

static PyObject *row_name_attribute(Image *self, Rows *rows, const pe_c_name_attribute *it)
{
    if (!takes(rows, it->value.length))
        return NULL;
    PyObject *items[] = {
        row_oid(self, rows, &it->type),
        raw(self, it->value),
        N(it->tag),
        N(it->starts_rdn),
    };
    return filled(self, ROW_NAME_ATTRIBUTE, items, 4);
}

static PyStructSequence_Field row_utc_time_fields[] = {
    {"year", "0 to 9999"},
    {"month", "1 to 12"},
    {"day", "1 to 31; that a month has fewer days is not tested"},
    {"hour", "0 to 23"},
    {"minute", "0 to 59"},
    {"second", "0 to 59; a fraction is left out. A time stamp may have one; that a certificate and a signing time have none (RFC 5280, RFC 5652) is not tested"},
    {NULL, NULL}};

static PyObject *row_utc_time(Image *self, Rows *rows, const pe_c_utc_time *it)
{
    if (!takes(rows, 0))
        return NULL;
    PyObject *items[] = {
        N(it->year),
        N(it->month),
        N(it->day),
        N(it->hour),
        N(it->minute),
        N(it->second),
    };
    return filled(self, ROW_UTC_TIME, items, 6);
}

static PyStructSequence_Field row_tst_info_fields[] = {
    {"version", "an INTEGER, which is 1"},
    {"policy", "the policy, an object identifier"},
    {"digest_algorithm", "of the digest"},
    {"digest", "of the signature that is stamped, the field `signature` of its signer"},
    {"serial", "serial number of the token, an INTEGER"},
    {"time", "whole, for pe_c_time"},
    {"accuracy", "how exact the time is: whole"},
    {"nonce", "the number of who asked, an INTEGER"},
    {"authority", "who stamps, a GeneralName"},
    {NULL, NULL}};

static PyObject *row_tst_info(Image *self, Rows *rows, const pe_c_tst_info *it)
{
    if (!takes(rows, it->policy.length + it->digest.length + it->serial.length + it->nonce.length))
        return NULL;
    PyObject *items[] = {
        row_range(self, rows, &it->version),
        raw(self, it->policy),
        row_algorithm(self, rows, &it->digest_algorithm),
        raw(self, it->digest),
        raw(self, it->serial),
        row_range(self, rows, &it->time),
        row_range(self, rows, &it->accuracy),
        raw(self, it->nonce),
        row_range(self, rows, &it->authority),
    };
    return filled(self, ROW_TST_INFO, items, 9);
}

static PyStructSequence_Field row_checksum_field_fields[] = {
    {"offset", "file offset of the field that holds it, 4 bytes, little-endian"},
    {"value", "what the field has to hold; what it holds makes no difference"},
    {NULL, NULL}};

static PyObject *row_checksum_field(Image *self, Rows *rows, const pe_c_checksum_field *it)
{
    if (!takes(rows, 0))
        return NULL;
    PyObject *items[] = {
        N(it->offset),
        N(it->value),
    };
    return filled(self, ROW_CHECKSUM_FIELD, items, 2);
}

static PyStructSequence_Field row_function_fields[] = {
    {"begin", "RVA of its first byte"},
    {"end", "RVA after its last byte"},
    {"unwind", "RVA of its unwind record; an odd one is a link: the RVA of another entry, plus 1"},
    {NULL, NULL}};

static PyObject *row_function(Image *self, Rows *rows, const pe_c_function *it)
{
    if (!takes(rows, 0))
        return NULL;
    PyObject *items[] = {
        N(it->begin),
        N(it->end),
        N(it->unwind),
    };
    return filled(self, ROW_FUNCTION, items, 3);
}

static PyStructSequence_Field row_record_fields[] = {
    {"version", "a walk for pe_c_next_code, at its start"},
    {"frame_register", "a walk for pe_c_next_code, at its start"},
    {"codes", "a walk for pe_c_next_code, at its start"},
    {"handler", "RVA of the handler, or 0"},
    {"chained", "the function whose record continues this one; 0 unless is_chained"},
    {"is_chained", "1 or 0"},
    {"frame_register_offset", "bytes: subtract them from the frame register to get the base of saves"},
    {"size_of_prolog", "bytes"},
    {"handler_kind", "0 none, 1 exception handler (also with both flags), 2 termination handler"},
    {NULL, NULL}};

static PyObject *row_record(Image *self, Rows *rows, const pe_c_record *it)
{
    if (!takes(rows, 0))
        return NULL;
    PyObject *items[] = {
        N(it->codes.version),
        N(it->codes.frame_register),
        unwind_codes(self, rows, it),
        N(it->handler),
        OPTIONAL(it->is_chained, row_function(self, rows, &it->chained)),
        B(it->is_chained),
        N(it->frame_register_offset),
        N(it->size_of_prolog),
        N(it->handler_kind),
    };
    return filled(self, ROW_RECORD, items, 9);
}

static PyStructSequence_Field row_code_fields[] = {
    {"code_offset", "bytes from the start of the prolog to the end of the instruction; undo the code at this offset and after it"},
    {"operation", "PE_C_PUSH .. PE_C_NOOP"},
    {"operand", "a register: 0 to 15 rax, rcx, rdx, rbx, rsp, rbp, rsi, rdi, r8 .. r15; 17 to 32 xmm0 .. xmm15; or as the operation says; else 0"},
    {"from_frame", "1: once PE_C_SET_FRAME has run, `value` counts from the frame register minus frame_register_offset. Before that, and if this is 0, it counts from rsp"},
    {"value", "bytes, or as the operation says; else 0"},
    {NULL, NULL}};

static PyObject *row_code(Image *self, Rows *rows, const pe_c_code *it)
{
    if (!takes(rows, 0))
        return NULL;
    PyObject *items[] = {
        N(it->code_offset),
        N(it->operation),
        N(it->operand),
        B(it->from_frame),
        N(it->value),
    };
    return filled(self, ROW_CODE, items, 5);
}

static PyStructSequence_Field row_registers_fields[] = {
    {"general", "by their numbers: rax, rcx, rdx, rbx, rsp, rbp, rsi, rdi, r8 .. r15; rsp is general[4]"},
    {"xmm", "of xmm0 .. xmm15 the low half and then the high half, as CONTEXT has them"},
    {"rip", "the instruction pointer"},
    {NULL, NULL}};

static PyObject *row_registers(Image *self, Rows *rows, const pe_c_registers *it)
{
    if (!takes(rows, 0))
        return NULL;
    PyObject *items[] = {
        numbers(it->general, 16),
        numbers(it->xmm, 32),
        N(it->rip),
    };
    return filled(self, ROW_REGISTERS, items, 3);
}

static PyStructSequence_Field row_stack_walk_fields[] = {
    {"registers", "inside the function of the frame"},
    {"address", "of a walk that is over, as `address` of a frame; else 0"},
    {"way", "PE_C_WAY_*"},
    {"has_called", "1 where the function of the frame has called: rip is the return address. 0 where rip is the instruction that is about to run. It is 0 by PE_C_WAY_RECORDS too where no call precedes rip, as where a return address was overwritten"},
    {"end", "PE_C_END_* of a walk that is over"},
    {"error", "a result, for PE_C_END_RECORDS, _LONG_CHAIN and _STEP; else 0"},
    {"is_guess", "1 where the frame may be wrong: nothing proves that it is the caller, or it follows a frame of which this holds"},
    {"function", "what names its function: a PDB, else the COFF symbols and the exports of the module's image; None where nothing does"},
    {"file", "the path of the source file, as a PDB has it; None where none says it"},
    {"line", "the line in it, from 1 on"},
    {"column", "the column, from 1 on; mostly None"},
    {"inlined", "the functions that are inlined there, the innermost first, by a PDB"},
    {NULL, NULL}};

static PyObject *row_stack_walk(Image *self, Rows *rows, const pe_c_stack_walk *it)
{
    if (!takes(rows, 0))
        return NULL;
    PyObject *items[] = {
        row_registers(self, rows, &it->registers),
        N(it->address),
        N(it->way),
        B(it->has_called),
        N(it->end),
        N(it->error),
        B(it->is_guess),
        Py_NewRef(Py_None),
        Py_NewRef(Py_None),
        Py_NewRef(Py_None),
        Py_NewRef(Py_None),
        PyTuple_New(0),
    };
    return filled(self, ROW_STACK_WALK, items, 12);
}

static PyStructSequence_Field row_arm64_function_fields[] = {
    {"begin", "RVA of its first byte"},
    {"unwind", "packed unwind data, or the RVA of its unwind record: its two lowest bits say which"},
    {NULL, NULL}};

static PyObject *row_arm64_function(Image *self, Rows *rows, const pe_c_arm64_function *it)
{
    if (!takes(rows, 0))
        return NULL;
    PyObject *items[] = {
        N(it->begin),
        N(it->unwind),
    };
    return filled(self, ROW_ARM64_FUNCTION, items, 2);
}

static PyStructSequence_Field row_arm64_packed_fields[] = {
    {"flag", "0: `unwind` is the RVA of a record; 1 a function; 2 a fragment; 3 reserved"},
    {"function_length", "bytes"},
    {"frame_size", "bytes of stack that the function allocates"},
    {"reg_f", "RegF: 0, or the number of saved registers from d8 on, less 1"},
    {"reg_i", "RegI: the number of saved registers from x19 on"},
    {"h", "H: 1 where x0 .. x7 are stored at the start of the function"},
    {"cr", "CR: 0 x29 and lr are not saved, 1 lr is, 2 and 3 both are, with 2 signed"},
    {"is_packed", "1 unless `flag` is 0"},
    {NULL, NULL}};

static PyObject *row_arm64_packed(Image *self, Rows *rows, const pe_c_arm64_packed *it)
{
    if (!takes(rows, 0))
        return NULL;
    PyObject *items[] = {
        N(it->flag),
        N(it->function_length),
        N(it->frame_size),
        N(it->reg_f),
        N(it->reg_i),
        N(it->h),
        N(it->cr),
        B(it->is_packed),
    };
    return filled(self, ROW_ARM64_PACKED, items, 8);
}

static PyStructSequence_Field row_arm64_record_fields[] = {
    {"scopes", "a walk for pe_c_next_arm64_scope, at its start"},
    {"codes", "the code bytes, for pe_c_arm64_codes"},
    {"handler", "RVA of the handler, or 0"},
    {"function_length", "bytes"},
    {"epilog_in_header", "1 where the one epilog has no scope: its codes start at epilog_start"},
    {"epilog_start", "index of that epilog's first code byte; else 0"},
    {"version", "0"},
    {NULL, NULL}};

static PyObject *row_arm64_record(Image *self, Rows *rows, const pe_c_arm64_record *it)
{
    if (!takes(rows, 0))
        return NULL;
    PyObject *items[] = {
        arm64_scopes(self, rows, it),
        arm64_codes(self, rows, it),
        OPTIONAL(it->has_handler, N(it->handler)),
        N(it->function_length),
        B(it->epilog_in_header),
        N(it->epilog_start),
        N(it->version),
    };
    return filled(self, ROW_ARM64_RECORD, items, 7);
}

static PyStructSequence_Field row_arm64_scope_fields[] = {
    {"start_offset", "bytes, from the start of the function to that of the epilog"},
    {"start_index", "index of the epilog's first code byte, for pe_c_arm64_codes"},
    {"reserved", "bits 18 to 21"},
    {"word", "the whole entry"},
    {NULL, NULL}};

static PyObject *row_arm64_scope(Image *self, Rows *rows, const pe_c_arm64_scope *it)
{
    if (!takes(rows, 0))
        return NULL;
    PyObject *items[] = {
        N(it->start_offset),
        N(it->start_index),
        N(it->reserved),
        N(it->word),
    };
    return filled(self, ROW_ARM64_SCOPE, items, 4);
}

static PyStructSequence_Field row_arm64_code_fields[] = {
    {"offset", "bytes, from the start of the record's codes to this one"},
    {"length", "bytes of the code, 1 to 5"},
    {"kind", "PE_C_ARM64_ALLOC_SMALL .. PE_C_ARM64_RESERVED"},
    {"operand", "a register, or as the kind says; else 0"},
    {"value", "bytes, or as the kind says; else 0"},
    {"flags", "of PE_C_ARM64_SAVE_ANY_REG; else 0"},
    {NULL, NULL}};

static PyObject *row_arm64_code(Image *self, Rows *rows, const pe_c_arm64_code *it)
{
    if (!takes(rows, 0))
        return NULL;
    PyObject *items[] = {
        N(it->offset),
        N(it->length),
        N(it->kind),
        N(it->operand),
        N(it->value),
        N(it->flags),
    };
    return filled(self, ROW_ARM64_CODE, items, 6);
}

static PyStructSequence_Field row_arm64_registers_fields[] = {
    {"general", "x0 .. x30: the frame pointer is general[29], the link register general[30]"},
    {"floats", "d8 .. d15, the low halves of v8 .. v15"},
    {"sp", "the stack pointer"},
    {"pc", "the instruction pointer"},
    {NULL, NULL}};

static PyObject *row_arm64_registers(Image *self, Rows *rows, const pe_c_arm64_registers *it)
{
    if (!takes(rows, 0))
        return NULL;
    PyObject *items[] = {
        numbers(it->general, 31),
        numbers(it->floats, 8),
        N(it->sp),
        N(it->pc),
    };
    return filled(self, ROW_ARM64_REGISTERS, items, 4);
}

static PyStructSequence_Field row_arm64_stack_walk_fields[] = {
    {"registers", "inside the function of the frame"},
    {"address", "of a walk that is over, as `address` of a frame; else 0"},
    {"way", "PE_C_WAY_*"},
    {"has_called", "1 where the function of the frame has called: pc is the return address. 0 where pc is the instruction that is about to run"},
    {"end", "PE_C_END_* of a walk that is over"},
    {"error", "a result, for PE_C_END_RECORDS and _STEP; else 0"},
    {"is_guess", "as in pe_c_stack_walk"},
    {"function", "what names its function: a PDB, else the COFF symbols and the exports of the module's image; None where nothing does"},
    {"file", "the path of the source file, as a PDB has it; None where none says it"},
    {"line", "the line in it, from 1 on"},
    {"column", "the column, from 1 on; mostly None"},
    {"inlined", "the functions that are inlined there, the innermost first, by a PDB"},
    {NULL, NULL}};

static PyObject *row_arm64_stack_walk(Image *self, Rows *rows, const pe_c_arm64_stack_walk *it)
{
    if (!takes(rows, 0))
        return NULL;
    PyObject *items[] = {
        row_arm64_registers(self, rows, &it->registers),
        N(it->address),
        N(it->way),
        B(it->has_called),
        N(it->end),
        N(it->error),
        B(it->is_guess),
        Py_NewRef(Py_None),
        Py_NewRef(Py_None),
        Py_NewRef(Py_None),
        Py_NewRef(Py_None),
        PyTuple_New(0),
    };
    return filled(self, ROW_ARM64_STACK_WALK, items, 12);
}

static PyStructSequence_Field row_address_table_fields[] = {
    {"name", "of the DLL: UTF-8, without its final zero; empty unless has_name"},
    {"number_of_functions", "RVAs of what is exported, 4 bytes each"},
    {"directory", "the export directory: an RVA inside it is that of a forwarder's text"},
    {"ordinal_base", "ordinal of the export with the index 0"},
    {NULL, NULL}};

static PyObject *row_address_table(Image *self, Rows *rows, const pe_c_address_table *it)
{
    if (!takes(rows, it->name.length))
        return NULL;
    PyObject *items[] = {
        OPTIONAL(it->has_name, utf8(self, it->name)),
        N(it->addresses.length / 4),
        row_directory(self, rows, &it->directory),
        N(it->ordinal_base),
    };
    return filled(self, ROW_ADDRESS_TABLE, items, 4);
}

static PyStructSequence_Field row_exported_fields[] = {
    {"name", NULL},
    {"offset", NULL},
    {"name_offset", NULL},
    {"forwarder", "the forwarder's text, \"DLL.NAME\" or \"DLL.#ORDINAL\": UTF-8, without its final zero; empty unless is_forwarder, and where no text is there"},
    {"ordinal", "its index plus ordinal_base"},
    {"rva", "RVA of what is exported, or of the forwarder's text; 0 for an unused ordinal"},
    {NULL, NULL}};

static PyObject *row_exported(Image *self, Rows *rows, const pe_c_exported *it, const pe_c_export *named)
{
    if (!takes(rows, it->forwarder.length))
        return NULL;
    PyObject *items[] = {
        OPTIONAL(named, utf8(self, named->name)),
        OPTIONAL(named && named->has_offset, N(named->offset)),
        OPTIONAL(named, N(named->name.offset)),
        OPTIONAL(it->is_forwarder, utf8(self, it->forwarder)),
        N(it->ordinal),
        N(it->rva),
    };
    return filled(self, ROW_EXPORTED, items, 6);
}

static PyStructSequence_Field row_export_fields_fields[] = {
    {"characteristics", "reserved"},
    {"time_date_stamp", "seconds since the start of 1970, or a hash"},
    {"major_version", "of the directory"},
    {"minor_version", "of the directory"},
    {"name", "RVA of the DLL's name, or 0"},
    {"base", "ordinal of the export with the index 0"},
    {"number_of_functions", "entries of the table of RVAs"},
    {"number_of_names", "entries of the table of names, and of that of indices"},
    {"address_of_functions", "RVA of the table of RVAs"},
    {"address_of_names", "RVA of the table of names"},
    {"address_of_name_ordinals", "RVA of the table of indices"},
    {NULL, NULL}};

static PyObject *row_export_fields(Image *self, Rows *rows, const pe_c_export_fields *it)
{
    if (!takes(rows, 0))
        return NULL;
    PyObject *items[] = {
        N(it->characteristics),
        N(it->time_date_stamp),
        N(it->major_version),
        N(it->minor_version),
        N(it->name),
        N(it->base),
        N(it->number_of_functions),
        N(it->number_of_names),
        N(it->address_of_functions),
        N(it->address_of_names),
        N(it->address_of_name_ordinals),
    };
    return filled(self, ROW_EXPORT_FIELDS, items, 11);
}

static PyStructSequence_Field row_name_sources_fields[] = {
    {"room", "how many numbers pe_c_function_names needs room for"},
    {"functions_result", "errors are those of pe_c_function_table and pe_c_arm64_table"},
    {"symbols_result", "those of pe_c_headers and pe_c_coff_symbols"},
    {"strings_result", "those of pe_c_headers and pe_c_coff_strings"},
    {"exports_result", "those of pe_c_export_tables"},
    {NULL, NULL}};

static PyObject *row_name_sources(Image *self, Rows *rows, const pe_c_name_sources *it)
{
    if (!takes(rows, 0))
        return NULL;
    PyObject *items[] = {
        N(it->room),
        N(it->functions_result),
        N(it->symbols_result),
        N(it->strings_result),
        N(it->exports_result),
    };
    return filled(self, ROW_NAME_SOURCES, items, 5);
}

static PyStructSequence_Field row_function_name_fields[] = {
    {"name", "as the image has it: names of C++ and Rust are mangled. None where it is not text, or is longer than 4,095 bytes"},
    {"start", "RVA that has the name"},
    {"offset", "how far after it the address is"},
    {"source", "what names it: symbol, a COFF symbol; export; by a PDB procedure, or public, which has no size"},
    {"is_nearest", "1 where it is only the last name before the address, in an image without a function table; it may be that of another function. Else 0"},
    {NULL, NULL}};

static PyObject *row_function_name(Image *self, Rows *rows, const pe_c_function_name *it)
{
    if (!takes(rows, it->name.length))
        return NULL;
    PyObject *items[] = {
        OPTIONAL(it->name.length, utf8(self, it->name)),
        N(it->start),
        N(it->offset),
        PyUnicode_FromString(it->source == 2 ? "export" : "symbol"),
        B(it->is_nearest),
    };
    return filled(self, ROW_FUNCTION_NAME, items, 5);
}

static PyStructSequence_Field row_library_fields[] = {
    {"name", "of the DLL: UTF-8, without its final zero"},
    {"imports", "where a walk over its imports starts; imports.left is {0, 0} where the RVA of the list is unmapped, and nowhere else: the signature of the DOS header is at the offset 0"},
    {"lookup_table_rva", "RVA of the list; where it is 0, the list is the address table"},
    {"time_date_stamp", "0, or not 0 where the imports are bound"},
    {"forwarder_chain", "index of the first forwarder, or -1"},
    {"name_rva", "RVA of the DLL's name"},
    {"address_table_rva", "RVA of the slots that the loader fills"},
    {"has_unmapped_list", "whether the lookup table's RVA is unmapped: the imports are then what the address table names"},
    {NULL, NULL}};

static PyObject *row_library(Image *self, Rows *rows, const pe_c_library *it)
{
    if (!takes(rows, it->name.length))
        return NULL;
    PyObject *items[] = {
        utf8(self, it->name),
        imports_of(self, rows, it),
        N(it->lookup_table_rva),
        N(it->time_date_stamp),
        N(it->forwarder_chain),
        N(it->name_rva),
        N(it->address_table_rva),
        B(has_unmapped_list(it)),
    };
    return filled(self, ROW_LIBRARY, items, 8);
}

static PyStructSequence_Field row_import_fields[] = {
    {"name", "UTF-8, without its final zero; empty unless has_name"},
    {"name_offset", "UTF-8, without its final zero; empty unless has_name"},
    {"rva", "RVA of the slot that the loader fills"},
    {"ordinal", "the ordinal; with a name its hint, an index into the DLL's table of names"},
    {NULL, NULL}};

static PyObject *row_import(Image *self, Rows *rows, const pe_c_import *it)
{
    if (!takes(rows, it->name.length))
        return NULL;
    PyObject *items[] = {
        OPTIONAL(it->has_name, utf8(self, it->name)),
        OPTIONAL(it->has_name, N(it->name.offset)),
        N(it->rva),
        N(it->ordinal),
    };
    return filled(self, ROW_IMPORT, items, 4);
}

static PyStructSequence_Field row_delay_descriptor_fields[] = {
    {"attributes", "flags, of which bit 0 is defined"},
    {"name", "where the DLL's name is"},
    {"module_handle", "where the DLL's handle is written when it is loaded"},
    {"import_address_table", "where the functions' addresses are written"},
    {"import_name_table", "where the table of what is imported is"},
    {"bound_import_address_table", "where the addresses are if the DLL has the time stamp; 0 for none"},
    {"unload_information_table", "where a copy of the address table is, to unload the DLL; 0 for none"},
    {"time_date_stamp", "of the DLL to which the image is bound; 0 where it is not bound"},
    {NULL, NULL}};

static PyObject *row_delay_descriptor(Image *self, Rows *rows, const pe_c_delay_descriptor *it)
{
    if (!takes(rows, 0))
        return NULL;
    PyObject *items[] = {
        N(it->attributes),
        N(it->name),
        N(it->module_handle),
        N(it->import_address_table),
        N(it->import_name_table),
        N(it->bound_import_address_table),
        N(it->unload_information_table),
        N(it->time_date_stamp),
    };
    return filled(self, ROW_DELAY_DESCRIPTOR, items, 8);
}

static PyStructSequence_Field row_delay_import_fields[] = {
    {"name", "of the DLL: UTF-8, without its final zero"},
    {"imports", "where a walk over its functions starts"},
    {"descriptor", "the entry"},
    {NULL, NULL}};

static PyObject *row_delay_import(Image *self, Rows *rows, const pe_c_delay_import *it)
{
    if (!takes(rows, it->name.length))
        return NULL;
    PyObject *items[] = {
        utf8(self, it->name),
        delayed_functions(self, rows, it),
        row_delay_descriptor(self, rows, &it->descriptor),
    };
    return filled(self, ROW_DELAY_IMPORT, items, 3);
}

static PyStructSequence_Field row_delayed_function_fields[] = {
    {"name", "UTF-8, without its final zero; empty unless has_name"},
    {"ordinal", "the ordinal; with a name its hint, an index into the DLL's table of names"},
    {NULL, NULL}};

static PyObject *row_delayed_function(Image *self, Rows *rows, const pe_c_delayed_function *it)
{
    if (!takes(rows, it->name.length))
        return NULL;
    PyObject *items[] = {
        OPTIONAL(it->has_name, utf8(self, it->name)),
        N(it->ordinal),
    };
    return filled(self, ROW_DELAYED_FUNCTION, items, 2);
}

static PyStructSequence_Field row_bound_import_fields[] = {
    {"name", "UTF-8, not NUL-terminated"},
    {"forwarders", "8 bytes each; a walk through the DLLs that this one forwards to"},
    {"time_date_stamp", "of the DLL"},
    {NULL, NULL}};

static PyObject *row_bound_import(Image *self, Rows *rows, const pe_c_bound_import *it)
{
    if (!takes(rows, it->name.length))
        return NULL;
    PyObject *items[] = {
        utf8(self, it->name),
        bound_forwarders(self, rows, it),
        N(it->time_date_stamp),
    };
    return filled(self, ROW_BOUND_IMPORT, items, 3);
}

static PyStructSequence_Field row_bound_forwarder_fields[] = {
    {"name", "UTF-8, not NUL-terminated"},
    {"time_date_stamp", "of the DLL"},
    {NULL, NULL}};

static PyObject *row_bound_forwarder(Image *self, Rows *rows, const pe_c_bound_forwarder *it)
{
    if (!takes(rows, it->name.length))
        return NULL;
    PyObject *items[] = {
        utf8(self, it->name),
        N(it->time_date_stamp),
    };
    return filled(self, ROW_BOUND_FORWARDER, items, 2);
}

static PyStructSequence_Field row_version_fields[] = {
    {"signature", "0xFEEF04BD"},
    {"struct_version", "of this record: major in the high 16 bits, minor in the low"},
    {"file_version_ms", "1.2.3.4 is 0x00010002 and 0x00030004"},
    {"file_version_ls", "1.2.3.4 is 0x00010002 and 0x00030004"},
    {"product_version_ms", "likewise"},
    {"product_version_ls", "likewise"},
    {"file_flags_mask", "which bits of file_flags are valid"},
    {"file_flags", "VS_FF_ flags"},
    {"file_os", "VOS_"},
    {"file_type", "VFT_: 1 application, 2 DLL, 3 driver"},
    {"file_subtype", "VFT2_"},
    {"file_date_ms", "a FILETIME, mostly 0"},
    {"file_date_ls", "a FILETIME, mostly 0"},
    {NULL, NULL}};

static PyObject *row_version(Image *self, Rows *rows, const pe_c_version *it)
{
    if (!takes(rows, 0))
        return NULL;
    PyObject *items[] = {
        N(it->signature),
        N(it->struct_version),
        N(it->file_version_ms),
        N(it->file_version_ls),
        N(it->product_version_ms),
        N(it->product_version_ls),
        N(it->file_flags_mask),
        N(it->file_flags),
        N(it->file_os),
        N(it->file_type),
        N(it->file_subtype),
        N(it->file_date_ms),
        N(it->file_date_ls),
    };
    return filled(self, ROW_VERSION, items, 13);
}

static PyStructSequence_Field row_version_block_fields[] = {
    {"key", "UTF-16 code units, little-endian, without the zero that ends them"},
    {"value", "a text in UTF-16, which ends at the first zero, or binary data"},
    {"key_offset", "a text in UTF-16, which ends at the first zero, or binary data"},
    {"value_offset", "a text in UTF-16, which ends at the first zero, or binary data"},
    {"children", "a walk over the blocks that it contains"},
    {"language", "the language identifier that the first four digits are; else 0"},
    {"code_page", "the code page that the last four digits are; else 0"},
    {NULL, NULL}};

static PyObject *row_version_block(Image *self, Rows *rows, const pe_c_version_block *it)
{
    if (!takes(rows, it->value.length + it->key.length))
        return NULL;
    PyObject *items[] = {
        utf16(self, it->key),
        it->value_type ? utf16_to_zero(self, it->value) : raw(self, it->value),
        N(it->key.offset),
        N(it->value.offset),
        version_children(self, rows, it),
        OPTIONAL(it->has_language, N(it->language)),
        OPTIONAL(it->has_language, N(it->code_page)),
    };
    return filled(self, ROW_VERSION_BLOCK, items, 7);
}

static PyStructSequence_Field row_resource_leaf_fields[] = {
    {"type", "an id is RT_ of winuser.h"},
    {"name", "the resource among those of its type"},
    {"language", "an id is a language identifier; 0 for any language"},
    {"content", "the empty range where content_result is not PE_C_DONE"},
    {"offset", "the empty range where content_result is not PE_C_DONE"},
    {"content_result", "PE_C_DONE, or why the content is not in the file: PE_C_UNMAPPED, PE_C_RESOURCE_BOUNDS"},
    {"rva", "RVA of the content"},
    {"size", "bytes of the content"},
    {"code_page", "of texts in the content, mostly 0"},
    {NULL, NULL}};

static PyObject *row_resource_leaf(Image *self, Rows *rows, const pe_c_resource_leaf *it)
{
    if (!takes(rows, 0))
        return NULL;
    PyObject *items[] = {
        resource_name(self, it->resource_type),
        resource_name(self, it->name),
        resource_name(self, it->language),
        OPTIONAL(it->content_result == PE_C_DONE, view_of(self, it->content)),
        OPTIONAL(it->content_result == PE_C_DONE, N(it->content.offset)),
        N(it->content_result),
        N(it->rva),
        N(it->size),
        N(it->code_page),
    };
    return filled(self, ROW_RESOURCE_LEAF, items, 9);
}

static PyStructSequence_Field row_resource_directory_fields[] = {
    {"characteristics", "reserved"},
    {"time_date_stamp", "seconds since the start of 1970, mostly 0"},
    {"major_version", "of the resources"},
    {"minor_version", "of the resources"},
    {"number_of_named_entries", "which come first"},
    {"number_of_id_entries", "which follow them"},
    {NULL, NULL}};

static PyObject *row_resource_directory(Image *self, Rows *rows, const pe_c_resource_directory *it)
{
    if (!takes(rows, 0))
        return NULL;
    PyObject *items[] = {
        N(it->characteristics),
        N(it->time_date_stamp),
        N(it->major_version),
        N(it->minor_version),
        N(it->number_of_named_entries),
        N(it->number_of_id_entries),
    };
    return filled(self, ROW_RESOURCE_DIRECTORY, items, 6);
}

static PyStructSequence_Field row_tls_directory_fields[] = {
    {"callbacks", NULL},
    {"start_address_of_raw_data", "where the data starts of which each thread gets a copy"},
    {"end_address_of_raw_data", "where this data ends"},
    {"address_of_index", "where the loader writes the number of the slot that leads to a copy"},
    {"address_of_callbacks", "where the table of callbacks is; 0 where there are none"},
    {"size_of_zero_fill", "how many zeros follow the data in a copy, in bytes"},
    {"characteristics", "bits 20 to 23: the alignment, 1 to 14 for 1 to 8192 bytes"},
    {NULL, NULL}};

static PyObject *row_tls_directory(Image *self, Rows *rows, const pe_c_tls_directory *it)
{
    if (!takes(rows, 0))
        return NULL;
    PyObject *items[] = {
        tls_callbacks(self, rows, it),
        N(it->start_address_of_raw_data),
        N(it->end_address_of_raw_data),
        N(it->address_of_index),
        N(it->address_of_callbacks),
        N(it->size_of_zero_fill),
        N(it->characteristics),
    };
    return filled(self, ROW_TLS_DIRECTORY, items, 7);
}

static PyStructSequence_Field row_load_config_directory_fields[] = {
    {"security_cookie", "where the security cookie is"},
    {"se_handler_table", "x86: where the table of exception handlers is, their RVAs, sorted, 4 bytes each"},
    {"se_handler_count", "how many entries it has"},
    {"guard_cf_check_function_pointer", "where the pointer is to what checks the target of an indirect call"},
    {"guard_cf_dispatch_function_pointer", "where the pointer is to what checks the target and calls it"},
    {"guard_cf_function_table", "where the table is of the functions that may be called indirectly, sorted: an RVA each, 4 bytes, then guard_flags >> 28 bytes more"},
    {"guard_cf_function_count", "how many entries it has"},
    {"size", "bytes of the structure, as it says itself"},
    {"time_date_stamp", "seconds since 1970"},
    {"guard_flags", "IMAGE_GUARD_ flags"},
    {"major_version", "major part of a version"},
    {"minor_version", "minor part of a version"},
    {"dependent_load_flags", "where DLLs that the image imports are looked for, flags of LoadLibraryEx"},
    {NULL, NULL}};

static PyObject *row_load_config_directory(Image *self, Rows *rows, const pe_c_load_config_directory *it)
{
    if (!takes(rows, 0))
        return NULL;
    PyObject *items[] = {
        OPTIONAL(it->has_security_cookie, N(it->security_cookie)),
        OPTIONAL(it->has_se_handler_table, N(it->se_handler_table)),
        OPTIONAL(it->has_se_handler_count, N(it->se_handler_count)),
        OPTIONAL(it->has_guard_cf_check_function_pointer, N(it->guard_cf_check_function_pointer)),
        OPTIONAL(it->has_guard_cf_dispatch_function_pointer, N(it->guard_cf_dispatch_function_pointer)),
        OPTIONAL(it->has_guard_cf_function_table, N(it->guard_cf_function_table)),
        OPTIONAL(it->has_guard_cf_function_count, N(it->guard_cf_function_count)),
        N(it->size),
        OPTIONAL(it->has_time_date_stamp, N(it->time_date_stamp)),
        OPTIONAL(it->has_guard_flags, N(it->guard_flags)),
        OPTIONAL(it->has_major_version, N(it->major_version)),
        OPTIONAL(it->has_minor_version, N(it->minor_version)),
        OPTIONAL(it->has_dependent_load_flags, N(it->dependent_load_flags)),
    };
    return filled(self, ROW_LOAD_CONFIG_DIRECTORY, items, 13);
}

static PyStructSequence_Field row_guard_entry_fields[] = {
    {"rva", "an RVA"},
    {"flags", "their first byte, IMAGE_GUARD_FLAG_ flags; 0 where there is none"},
    {NULL, NULL}};

static PyObject *row_guard_entry(Image *self, Rows *rows, const pe_c_guard_entry *it)
{
    if (!takes(rows, 0))
        return NULL;
    PyObject *items[] = {
        N(it->rva),
        N(it->flags),
    };
    return filled(self, ROW_GUARD_ENTRY, items, 2);
}

static PyStructSequence_Field row_relocation_block_fields[] = {
    {"entries", "2 bytes each; a walk through the relocations of the block"},
    {"size_of_block", "2 bytes each; a walk through the relocations of the block"},
    {"page_rva", "RVA of the page that they count from"},
    {NULL, NULL}};

static PyObject *row_relocation_block(Image *self, Rows *rows, const pe_c_relocation_block *it)
{
    if (!takes(rows, 0))
        return NULL;
    PyObject *items[] = {
        relocations_of(self, rows, it),
        N(it->entries.length + 8),
        N(it->page_rva),
    };
    return filled(self, ROW_RELOCATION_BLOCK, items, 3);
}

static PyStructSequence_Field row_relocation_fields[] = {
    {"rva", "RVA of what to change; in a hostile block it may pass 32 bits"},
    {"kind", "IMAGE_REL_BASED_ of winnt.h, below 16"},
    {"argument", "low 16 bits of the number that IMAGE_REL_BASED_HIGHADJ (4) changes; else 0"},
    {NULL, NULL}};

static PyObject *row_relocation(Image *self, Rows *rows, const pe_c_relocation *it)
{
    if (!takes(rows, 0))
        return NULL;
    PyObject *items[] = {
        N(it->rva),
        N(it->kind),
        N(it->argument),
    };
    return filled(self, ROW_RELOCATION, items, 3);
}

static PyStructSequence_Field row_cor20_header_fields[] = {
    {"cb", "bytes of the header, as it says itself: 72 or more"},
    {"major_runtime_version", "the version of the runtime that is needed"},
    {"minor_runtime_version", "the version of the runtime that is needed, minor part"},
    {"metadata", "the metadata"},
    {"flags", "COMIMAGE_FLAGS_"},
    {"entry_point_token", "a metadata token; an RVA with COMIMAGE_FLAGS_NATIVE_ENTRYPOINT (0x10)"},
    {"resources", "managed resources"},
    {"strong_name_signature", "the strong name signature"},
    {"code_manager_table", "0"},
    {"vtable_fixups", "fixups of tables of virtual functions"},
    {"export_address_table_jumps", "0"},
    {"managed_native_header", "of code that was compiled ahead of time (ReadyToRun), else 0"},
    {NULL, NULL}};

static PyObject *row_cor20_header(Image *self, Rows *rows, const pe_c_cor20_header *it)
{
    if (!takes(rows, 0))
        return NULL;
    PyObject *items[] = {
        N(it->cb),
        N(it->major_runtime_version),
        N(it->minor_runtime_version),
        row_directory(self, rows, &it->metadata),
        N(it->flags),
        N(it->entry_point_token),
        row_directory(self, rows, &it->resources),
        row_directory(self, rows, &it->strong_name_signature),
        row_directory(self, rows, &it->code_manager_table),
        row_directory(self, rows, &it->vtable_fixups),
        row_directory(self, rows, &it->export_address_table_jumps),
        row_directory(self, rows, &it->managed_native_header),
    };
    return filled(self, ROW_COR20_HEADER, items, 12);
}

static PyStructSequence_Field row_metadata_fields[] = {
    {"version", "such as \"v4.0.30319\", up to the first zero, and the zeros after it; UTF-8 is not tested"},
    {"streams", "a walk for pe_c_next_metadata_stream, at its start"},
    {"major_version", "of the format of metadata"},
    {"minor_version", "of the format of metadata"},
    {"flags", "reserved"},
    {NULL, NULL}};

static PyObject *row_metadata(Image *self, Rows *rows, const pe_c_metadata *it)
{
    if (!takes(rows, it->version.length))
        return NULL;
    PyObject *items[] = {
        utf8_to_zero(self, it->version),
        metadata_streams(self, rows, it),
        N(it->major_version),
        N(it->minor_version),
        N(it->flags),
    };
    return filled(self, ROW_METADATA, items, 5);
}

static PyStructSequence_Field row_metadata_stream_fields[] = {
    {"name", "without its final zero; at most 31 bytes"},
    {"content", "the stream's bytes; empty unless has_content"},
    {"offset", "of the stream, from the start of the metadata"},
    {"size", "of the stream in bytes"},
    {NULL, NULL}};

static PyObject *row_metadata_stream(Image *self, Rows *rows, const pe_c_metadata_stream *it)
{
    if (!takes(rows, it->name.length))
        return NULL;
    PyObject *items[] = {
        utf8(self, it->name),
        OPTIONAL(it->has_content, view_of(self, it->content)),
        N(it->offset),
        N(it->size),
    };
    return filled(self, ROW_METADATA_STREAM, items, 4);
}

static PyStructSequence_Field row_dump_info_fields[] = {
    {"directory", "entries of 12 bytes"},
    {"flags", "what the writer was asked for, MINIDUMP_TYPE"},
    {"version", "A793h in the low 16 bits; the others are the writer's own"},
    {"number_of_streams", "the number of entries of the directory"},
    {"check_sum", "mostly 0"},
    {"time_date_stamp", "when the dump was written, in seconds since 1970"},
    {NULL, NULL}};

static PyObject *row_dump_info(Image *self, Rows *rows, const pe_c_dump_info *it)
{
    if (!takes(rows, 0))
        return NULL;
    PyObject *items[] = {
        row_range(self, rows, &it->directory),
        N(it->flags),
        N(it->version),
        N(it->number_of_streams),
        N(it->check_sum),
        N(it->time_date_stamp),
    };
    return filled(self, ROW_DUMP_INFO, items, 6);
}

static PyStructSequence_Field row_dump_location_fields[] = {
    {"size", "in bytes"},
    {"rva", "offset in the dump"},
    {NULL, NULL}};

static PyObject *row_dump_location(Image *self, Rows *rows, const pe_c_dump_location *it)
{
    if (!takes(rows, 0))
        return NULL;
    PyObject *items[] = {
        N(it->size),
        N(it->rva),
    };
    return filled(self, ROW_DUMP_LOCATION, items, 2);
}

static PyStructSequence_Field row_dump_entry_fields[] = {
    {"stream_type", "PE_C_*_STREAM; 0 is none"},
    {"location", "where the stream is"},
    {NULL, NULL}};

static PyObject *row_dump_entry(Image *self, Rows *rows, const pe_c_dump_entry *it)
{
    if (!takes(rows, 0))
        return NULL;
    PyObject *items[] = {
        N(it->stream_type),
        row_dump_location(self, rows, &it->location),
    };
    return filled(self, ROW_DUMP_ENTRY, items, 2);
}

static PyStructSequence_Field row_dump_stack_fields[] = {
    {"start_of_memory_range", "address of the first byte"},
    {"memory", "where its bytes are: nowhere at offset 0, which full dumps say, where the header is"},
    {NULL, NULL}};

static PyObject *row_dump_stack(Image *self, Rows *rows, const pe_c_dump_stack *it)
{
    if (!takes(rows, 0))
        return NULL;
    PyObject *items[] = {
        N(it->start_of_memory_range),
        row_dump_location(self, rows, &it->memory),
    };
    return filled(self, ROW_DUMP_STACK, items, 2);
}

static PyStructSequence_Field row_dump_thread_fields[] = {
    {"thread_id", "the ID of the thread"},
    {"suspend_count", "0 if it runs"},
    {"priority_class", "the priority class of the process"},
    {"priority", "the priority of the thread"},
    {"teb", "address of its environment block"},
    {"stack", "the memory of its stack"},
    {"thread_context", "no bytes where it has none"},
    {NULL, NULL}};

static PyObject *row_dump_thread(Image *self, Rows *rows, const pe_c_dump_thread *it)
{
    if (!takes(rows, 0))
        return NULL;
    PyObject *items[] = {
        N(it->thread_id),
        N(it->suspend_count),
        N(it->priority_class),
        N(it->priority),
        N(it->teb),
        row_dump_stack(self, rows, &it->stack),
        row_dump_location(self, rows, &it->thread_context),
    };
    return filled(self, ROW_DUMP_THREAD, items, 7);
}

static PyStructSequence_Field row_dump_version_fields[] = {
    {"signature", "FEEF04BDh"},
    {"struc_version", "the version of this structure"},
    {"file_version_ms", "major part in the upper 16 bits, minor part in the lower"},
    {"file_version_ls", "build and revision"},
    {"product_version_ms", "of the product: major and minor part"},
    {"product_version_ls", "build and revision"},
    {"file_flags_mask", "which bits of the flags are valid"},
    {"file_flags", "`VS_FF_*`"},
    {"file_os", "`VOS_*`"},
    {"file_type", "`VFT_*`"},
    {"file_subtype", "`VFT2_*`"},
    {"file_date_ms", "the date of the file, upper half"},
    {"file_date_ls", "lower half"},
    {NULL, NULL}};

static PyObject *row_dump_version(Image *self, Rows *rows, const pe_c_dump_version *it)
{
    if (!takes(rows, 0))
        return NULL;
    PyObject *items[] = {
        N(it->signature),
        N(it->struc_version),
        N(it->file_version_ms),
        N(it->file_version_ls),
        N(it->product_version_ms),
        N(it->product_version_ls),
        N(it->file_flags_mask),
        N(it->file_flags),
        N(it->file_os),
        N(it->file_type),
        N(it->file_subtype),
        N(it->file_date_ms),
        N(it->file_date_ls),
    };
    return filled(self, ROW_DUMP_VERSION, items, 13);
}

static PyStructSequence_Field row_dump_module_fields[] = {
    {"base_of_image", "address where it is loaded"},
    {"size_of_image", "SizeOfImage of its image"},
    {"check_sum", "CheckSum of its image"},
    {"time_date_stamp", "TimeDateStamp of its image"},
    {"module_name", "its path, for pe_c_dump_text"},
    {"module_name_rva", "its path, for pe_c_dump_text"},
    {"version_info", "its version"},
    {"cv_record", "its CodeView record, which pe_c_codeview reads as a range. No bytes where there is none"},
    {"misc_record", "its IMAGE_DEBUG_MISC"},
    {NULL, NULL}};

static PyObject *row_dump_module(Image *self, Rows *rows, const pe_c_dump_module *it)
{
    if (!takes(rows, 0))
        return NULL;
    PyObject *items[] = {
        N(it->base_of_image),
        N(it->size_of_image),
        N(it->check_sum),
        N(it->time_date_stamp),
        dump_text(self, rows, it->module_name_rva),
        N(it->module_name_rva),
        row_dump_version(self, rows, &it->version_info),
        row_dump_location(self, rows, &it->cv_record),
        row_dump_location(self, rows, &it->misc_record),
    };
    return filled(self, ROW_DUMP_MODULE, items, 9);
}

static PyStructSequence_Field row_dump_thread_name_fields[] = {
    {"name", "for pe_c_dump_text"},
    {"rva_of_thread_name", "for pe_c_dump_text"},
    {"thread_id", "the ID of the thread"},
    {NULL, NULL}};

static PyObject *row_dump_thread_name(Image *self, Rows *rows, const pe_c_dump_thread_name *it)
{
    if (!takes(rows, 0))
        return NULL;
    PyObject *items[] = {
        dump_text(self, rows, it->rva_of_thread_name),
        N(it->rva_of_thread_name),
        N(it->thread_id),
    };
    return filled(self, ROW_DUMP_THREAD_NAME, items, 3);
}

static PyStructSequence_Field row_dump_unloaded_fields[] = {
    {"base_of_image", "address where it was loaded"},
    {"size_of_image", "in bytes"},
    {"check_sum", "`CheckSum` of its image"},
    {"time_date_stamp", "`TimeDateStamp` of its image"},
    {"module_name", "for pe_c_dump_text"},
    {"module_name_rva", "for pe_c_dump_text"},
    {NULL, NULL}};

static PyObject *row_dump_unloaded(Image *self, Rows *rows, const pe_c_dump_unloaded *it)
{
    if (!takes(rows, 0))
        return NULL;
    PyObject *items[] = {
        N(it->base_of_image),
        N(it->size_of_image),
        N(it->check_sum),
        N(it->time_date_stamp),
        dump_text(self, rows, it->module_name_rva),
        N(it->module_name_rva),
    };
    return filled(self, ROW_DUMP_UNLOADED, items, 6);
}

static PyStructSequence_Field row_dump_thread_info_fields[] = {
    {"thread_id", "the ID of the thread"},
    {"dump_flags", "MINIDUMP_THREAD_INFO_*: 2 is the thread that wrote the dump"},
    {"dump_error", "an HRESULT of the writer"},
    {"exit_status", "259 while it runs"},
    {"create_time", "in 100 ns since 1601"},
    {"exit_time", "when it ended, likewise"},
    {"kernel_time", "in 100 ns"},
    {"user_time", "likewise"},
    {"start_address", "of its function"},
    {"affinity", "the processors on which it may run"},
    {NULL, NULL}};

static PyObject *row_dump_thread_info(Image *self, Rows *rows, const pe_c_dump_thread_info *it)
{
    if (!takes(rows, 0))
        return NULL;
    PyObject *items[] = {
        N(it->thread_id),
        N(it->dump_flags),
        N(it->dump_error),
        N(it->exit_status),
        N(it->create_time),
        N(it->exit_time),
        N(it->kernel_time),
        N(it->user_time),
        N(it->start_address),
        N(it->affinity),
    };
    return filled(self, ROW_DUMP_THREAD_INFO, items, 10);
}

static PyStructSequence_Field row_dump_handle_fields[] = {
    {"handle", "the value of the handle"},
    {"type_name", "for pe_c_dump_text; 0 if there is none"},
    {"type_name_rva", "for pe_c_dump_text; 0 if there is none"},
    {"object_name", "likewise"},
    {"object_name_rva", "likewise"},
    {"attributes", "its attributes"},
    {"granted_access", "what its holder may do"},
    {"handle_count", "how many handles its object has"},
    {"pointer_count", "how many references its object has"},
    {NULL, NULL}};

static PyObject *row_dump_handle(Image *self, Rows *rows, const pe_c_dump_handle *it)
{
    if (!takes(rows, 0))
        return NULL;
    PyObject *items[] = {
        N(it->handle),
        dump_text(self, rows, it->type_name_rva),
        N(it->type_name_rva),
        dump_text(self, rows, it->object_name_rva),
        N(it->object_name_rva),
        N(it->attributes),
        N(it->granted_access),
        N(it->handle_count),
        N(it->pointer_count),
    };
    return filled(self, ROW_DUMP_HANDLE, items, 9);
}

static PyStructSequence_Field row_dump_region_fields[] = {
    {"base_address", "address of the first byte"},
    {"allocation_base", "address of the allocation that it is part of"},
    {"region_size", "in bytes"},
    {"allocation_protect", "PAGE_*"},
    {"state", "MEM_COMMIT, MEM_RESERVE or MEM_FREE"},
    {"protect", "PAGE_*"},
    {"memory_type", "MEM_IMAGE, MEM_MAPPED or MEM_PRIVATE"},
    {NULL, NULL}};

static PyObject *row_dump_region(Image *self, Rows *rows, const pe_c_dump_region *it)
{
    if (!takes(rows, 0))
        return NULL;
    PyObject *items[] = {
        N(it->base_address),
        N(it->allocation_base),
        N(it->region_size),
        N(it->allocation_protect),
        N(it->state),
        N(it->protect),
        N(it->memory_type),
    };
    return filled(self, ROW_DUMP_REGION, items, 7);
}

static PyStructSequence_Field row_dump_raised_fields[] = {
    {"thread_id", "the ID of the thread"},
    {"exception_code", "the code, as C0000005h"},
    {"exception_flags", "1 if the thread cannot go on, or 0"},
    {"number_parameters", "as the file says, so it may be above 15"},
    {"exception_record", "address, in the process, of another exception that it belongs to, or 0"},
    {"exception_address", "of the instruction"},
    {"exception_information", "parameters: of an access violation 0 for a read, 1 for a write, 8 for execution, and the address"},
    {"thread_context", "of the thread as it crashed"},
    {NULL, NULL}};

static PyObject *row_dump_raised(Image *self, Rows *rows, const pe_c_dump_raised *it)
{
    if (!takes(rows, 0))
        return NULL;
    PyObject *items[] = {
        N(it->thread_id),
        N(it->exception_code),
        N(it->exception_flags),
        N(it->number_parameters),
        N(it->exception_record),
        N(it->exception_address),
        numbers(it->exception_information, 15),
        row_dump_location(self, rows, &it->thread_context),
    };
    return filled(self, ROW_DUMP_RAISED, items, 8);
}

static PyStructSequence_Field row_dump_system_info_fields[] = {
    {"processor_architecture", "9 x64, 12 ARM64, 0 x86: of which machine the contexts are"},
    {"processor_level", "the family of the processor"},
    {"processor_revision", "its model and stepping"},
    {"number_of_processors", "the number of processors"},
    {"product_type", "VER_NT_*"},
    {"major_version", "the version of the system, major part"},
    {"minor_version", "minor part"},
    {"build_number", "the build of the system"},
    {"platform_id", "VER_PLATFORM_*"},
    {"csd_version", "the name of the service pack, for pe_c_dump_text"},
    {"csd_version_rva", "the name of the service pack, for pe_c_dump_text"},
    {"suite_mask", "VER_SUITE_*"},
    {NULL, NULL}};

static PyObject *row_dump_system_info(Image *self, Rows *rows, const pe_c_dump_system_info *it)
{
    if (!takes(rows, 0))
        return NULL;
    PyObject *items[] = {
        N(it->processor_architecture),
        N(it->processor_level),
        N(it->processor_revision),
        N(it->number_of_processors),
        N(it->product_type),
        N(it->major_version),
        N(it->minor_version),
        N(it->build_number),
        N(it->platform_id),
        dump_text(self, rows, it->csd_version_rva),
        N(it->csd_version_rva),
        N(it->suite_mask),
    };
    return filled(self, ROW_DUMP_SYSTEM_INFO, items, 12);
}

static PyStructSequence_Field row_dump_times_fields[] = {
    {"process_create_time", "in seconds since 1970"},
    {"process_user_time", "in seconds"},
    {"process_kernel_time", "in seconds, in the kernel"},
    {NULL, NULL}};

static PyObject *row_dump_times(Image *self, Rows *rows, const pe_c_dump_times *it)
{
    if (!takes(rows, 0))
        return NULL;
    PyObject *items[] = {
        N(it->process_create_time),
        N(it->process_user_time),
        N(it->process_kernel_time),
    };
    return filled(self, ROW_DUMP_TIMES, items, 3);
}

static PyStructSequence_Field row_dump_power_fields[] = {
    {"processor_max_mhz", "the most that it may have, in MHz"},
    {"processor_current_mhz", "what it had, in MHz"},
    {"processor_mhz_limit", "the limit that was set, in MHz"},
    {"processor_max_idle_state", "the deepest idle state that it may have"},
    {"processor_current_idle_state", "the idle state that it had"},
    {NULL, NULL}};

static PyObject *row_dump_power(Image *self, Rows *rows, const pe_c_dump_power *it)
{
    if (!takes(rows, 0))
        return NULL;
    PyObject *items[] = {
        N(it->processor_max_mhz),
        N(it->processor_current_mhz),
        N(it->processor_mhz_limit),
        N(it->processor_max_idle_state),
        N(it->processor_current_idle_state),
    };
    return filled(self, ROW_DUMP_POWER, items, 5);
}

static PyStructSequence_Field row_dump_process_info_fields[] = {
    {"size_of_info", "as the writer says it"},
    {"flags1", "MINIDUMP_MISC1_*"},
    {"process_id", "with bit 0 of the flags"},
    {"process_times", "with bit 1"},
    {"processor_power", "the speed of the processor"},
    {NULL, NULL}};

static PyObject *row_dump_process_info(Image *self, Rows *rows, const pe_c_dump_process_info *it)
{
    if (!takes(rows, 0))
        return NULL;
    PyObject *items[] = {
        N(it->size_of_info),
        N(it->flags1),
        N(it->process_id),
        row_dump_times(self, rows, &it->process_times),
        OPTIONAL(it->has_processor_power, row_dump_power(self, rows, &it->processor_power)),
    };
    return filled(self, ROW_DUMP_PROCESS_INFO, items, 5);
}

static PyStructSequence_Field row_dump_piece_fields[] = {
    {"start", "where its bytes are"},
    {"offset", "where its bytes are"},
    {"length", "where its bytes are"},
    {"lost", "how many more bytes the dump says it has, which a truncated file does not have"},
    {NULL, NULL}};

static PyObject *row_dump_piece(Image *self, Rows *rows, const pe_c_dump_piece *it)
{
    if (!takes(rows, 0))
        return NULL;
    PyObject *items[] = {
        N(it->memory.start),
        N(it->memory.offset),
        N(it->memory.length),
        N(it->lost),
    };
    return filled(self, ROW_DUMP_PIECE, items, 4);
}

static PyStructSequence_Field row_context_fields[] = {
    {"registers", "`xmm` is 0 where it was not saved"},
    {"context_flags", "CONTEXT_*: bit 3 says that xmm was saved"},
    {"eflags", "the flags of the processor"},
    {NULL, NULL}};

static PyObject *row_context(Image *self, Rows *rows, const pe_c_context *it)
{
    if (!takes(rows, 0))
        return NULL;
    PyObject *items[] = {
        row_registers(self, rows, &it->registers),
        N(it->context_flags),
        N(it->eflags),
    };
    return filled(self, ROW_CONTEXT, items, 3);
}

static PyStructSequence_Field row_arm64_context_fields[] = {
    {"registers", "d8 to d15 are 0 where they were not saved"},
    {"context_flags", "CONTEXT_ARM64_*: bit 2 says that they were"},
    {"cpsr", "the flags of the processor"},
    {NULL, NULL}};

static PyObject *row_arm64_context(Image *self, Rows *rows, const pe_c_arm64_context *it)
{
    if (!takes(rows, 0))
        return NULL;
    PyObject *items[] = {
        row_arm64_registers(self, rows, &it->registers),
        N(it->context_flags),
        N(it->cpsr),
    };
    return filled(self, ROW_ARM64_CONTEXT, items, 3);
}

static PyStructSequence_Field row_pdb_info_fields[] = {
    {"guid", "the GUID, as pe_c_key has it"},
    {"modules", "a walk over the modules, at its start, in the DBI stream, stream 3"},
    {"version", "the version of the info stream, 20000404 in what linkers write"},
    {"time_stamp", "when the PDB was made, in seconds since 1970, or a number of the linker's"},
    {"age", "how often the PDB was written; it may be greater than that of the image"},
    {"dbi_age", "the age that pe_c_key of the image has"},
    {"block_size", "the size of a block in bytes"},
    {"number_of_blocks", "how many blocks the file has"},
    {"number_of_streams", "how many streams it has"},
    {"dbi_result", "PE_C_DONE, or why the DBI stream is refused: then what is read of it is 0, and streams are none"},
    {"machine", "IMAGE_FILE_MACHINE_ of the image"},
    {"flags", "bit 0: linked incrementally; bit 1: private symbols are stripped; bit 2: has types that contradict one another"},
    {"build", "the version of the linker: bit 15 is set, then 7 bits and 8 bits, major and minor"},
    {"symbol_stream", "the stream of symbols: those that are public, and global ones"},
    {"section_headers", "the stream with the section headers of the image"},
    {"original_section_headers", "those before a tool moved the code of the image, by which symbols count then"},
    {"omap_to_source", "where an RVA was before that, for pe_c_pdb_moved_rva"},
    {"omap_from_source", "where an RVA of that is now"},
    {NULL, NULL}};

static PyObject *row_pdb_info(Image *self, Rows *rows, const pe_c_pdb_info *it)
{
    if (!takes(rows, 0))
        return NULL;
    PyObject *items[] = {
        bytes_of(it->guid, sizeof it->guid),
        row_range(self, rows, &it->modules),
        N(it->version),
        N(it->time_stamp),
        N(it->age),
        N(it->dbi_age),
        N(it->block_size),
        N(it->number_of_blocks),
        N(it->number_of_streams),
        N(it->dbi_result),
        N(it->machine),
        N(it->flags),
        N(it->build),
        N(it->symbol_stream),
        N(it->section_headers),
        N(it->original_section_headers),
        N(it->omap_to_source),
        N(it->omap_from_source),
    };
    return filled(self, ROW_PDB_INFO, items, 18);
}

static PyStructSequence_Field row_pdb_module_fields[] = {
    {"name", "in the DBI stream, without its final zero: the path of the object, or \"* Linker *\""},
    {"file", "the path of the library that it is from, or of the object"},
    {"symbols", "a walk over its symbols, at its start, in its stream; no bytes without any"},
    {"lines", "its lines in its stream"},
    {"code_offset", "where its first code is in the section"},
    {"code_size", "how many bytes that is"},
    {"section", "the number of that section, from 1 on"},
    {"flags", "bit 0: written since the last link; bit 1: edit and continue"},
    {"stream", "its stream; None without debug information"},
    {"number_of_files", "how many source files it has"},
    {NULL, NULL}};

static PyObject *row_pdb_module(Image *self, Rows *rows, const pe_c_pdb_module *it)
{
    if (!takes(rows, it->name.length + it->file.length))
        return NULL;
    PyObject *items[] = {
        utf8(self, it->name),
        utf8(self, it->file),
        row_range(self, rows, &it->symbols),
        row_range(self, rows, &it->lines),
        N(it->code_offset),
        N(it->code_size),
        N(it->section),
        N(it->flags),
        OPTIONAL(it->stream != 0xFFFF, N(it->stream)),
        N(it->number_of_files),
    };
    return filled(self, ROW_PDB_MODULE, items, 10);
}

static PyStructSequence_Field row_pdb_symbol_fields[] = {
    {"name", "UTF-8, without its final zero; of a public symbol as linkers have it, mangled; of a procedure as in the source; no bytes of other records"},
    {"rva", "the RVA; None in no section of the image, as of numbers that have names"},
    {"size", "the size of a procedure's code in bytes; else 0"},
    {"section_offset", "the offset in its section"},
    {"flags", "of a public symbol bit 0: code; bit 1: a function; bit 2: managed code; bit 3: MSIL; of a procedure CV_PROCFLAGS"},
    {"section", "the number of its section, from 1 on"},
    {"kind", "S_PUB32 0x110E; of procedures S_LPROC32 0x110F, S_GPROC32 0x1110, 0x1146, 0x1147; or another"},
    {"error", "the number of the error of this record alone, or 0: then it has nothing but its kind"},
    {"is_function", "whether it is a function: any procedure, and a public symbol that says so"},
    {NULL, NULL}};

static PyObject *row_pdb_symbol(Image *self, Rows *rows, const pe_c_pdb_symbol *it)
{
    if (!takes(rows, it->name.length))
        return NULL;
    PyObject *items[] = {
        utf8(self, it->name),
        OPTIONAL(it->result == PE_C_DONE, N(it->rva)),
        N(it->size),
        N(it->section_offset),
        N(it->flags),
        N(it->section),
        N(it->kind),
        N(it->result == PE_C_NOTHING ? PE_C_DONE : it->result),
        B(it->kind != 0x110E || it->flags & 2),
    };
    return filled(self, ROW_PDB_SYMBOL, items, 9);
}

static PyStructSequence_Field row_pdb_line_fields[] = {
    {"rva", "where its code starts"},
    {"code_size", "how many bytes of code there are from there to the end of the subsection; the line's own may end before, at the next row"},
    {"file", "the path of the source file; None where its name is refused"},
    {"line", "the line, from 1 on; None of code that has none"},
    {"column", "the column, from 1 on; mostly None"},
    {NULL, NULL}};

static PyObject *row_pdb_line(Image *self, Rows *rows, const pe_c_pdb_line *it, PyObject *file)
{
    if (!takes(rows, 0))
        return NULL;
    PyObject *items[] = {
        N(it->rva),
        N(it->code_size),
        Py_NewRef(file),
        OPTIONAL(it->line && it->line != 0xF00F00 && it->line != 0xFEEFEE, N(it->line)),
        OPTIONAL(it->column, N(it->column)),
    };
    return filled(self, ROW_PDB_LINE, items, 5);
}

static const PyStructSequence_Desc row_kinds[] = {
    [ROW_RANGE] = {"pe_c._core.Range", "A range of the bytes of the image.", row_range_fields, 2},
    [ROW_DIRECTORY] = {"pe_c._core.Directory", "A data directory. Both fields are 0 where it is absent.", row_directory_fields, 2},
    [ROW_IMAGE_INFO] = {"pe_c._core.Headers", "The headers of an image. Without an optional header the numbers that it has are 0, and its directories are absent.", row_image_info_fields, 20},
    [ROW_SECTION] = {"pe_c._core.Section", "A section header, IMAGE_SECTION_HEADER.", row_section_fields, 11},
    [ROW_DOS_HEADER] = {"pe_c._core.DosHeader", "IMAGE_DOS_HEADER, in its layout. Windows reads the first field and the last alone.", row_dos_header_fields, 19},
    [ROW_COFF_HEADER] = {"pe_c._core.CoffHeader", "IMAGE_FILE_HEADER.", row_coff_header_fields, 7},
    [ROW_OPTIONAL_HEADER] = {"pe_c._core.OptionalHeader", "IMAGE_OPTIONAL_HEADER32 or IMAGE_OPTIONAL_HEADER64.", row_optional_header_fields, 31},
    [ROW_HEADERS_INFO] = {"pe_c._core.AllHeaders", "All numbers of the headers of an image. Without an optional header its numbers and both offsets are 0, and all directories are absent.", row_headers_info_fields, 8},
    [ROW_SYMBOL_ENTRY] = {"pe_c._core.Symbol", "A COFF symbol, IMAGE_SYMBOL, with what its entry says of others.", row_symbol_entry_fields, 10},
    [ROW_RICH_HEADER_INFO] = {"pe_c._core.RichHeader", "The Rich header.", row_rich_header_info_fields, 4},
    [ROW_RICH_ENTRY] = {"pe_c._core.RichEntry", "An entry of a Rich header.", row_rich_entry_fields, 3},
    [ROW_DEBUG_ENTRY] = {"pe_c._core.DebugEntry", "An entry of the debug directory, IMAGE_DEBUG_DIRECTORY.", row_debug_entry_fields, 8},
    [ROW_KEY] = {"pe_c._core.SymbolKey", "A CodeView record of PDB 7.0 (\"RSDS\"): a symbol server files the PDB under its name, GUID and age.", row_key_fields, 4},
    [ROW_PDB20] = {"pe_c._core.Pdb20", "A CodeView record of PDB 2.0 (\"NB10\").", row_pdb20_fields, 4},
    [ROW_VC_FEATURES] = {"pe_c._core.VcFeatures", "VC features: the counts that dumpbin /headers shows.", row_vc_features_fields, 5},
    [ROW_REPRO] = {"pe_c._core.Repro", "Repro: the same sources build the same image.", row_repro_fields, 1},
    [ROW_POGO] = {"pe_c._core.Pogo", "POGO: the parts of the image's sections, such as \".text$mn\".", row_pogo_fields, 2},
    [ROW_POGO_ENTRY] = {"pe_c._core.PogoEntry", "An entry of a POGO record.", row_pogo_entry_fields, 3},
    [ROW_EMBEDDED_PDB] = {"pe_c._core.EmbeddedPdb", "A portable PDB in the image itself, of .NET.", row_embedded_pdb_fields, 2},
    [ROW_PDB_CHECKSUM] = {"pe_c._core.PdbChecksum", "A checksum of the PDB file, of .NET: of its bytes with zeros in place of the PDB's id.", row_pdb_checksum_fields, 2},
    [ROW_TE_IMAGE] = {"pe_c._core.TeHeader", "The header of a TE image, EFI_TE_IMAGE_HEADER. Its RVAs are reduced by rva_offset.", row_te_image_fields, 11},
    [ROW_CERTIFICATE] = {"pe_c._core.Certificate", "An attribute certificate, WIN_CERTIFICATE.", row_certificate_fields, 4},
    [ROW_OID] = {"pe_c._core.ObjectIdentifier", "An object identifier.", row_oid_fields, 2},
    [ROW_ALGORITHM] = {"pe_c._core.Algorithm", "An algorithm, AlgorithmIdentifier.", row_algorithm_fields, 2},
    [ROW_DER_ELEMENT] = {"pe_c._core.DerElement", "An element of DER.", row_der_element_fields, 3},
    [ROW_SIGNED_DATA] = {"pe_c._core.SignedData", "A signature: ContentInfo, SignedData, EncapsulatedContentInfo.", row_signed_data_fields, 8},
    [ROW_SPC_INDIRECT_DATA] = {"pe_c._core.SpcIndirectData", "What Authenticode signs, SpcIndirectDataContent.", row_spc_indirect_data_fields, 4},
    [ROW_SPC_PE_IMAGE_DATA] = {"pe_c._core.SpcPeImageData", "What a signature says of an image as a file, SpcPeImageData.", row_spc_pe_image_data_fields, 2},
    [ROW_SIGNER_INFO] = {"pe_c._core.SignerInfo", "A signer, SignerInfo. Its certificate is the one with this issuer and serial number. Its signature is over the octet signed_first and the bytes of signed_rest; without signed attributes over what is signed, the field `digested`.", row_signer_info_fields, 11},
    [ROW_SIGNER_ATTRIBUTE] = {"pe_c._core.SignerAttribute", "An attribute of a signer. Its values are a walk for pe_c_next_element, mostly of one: PE_C_OID_MESSAGE_DIGEST an OCTET STRING, whose content is the digest PE_C_OID_SIGNING_TIME for pe_c_time PE_C_OID_SPC_SP_OPUS_INFO for pe_c_opus_info PE_C_OID_COUNTER_SIGNATURE for pe_c_signer: its messageDigest is the digest of the signature of this signer PE_C_OID_TIME_STAMP_TOKEN for pe_c_signature, whose content is for pe_c_time_stamp PE_C_OID_NESTED_SIGNATURE each for pe_c_signature", row_signer_attribute_fields, 2},
    [ROW_SPC_OPUS_INFO] = {"pe_c._core.SpcOpusInfo", "What a signer says of the program, SpcSpOpusInfo.", row_spc_opus_info_fields, 4},
    [ROW_X509_CERTIFICATE] = {"pe_c._core.X509Row", "A certificate of X.509, of those in a signature. The issuer's signature is over the bytes of to_be_signed.", row_x509_certificate_fields, 10},
    [ROW_X509_EXTENSION] = {"pe_c._core.X509Extension", "An extension of a certificate.", row_x509_extension_fields, 3},
    [ROW_NAME_ATTRIBUTE] = {"pe_c._core.NameAttribute", "An attribute of a name.", row_name_attribute_fields, 4},
    [ROW_UTC_TIME] = {"pe_c._core.UtcTime", "A time in UTC.", row_utc_time_fields, 6},
    [ROW_TST_INFO] = {"pe_c._core.TstInfo", "What a time-stamp token says, TSTInfo.", row_tst_info_fields, 9},
    [ROW_CHECKSUM_FIELD] = {"pe_c._core.Checksum", "The checksum that an image should have. Windows tests it for drivers and boot files.", row_checksum_field_fields, 2},
    [ROW_FUNCTION] = {"pe_c._core.Function", "An entry of the x64 function table, RUNTIME_FUNCTION.", row_function_fields, 3},
    [ROW_RECORD] = {"pe_c._core.UnwindRecord", "An x64 unwind record, UNWIND_INFO.", row_record_fields, 9},
    [ROW_CODE] = {"pe_c._core.UnwindCode", "An x64 unwind code, UNWIND_CODE.", row_code_fields, 5},
    [ROW_REGISTERS] = {"pe_c._core.Registers", "The registers of a thread that unwinding restores.", row_registers_fields, 3},
    [ROW_STACK_WALK] = {"pe_c._core.StackFrame", "A walk of a stack on x64, and the frame that was returned last. For a walk from the start set the registers to those of the thread, `remaining` to how many frames are wanted at most, and all else to 0.", row_stack_walk_fields, 12},
    [ROW_ARM64_FUNCTION] = {"pe_c._core.Arm64Function", "An entry of the ARM64 function table.", row_arm64_function_fields, 2},
    [ROW_ARM64_PACKED] = {"pe_c._core.Arm64Packed", "Packed unwind data of an ARM64 function. The fields mean nothing unless is_packed.", row_arm64_packed_fields, 8},
    [ROW_ARM64_RECORD] = {"pe_c._core.Arm64Record", "An ARM64 unwind record (.xdata).", row_arm64_record_fields, 7},
    [ROW_ARM64_SCOPE] = {"pe_c._core.Arm64Scope", "An epilog scope: where an epilog of an ARM64 function is, and where its codes are.", row_arm64_scope_fields, 4},
    [ROW_ARM64_CODE] = {"pe_c._core.Arm64Code", "An ARM64 unwind code.", row_arm64_code_fields, 6},
    [ROW_ARM64_REGISTERS] = {"pe_c._core.Arm64Registers", "The registers of a thread on ARM64 that unwinding restores.", row_arm64_registers_fields, 4},
    [ROW_ARM64_STACK_WALK] = {"pe_c._core.Arm64StackFrame", "A walk of a stack on ARM64, and the frame that was returned last, as pe_c_stack_walk.", row_arm64_stack_walk_fields, 12},
    [ROW_ADDRESS_TABLE] = {"pe_c._core.ExportTable", "The export directory's table of RVAs, which has all exports by their index, also those without a name.", row_address_table_fields, 4},
    [ROW_EXPORTED] = {"pe_c._core.Export", "An export by its index.", row_exported_fields, 6},
    [ROW_EXPORT_FIELDS] = {"pe_c._core.ExportDirectory", "The export directory itself, IMAGE_EXPORT_DIRECTORY.", row_export_fields_fields, 11},
    [ROW_NAME_SOURCES] = {"pe_c._core.NameTables", "The tables of an image of which names are read, each by itself, and the result of each: PE_C_DONE, PE_C_NOTHING where the image has none, or the error. One that is not there is empty.", row_name_sources_fields, 5},
    [ROW_FUNCTION_NAME] = {"pe_c._core.FunctionName", "What names an address.", row_function_name_fields, 5},
    [ROW_LIBRARY] = {"pe_c._core.Library", "A DLL that an image imports from, IMAGE_IMPORT_DESCRIPTOR.", row_library_fields, 8},
    [ROW_IMPORT] = {"pe_c._core.Import", "An import.", row_import_fields, 4},
    [ROW_DELAY_DESCRIPTOR] = {"pe_c._core.DelayDescriptor", "An entry of the delay import directory, IMAGE_DELAYLOAD_DESCRIPTOR. Addresses are RVAs where bit 0 of the attributes is set, else virtual addresses, as linkers before Visual C++ 7 wrote them.", row_delay_descriptor_fields, 8},
    [ROW_DELAY_IMPORT] = {"pe_c._core.DelayLibrary", "A DLL that is loaded later.", row_delay_import_fields, 3},
    [ROW_DELAYED_FUNCTION] = {"pe_c._core.DelayedFunction", "What is imported of a DLL that is loaded later.", row_delayed_function_fields, 2},
    [ROW_BOUND_IMPORT] = {"pe_c._core.BoundLibrary", "A bound import, IMAGE_BOUND_IMPORT_DESCRIPTOR.", row_bound_import_fields, 3},
    [ROW_BOUND_FORWARDER] = {"pe_c._core.BoundForwarder", "A DLL that another one forwards to, IMAGE_BOUND_FORWARDER_REF.", row_bound_forwarder_fields, 2},
    [ROW_VERSION] = {"pe_c._core.FixedVersion", "The fixed file information, VS_FIXEDFILEINFO.", row_version_fields, 13},
    [ROW_VERSION_BLOCK] = {"pe_c._core.VersionBlock", "A block of version information, which is a tree of them. The first block, VS_VERSION_INFO, is all of it; its value is the fixed file information. It contains StringFileInfo, with a string table for each language, whose blocks are strings with any key; and VarFileInfo, with Translation, whose value is a language and a code page, uint16_t each, for each language of the file.", row_version_block_fields, 7},
    [ROW_RESOURCE_LEAF] = {"pe_c._core.Resource", "A leaf of a resource tree.", row_resource_leaf_fields, 9},
    [ROW_RESOURCE_DIRECTORY] = {"pe_c._core.ResourceDirectory", "A directory of the tree, IMAGE_RESOURCE_DIRECTORY.", row_resource_directory_fields, 6},
    [ROW_TLS_DIRECTORY] = {"pe_c._core.Tls", "The TLS directory, IMAGE_TLS_DIRECTORY.", row_tls_directory_fields, 7},
    [ROW_LOAD_CONFIG_DIRECTORY] = {"pe_c._core.LoadConfig", "IMAGE_LOAD_CONFIG_DIRECTORY32 or IMAGE_LOAD_CONFIG_DIRECTORY64, up to the guard flags. A field that the structure is too short for, or the image, is 0, and so is the field of its name with has_, which else is 1. The addresses are virtual addresses, mostly 0 where there is nothing: less image->base one is an RVA, for pe_c_offset.", row_load_config_directory_fields, 13},
    [ROW_GUARD_ENTRY] = {"pe_c._core.GuardEntry", "An entry of a table of a load configuration.", row_guard_entry_fields, 2},
    [ROW_RELOCATION_BLOCK] = {"pe_c._core.RelocationBlock", "A block of base relocations, IMAGE_BASE_RELOCATION.", row_relocation_block_fields, 3},
    [ROW_RELOCATION] = {"pe_c._core.Relocation", "A base relocation.", row_relocation_fields, 3},
    [ROW_COR20_HEADER] = {"pe_c._core.ClrHeader", "The CLR header, IMAGE_COR20_HEADER.", row_cor20_header_fields, 12},
    [ROW_METADATA] = {"pe_c._core.Metadata", "The root of the metadata.", row_metadata_fields, 5},
    [ROW_METADATA_STREAM] = {"pe_c._core.MetadataStream", "A stream of CLR metadata.", row_metadata_stream_fields, 4},
    [ROW_DUMP_INFO] = {"pe_c._core.DumpHeader", "The header, MINIDUMP_HEADER.", row_dump_info_fields, 6},
    [ROW_DUMP_LOCATION] = {"pe_c._core.DumpLocation", "Where bytes are, MINIDUMP_LOCATION_DESCRIPTOR. One of no bytes says that there are none.", row_dump_location_fields, 2},
    [ROW_DUMP_ENTRY] = {"pe_c._core.DumpEntry", "An entry of the directory, MINIDUMP_DIRECTORY.", row_dump_entry_fields, 2},
    [ROW_DUMP_STACK] = {"pe_c._core.DumpStack", "The memory of a stack, MINIDUMP_MEMORY_DESCRIPTOR. It may be empty: the pieces of memory have what there is of it.", row_dump_stack_fields, 2},
    [ROW_DUMP_THREAD] = {"pe_c._core.DumpThread", "A thread, MINIDUMP_THREAD.", row_dump_thread_fields, 7},
    [ROW_DUMP_VERSION] = {"pe_c._core.DumpVersion", "The version of a module, VS_FIXEDFILEINFO. A signature of 0 says that there is none.", row_dump_version_fields, 13},
    [ROW_DUMP_MODULE] = {"pe_c._core.DumpModule", "A module, MINIDUMP_MODULE.", row_dump_module_fields, 9},
    [ROW_DUMP_THREAD_NAME] = {"pe_c._core.DumpThreadName", "The name of a thread, MINIDUMP_THREAD_NAME.", row_dump_thread_name_fields, 3},
    [ROW_DUMP_UNLOADED] = {"pe_c._core.DumpUnloadedModule", "A module that was unloaded, MINIDUMP_UNLOADED_MODULE.", row_dump_unloaded_fields, 6},
    [ROW_DUMP_THREAD_INFO] = {"pe_c._core.DumpThreadInfo", "More on a thread, MINIDUMP_THREAD_INFO.", row_dump_thread_info_fields, 10},
    [ROW_DUMP_HANDLE] = {"pe_c._core.DumpHandle", "A handle, MINIDUMP_HANDLE_DESCRIPTOR.", row_dump_handle_fields, 9},
    [ROW_DUMP_REGION] = {"pe_c._core.DumpRegion", "A region of memory, MINIDUMP_MEMORY_INFO.", row_dump_region_fields, 7},
    [ROW_DUMP_RAISED] = {"pe_c._core.DumpException", "The exception that a dump was written for, MINIDUMP_EXCEPTION_STREAM.", row_dump_raised_fields, 8},
    [ROW_DUMP_SYSTEM_INFO] = {"pe_c._core.DumpSystem", "The system, MINIDUMP_SYSTEM_INFO.", row_dump_system_info_fields, 12},
    [ROW_DUMP_TIMES] = {"pe_c._core.DumpTimes", "How long a process ran.", row_dump_times_fields, 3},
    [ROW_DUMP_POWER] = {"pe_c._core.DumpPower", "The speed of the processor.", row_dump_power_fields, 5},
    [ROW_DUMP_PROCESS_INFO] = {"pe_c._core.DumpProcess", "What is known of a process, MINIDUMP_MISC_INFO and _2. What is not there is 0.", row_dump_process_info_fields, 5},
    [ROW_DUMP_PIECE] = {"pe_c._core.DumpPiece", "A piece of memory, as pe_c_next_frame takes it with the bytes of the dump as its memory.", row_dump_piece_fields, 4},
    [ROW_CONTEXT] = {"pe_c._core.Context", "The registers of a thread on x64, CONTEXT.", row_context_fields, 3},
    [ROW_ARM64_CONTEXT] = {"pe_c._core.Arm64Context", "The registers of a thread on ARM64, ARM64_NT_CONTEXT.", row_arm64_context_fields, 3},
    [ROW_PDB_INFO] = {"pe_c._core.PdbInfo", "What a PDB says of itself. Streams are numbers for pe_c_pdb_stream, or 0xFFFF for none.", row_pdb_info_fields, 18},
    [ROW_PDB_MODULE] = {"pe_c._core.PdbModule", "A module, an object that was linked.", row_pdb_module_fields, 10},
    [ROW_PDB_SYMBOL] = {"pe_c._core.PdbSymbol", "The record of a symbol.", row_pdb_symbol_fields, 9},
    [ROW_PDB_LINE] = {"pe_c._core.PdbLine", "A line of a source file, and its code.", row_pdb_line_fields, 5},
};
