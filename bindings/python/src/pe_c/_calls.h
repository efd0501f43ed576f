/* The lists inside of rows, and the methods that are one call, or one walk. Written by tools/make_python of pe.h. */
INNER(rich_entries, pe_c_rich_header_info, pe_c_range, it->entries, pe_c_rich_entry, pe_c_next_rich_entry(BYTES, it->key, &walk, &item), ROW_OF(rich_entry))
INNER(pogo_entries, pe_c_pogo, pe_c_range, it->entries, pe_c_pogo_entry, pe_c_next_pogo_entry(BYTES, &walk, &item), ROW_OF(pogo_entry))
INNER(arm64_scopes, pe_c_arm64_record, pe_c_range, it->scopes, pe_c_arm64_scope, pe_c_next_arm64_scope(BYTES, &walk, &item), ROW_OF(arm64_scope))
INNER_OF(delayed_functions, pe_c_delay_import, pe_c_delayed_function_walk, {.functions = it->functions}, pe_c_delayed_function, pe_c_list_delayed_functions(VIEW, walk, runs, run_count, items, most, count), ROW_OF(delayed_function))
INNER(relocations_of, pe_c_relocation_block, pe_c_range, it->entries, pe_c_relocation, pe_c_next_relocation(BYTES, it->page_rva, &walk, &item), ROW_OF(relocation))
INNER(metadata_streams, pe_c_metadata, pe_c_metadata_streams, it->streams, pe_c_metadata_stream, pe_c_next_metadata_stream(BYTES, &walk, &item), ROW_OF(metadata_stream))
ONE(all_headers, pe_c_headers_info, pe_c_headers(BYTES, self->info.mode, &item), ROW_OF(headers_info))
ONE(rich_header, pe_c_rich_header_info, pe_c_rich_header(BYTES, &item), ROW_OF(rich_header_info))
ONE(symbol_key, pe_c_key, pe_c_symbol_key(VIEW, &item), ROW_OF(key))
ONE(overlay, pe_c_range, pe_c_overlay(VIEW, &item), view_of(self, item))
ONE(tls, pe_c_tls_directory, pe_c_tls(VIEW, &item), ROW_OF(tls_directory))
ONE(load_config, pe_c_load_config_directory, pe_c_load_config(VIEW, &item), ROW_OF(load_config_directory))
ONE(clr_header, pe_c_cor20_header, pe_c_clr_header(VIEW, &item), ROW_OF(cor20_header))
ONE(export_table, pe_c_address_table, pe_c_export_addresses(VIEW, &item), ROW_OF(address_table))
ONE(export_directory, pe_c_export_fields, pe_c_export_directory(VIEW, &item), ROW_OF(export_fields))
ONE(resource_root, pe_c_resource_directory, pe_c_resource_root(VIEW, &item), ROW_OF(resource_directory))
ONE(fixed_version, pe_c_version, pe_c_fixed_version(VIEW, &item), ROW_OF(version))
ONE(version_content, pe_c_range, pe_c_version_blocks(VIEW, &item), view_of(self, item))
ONE(manifest, pe_c_range, pe_c_manifest(VIEW, &item), view_of(self, item))
ONE(dump, pe_c_dump_info, pe_c_dump(BYTES, &item), ROW_OF(dump_info))
ONE(pdb, pe_c_pdb_info, pe_c_pdb(BYTES, &item), ROW_OF(pdb_info))
ONE(name_tables, pe_c_name_sources, pe_c_name_tables(VIEW, &item), ROW_OF(name_sources))
FIRST(pdb20, pe_c_pdb20, pdb20, ROW_OF(pdb20))
FIRST(vc_features, pe_c_vc_features, features, ROW_OF(vc_features))
FIRST(pogo, pe_c_pogo, pogo, ROW_OF(pogo))
FIRST(repro, pe_c_repro, repro, ROW_OF(repro))
FIRST(extended_dll_characteristics, uint32_t, characteristics, N(item))
FIRST(embedded_pdb, pe_c_embedded_pdb, embedded, ROW_OF(embedded_pdb))
FIRST(pdb_checksum, pe_c_pdb_checksum, checksum, ROW_OF(pdb_checksum))
LIST_OF(imports, pe_c_library_walk, pe_c_import_libraries(VIEW, &walk.libraries), pe_c_library, pe_c_list_libraries(VIEW, walk, runs, run_count, items, most, count), ROW_OF(library))
LIST_OF(delay_imports, pe_c_delay_import_walk, pe_c_delay_imports(VIEW, &walk.entries), pe_c_delay_import, pe_c_list_delay_imports(VIEW, walk, runs, run_count, items, most, count), ROW_OF(delay_import))
LIST(debug_entries, pe_c_range, pe_c_debug_entries(VIEW, &walk), pe_c_debug_entry, pe_c_next_debug_entry(BYTES, &walk, &item), ROW_OF(debug_entry))
LIST_OF(resources, pe_c_leaf_walk, pe_c_resource_leaves(VIEW, &walk.leaves), pe_c_resource_leaf, pe_c_list_resource_leaves(VIEW, walk, items, most, count), ROW_OF(resource_leaf))
LIST(te_debug_entries, pe_c_range, pe_c_te_debug_entries(BYTES, &self->te, &walk), pe_c_debug_entry, pe_c_next_te_debug_entry(BYTES, &self->te, &walk, &item), ROW_OF(debug_entry))
static PyObject *guard_entries(Image *self, PyObject *arguments)
{
    unsigned int table;
    unsigned long long most;
    pe_c_guard_entries walk = PE_C_EMPTY;
    pe_c_guard_entry item = PE_C_EMPTY;
    if (!PyArg_ParseTuple(arguments, "IK", &table, &most))
        return NULL;
    OPEN
    budget = (Budget){UINT64_MAX, UINT64_MAX, 0, 0, 0};
    rows = rows_of(self, &budget);
    starts(&rows, pe_c_guard_table(VIEW, table, &walk));
    walk.count = walk.count < most ? walk.count : most;
    EACH(&rows, pe_c_next_guard_entry(BYTES, &walk, &item), ROW_OF(guard_entry));
    return finished(&rows);
}
SIGNED(codeview, pe_c_key, pe_c_codeview(BYTES, &range, &item), ROW_OF(key))
SIGNED(fixed_version_in, pe_c_version, pe_c_fixed_version_in(BYTES, &range, &item), ROW_OF(version))
SIGNED(signature, pe_c_signed_data, pe_c_signature(BYTES, &range, &failure, &item), ROW_OF(signed_data))
SIGNED(algorithm, pe_c_algorithm, pe_c_algorithm_identifier(BYTES, &range, &failure, &item), ROW_OF(algorithm))
SIGNED(indirect_data, pe_c_spc_indirect_data, pe_c_indirect_data(BYTES, &range, &failure, &item), ROW_OF(spc_indirect_data))
SIGNED(image_data, pe_c_spc_pe_image_data, pe_c_image_data(BYTES, &range, &failure, &item), ROW_OF(spc_pe_image_data))
SIGNED(signer, pe_c_signer_info, pe_c_signer(BYTES, &range, &failure, &item), ROW_OF(signer_info))
SIGNED(attribute, pe_c_signer_attribute, pe_c_attribute(BYTES, &range, &failure, &item), ROW_OF(signer_attribute))
SIGNED(opus_info, pe_c_spc_opus_info, pe_c_opus_info(BYTES, &range, &failure, &item), ROW_OF(spc_opus_info))
SIGNED(x509, pe_c_x509_certificate, pe_c_x509(BYTES, &range, &failure, &item), ROW_OF(x509_certificate))
SIGNED(extension, pe_c_x509_extension, pe_c_extension(BYTES, &range, &failure, &item), ROW_OF(x509_extension))
SIGNED(key_usage, uint32_t, pe_c_key_usage(BYTES, &range, &failure, &item), N(item))
SIGNED(utc_time, pe_c_utc_time, pe_c_time(BYTES, &range, &failure, &item), ROW_OF(utc_time))
SIGNED(time_stamp, pe_c_tst_info, pe_c_time_stamp(BYTES, &range, &failure, &item), ROW_OF(tst_info))
STREAM(dump_exception, PE_C_EXCEPTION_STREAM, pe_c_dump_raised, pe_c_dump_exception(BYTES, &stream, &item), ROW_OF(dump_raised))
STREAM(dump_system, PE_C_SYSTEM_INFO_STREAM, pe_c_dump_system_info, pe_c_dump_system(BYTES, &stream, &item), ROW_OF(dump_system_info))
STREAM(dump_process, PE_C_MISC_INFO_STREAM, pe_c_dump_process_info, pe_c_dump_process(BYTES, &stream, &item), ROW_OF(dump_process_info))
STREAM_LIST(dump_entries, 0, pe_c_dump_entry, pe_c_dump_entry_at(BYTES, &stream, i++, &item), ROW_OF(dump_entry))
STREAM_LIST(dump_threads, PE_C_THREAD_LIST_STREAM, pe_c_dump_thread, pe_c_dump_thread_at(BYTES, &stream, i++, &item), ROW_OF(dump_thread))
STREAM_LIST(dump_modules, PE_C_MODULE_LIST_STREAM, pe_c_dump_module, pe_c_dump_module_at(BYTES, &stream, i++, &item), ROW_OF(dump_module))
STREAM_LIST(dump_thread_names, PE_C_THREAD_NAMES_STREAM, pe_c_dump_thread_name, pe_c_dump_thread_name_at(BYTES, &stream, i++, &item), ROW_OF(dump_thread_name))
STREAM_LIST(dump_unloaded, PE_C_UNLOADED_MODULE_LIST_STREAM, pe_c_dump_unloaded, pe_c_dump_unloaded_at(BYTES, &stream, i++, &item), ROW_OF(dump_unloaded))
STREAM_LIST(dump_thread_infos, PE_C_THREAD_INFO_LIST_STREAM, pe_c_dump_thread_info, pe_c_dump_thread_info_at(BYTES, &stream, i++, &item), ROW_OF(dump_thread_info))
STREAM_LIST(dump_handles, PE_C_HANDLE_DATA_STREAM, pe_c_dump_handle, pe_c_dump_handle_at(BYTES, &stream, i++, &item), ROW_OF(dump_handle))
STREAM_LIST(dump_regions, PE_C_MEMORY_INFO_LIST_STREAM, pe_c_dump_region, pe_c_dump_region_at(BYTES, &stream, i++, &item), ROW_OF(dump_region))
STREAM_LIST(dump_memory, PE_C_MEMORY_LIST_STREAM, pe_c_dump_piece, pe_c_dump_memory_at(BYTES, &stream, i++, &item), ROW_OF(dump_piece))
CONTEXT(dump_context, pe_c_context, pe_c_dump_context(BYTES, &location, &item), ROW_OF(context))
CONTEXT(dump_context_arm64, pe_c_arm64_context, pe_c_dump_context_arm64(BYTES, &location, &item), ROW_OF(arm64_context))

#define MADE_METHODS \
    {"all_headers", (PyCFunction)all_headers, METH_NOARGS, NULL}, \
    {"rich_header", (PyCFunction)rich_header, METH_NOARGS, NULL}, \
    {"symbol_key", (PyCFunction)symbol_key, METH_NOARGS, NULL}, \
    {"overlay", (PyCFunction)overlay, METH_NOARGS, NULL}, \
    {"tls", (PyCFunction)tls, METH_NOARGS, NULL}, \
    {"load_config", (PyCFunction)load_config, METH_NOARGS, NULL}, \
    {"clr_header", (PyCFunction)clr_header, METH_NOARGS, NULL}, \
    {"export_table", (PyCFunction)export_table, METH_NOARGS, NULL}, \
    {"export_directory", (PyCFunction)export_directory, METH_NOARGS, NULL}, \
    {"resource_root", (PyCFunction)resource_root, METH_NOARGS, NULL}, \
    {"fixed_version", (PyCFunction)fixed_version, METH_NOARGS, NULL}, \
    {"version_content", (PyCFunction)version_content, METH_NOARGS, NULL}, \
    {"manifest", (PyCFunction)manifest, METH_NOARGS, NULL}, \
    {"dump", (PyCFunction)dump, METH_NOARGS, NULL}, \
    {"pdb", (PyCFunction)pdb, METH_NOARGS, NULL}, \
    {"name_tables", (PyCFunction)name_tables, METH_NOARGS, NULL}, \
    {"pdb20", (PyCFunction)pdb20, METH_NOARGS, NULL}, \
    {"vc_features", (PyCFunction)vc_features, METH_NOARGS, NULL}, \
    {"pogo", (PyCFunction)pogo, METH_NOARGS, NULL}, \
    {"repro", (PyCFunction)repro, METH_NOARGS, NULL}, \
    {"extended_dll_characteristics", (PyCFunction)extended_dll_characteristics, METH_NOARGS, NULL}, \
    {"embedded_pdb", (PyCFunction)embedded_pdb, METH_NOARGS, NULL}, \
    {"pdb_checksum", (PyCFunction)pdb_checksum, METH_NOARGS, NULL}, \
    {"imports", (PyCFunction)imports, METH_NOARGS, NULL}, \
    {"delay_imports", (PyCFunction)delay_imports, METH_NOARGS, NULL}, \
    {"debug_entries", (PyCFunction)debug_entries, METH_NOARGS, NULL}, \
    {"resources", (PyCFunction)resources, METH_NOARGS, NULL}, \
    {"te_debug_entries", (PyCFunction)te_debug_entries, METH_NOARGS, NULL}, \
    {"guard_entries", (PyCFunction)guard_entries, METH_VARARGS, NULL}, \
    {"codeview", (PyCFunction)codeview, METH_VARARGS, NULL}, \
    {"fixed_version_in", (PyCFunction)fixed_version_in, METH_VARARGS, NULL}, \
    {"signature", (PyCFunction)signature, METH_VARARGS, NULL}, \
    {"algorithm", (PyCFunction)algorithm, METH_VARARGS, NULL}, \
    {"indirect_data", (PyCFunction)indirect_data, METH_VARARGS, NULL}, \
    {"image_data", (PyCFunction)image_data, METH_VARARGS, NULL}, \
    {"signer", (PyCFunction)signer, METH_VARARGS, NULL}, \
    {"attribute", (PyCFunction)attribute, METH_VARARGS, NULL}, \
    {"opus_info", (PyCFunction)opus_info, METH_VARARGS, NULL}, \
    {"x509", (PyCFunction)x509, METH_VARARGS, NULL}, \
    {"extension", (PyCFunction)extension, METH_VARARGS, NULL}, \
    {"key_usage", (PyCFunction)key_usage, METH_VARARGS, NULL}, \
    {"utc_time", (PyCFunction)utc_time, METH_VARARGS, NULL}, \
    {"time_stamp", (PyCFunction)time_stamp, METH_VARARGS, NULL}, \
    {"dump_exception", (PyCFunction)dump_exception, METH_NOARGS, NULL}, \
    {"dump_system", (PyCFunction)dump_system, METH_NOARGS, NULL}, \
    {"dump_process", (PyCFunction)dump_process, METH_NOARGS, NULL}, \
    {"dump_entries", (PyCFunction)dump_entries, METH_NOARGS, NULL}, \
    {"dump_threads", (PyCFunction)dump_threads, METH_NOARGS, NULL}, \
    {"dump_modules", (PyCFunction)dump_modules, METH_NOARGS, NULL}, \
    {"dump_thread_names", (PyCFunction)dump_thread_names, METH_NOARGS, NULL}, \
    {"dump_unloaded", (PyCFunction)dump_unloaded, METH_NOARGS, NULL}, \
    {"dump_thread_infos", (PyCFunction)dump_thread_infos, METH_NOARGS, NULL}, \
    {"dump_handles", (PyCFunction)dump_handles, METH_NOARGS, NULL}, \
    {"dump_regions", (PyCFunction)dump_regions, METH_NOARGS, NULL}, \
    {"dump_memory", (PyCFunction)dump_memory, METH_NOARGS, NULL}, \
    {"dump_context", (PyCFunction)dump_context, METH_VARARGS, NULL}, \
    {"dump_context_arm64", (PyCFunction)dump_context_arm64, METH_VARARGS, NULL},
