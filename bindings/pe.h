/* pe.h: reads PE images (Windows .exe and .dll files), TE images, COFF objects, minidumps and PDB files, walks stacks,
 * attaches certificates and changes resources, from C11 and C++17.
 *
 * The caller's obligations, for each call:
 *   - `bytes` points to the `length` bytes of the image, a file or memory, which are readable and which nothing writes
 *     during the call. It may be NULL if `length` is 0;
 *   - every other pointer, also one in a view, is not NULL (an array of 0 entries may be), is aligned for its type, and
 *     points to initialised memory (`= PE_C_EMPTY`), also where the call only writes;
 *   - what a call writes (`out`, a walk, `room`) overlaps no other argument.
 * There is no obligation on what the bytes or the fields of records contain: every value is legal. A wrong range gives an
 * error code, never undefined behaviour.
 *
 * No call allocates, keeps state, prints, calls back, or needs initialisation. Any thread may call at any time.
 *
 * Results. A call returns PE_C_DONE and fills `out`, or returns another number and leaves `out` unchanged, but for the
 * address in a frame, `failure` of the calls for signatures, and `written`, below. The comment of a call lists its errors in
 * the order in which they are tested. PE_C_NOTHING means that there is nothing of the kind; it is no error.
 *
 * Room. A call that writes a file, an image, an index or a text writes to an array of the caller, `room`. Where that is too
 * small the call returns PE_C_ROOM, the array is unchanged but for the beginning of a text, and `written` says how long it
 * has to be. So a call with NULL and 0 returns the length, and a second one fills an array of that length:
 *
 *     result = pe_c_detach(&view, NULL, 0, &written);
 *     if (result == PE_C_ROOM && (room = (uint8_t *)malloc((size_t)written)) != NULL)
 *         result = pe_c_detach(&view, room, (size_t)written, &written);
 *
 * Units. An `offset` is a number of bytes from the start of `bytes`: in a file a file offset, in an image as loaded an
 * RVA. A range that a call returns lies inside `bytes`; one of length 0 may start past them.
 * RVAs, sizes and lengths are in bytes; an RVA counts from the start of the image in memory.
 *
 * Walks. A walk is a record that steps over a list: each call returns the next item and moves the walk. PE_C_NOTHING is
 * the end of the list. After an error the walk is over too, unless the comment of the call says that it goes on. A walk that
 * is over returns PE_C_NOTHING each time.
 *
 * Modes. `mode` is PE_C_STRICT or PE_C_PERMISSIVE; for an image as loaded add PE_C_MAPPED. Bits of no name make no
 * difference. Permissive mode accepts
 *   - a PE header that overlaps the DOS header;
 *   - a debug directory that ends past the end of the file: it is truncated there;
 *   - a CodeView record that is too small: it counts as absent;
 *   - resource data too short for a directory, and resource entries that are not all inside the data: they count as
 *     absent.
 *
 * Images as loaded. With PE_C_MAPPED `bytes` are a module in memory, or a copy of one as in a minidump, from its first
 * byte on: its sections stand at their RVAs, and RVAs are offsets. Without it they are a file, and the sections map RVAs.
 * An image that is read the wrong way may give wrong values without an error.
 *
 * Arguments. Calls on an image take a view of it: its bytes, and what pe_c_image and pe_c_sections returned of them. They
 * read in the mode that pe_c_image was called with, which is the field `mode` of the image. Each of these calls is made only
 * if the one before returned PE_C_DONE:
 *
 *     pe_c_image(bytes, length, mode, &image);
 *     pe_c_sections(bytes, length, &image, sections, entries);
 *     pe_c_view view = {bytes, length, &image, sections, image.number_of_sections, NULL, 0};
 *     pe_c_symbol_key(&view, &key);
 *
 * A range or a walk that does not lie inside `bytes` is PE_C_SHORT; as a certificate table it is PE_C_CERTIFICATE_TABLE.
 *
 * The layouts are those of https://learn.microsoft.com/windows/win32/debug/pe-format */

/* All calls, in the order of this header, each with the start of its comment. tools/check_docs --map writes the list.
 * results
 *   pe_c_text                       Writes the text of a result to the start of the array, in UTF-8, with a zero after it ..
 *   pe_c_message                    Returns the text of a result, that of pe_c_text, as a string constant
 * the image
 *   pe_c_image                      Reads the headers of an image, which are at the same offsets in a file and in memory
 *   pe_c_sections                   Writes the section headers to the start of the array, image->number_of_sections of ..
 *   pe_c_offset                     Returns the file offset of an RVA, by the first section that covers it; in an image as ..
 * all numbers of the headers
 *   pe_c_headers                    Reads all numbers of the headers of an image, which are at the same offsets in a file ..
 * the section map, section by section
 *   pe_c_index                      Makes an index of the sections at the start of the array, and writes how many entries ..
 *   pe_c_section_at                 Returns the index of the section that maps an RVA: the first that covers it, by which ..
 *   pe_c_section_range              Returns the bytes that the RVAs of a section are mapped to, one after the other, up to ..
 *   pe_c_range_at                   Returns the bytes from an RVA to the end of what its section has in the file
 *   pe_c_rva                        Returns the RVA that leads to a file offset, by the first section whose RVAs are ..
 * the image as a loader lays it out
 *   pe_c_map                        Writes the image as a loader lays it out to the start of the array, as many bytes as ..
 *   pe_c_relocate                   Relocates an image as loaded, which pe_c_map wrote to the array, by the base ..
 * ranges, and the overlay
 *   pe_c_image_range                Returns the range of a kind
 *   pe_c_directory_table            Returns the bytes of a directory by its index, PE_C_DIRECTORY_BASERELOC and others, as ..
 *   pe_c_overlay                    Returns the range of the bytes after the headers and the raw data of all sections ..
 * section names
 *   pe_c_string_table               Returns the COFF string table, from its size field on
 *   pe_c_long_section_name          Returns the name of a section in the string table
 * COFF objects and COFF symbols
 *   pe_c_coff                       Reads the header of an object, the 20 bytes at its start
 *   pe_c_coff_symbols               Returns a walk over the symbols of an object or of an image, with the range of their table
 *   pe_c_coff_strings               Returns the string table of an object or of an image, from its size field on
 *   pe_c_next_symbol                Reads the next symbol of a walk
 *   pe_c_symbol_name                Returns the name of the symbol in an entry of a symbol table
 * the Rich header
 *   pe_c_rich_header                Returns the Rich header
 *   pe_c_next_rich_entry            Returns the next entry
 * debug data
 *   pe_c_debug_entries              Returns the entries of the debug directory as a walk for pe_c_next_debug_entry
 *   pe_c_next_debug_entry           Returns the next entry of the debug directory
 *   pe_c_codeview                   Returns the symbol key of a CodeView record that stands alone, as a minidump has one ..
 *   pe_c_symbol_key                 Returns the symbol key
 *   pe_c_debug_data                 Reads the record of the first entry of each type
 *   pe_c_debug_record               Reads the record of an entry that the caller has, in a mode, by the type that the ..
 * TE images
 *   pe_c_te                         Reads the header of a TE image, the 40 bytes at its start
 *   pe_c_te_sections                Writes the section headers of a TE image to the start of the array ..
 *   pe_c_te_debug_entries           Returns the entries of the debug directory as a walk for pe_c_next_te_debug_entry
 *   pe_c_next_te_debug_entry        Reads the next entry, the RVA and the file offset of its record reduced by te->rva_offset
 * certificates
 *   pe_c_next_certificate           Returns the next attribute certificate
 * signatures
 *   pe_c_signature_part             Reads the part that a range starts with, as one of a kind, PE_C_PART_SIGNATURE and ..
 *   pe_c_signature                  Reads a signature
 *   pe_c_next_element               Returns the next element of a list
 *   pe_c_algorithm_identifier       Reads an algorithm
 *   pe_c_indirect_data              Reads what Authenticode signs
 *   pe_c_image_data                 Reads what a signature says of an image as a file
 *   pe_c_signer                     Reads a signer of a signature, or a counter-signature
 *   pe_c_attribute                  Reads an attribute of a signer
 *   pe_c_find_attribute             Finds an attribute of a signer by the id of its type, such as PE_C_OID_MESSAGE_DIGEST ..
 *   pe_c_opus_info                  Reads what a signer says of the program
 *   pe_c_x509                       Reads a certificate
 *   pe_c_extension                  Reads an extension of a certificate
 *   pe_c_key_usage                  Returns what a key is for, of an extension with the type PE_C_OID_KEY_USAGE: 0x80 ..
 *   pe_c_name                       Returns a walk over the attributes of a name
 *   pe_c_next_name_attribute        Returns the next attribute of a name, in the order of the name
 *   pe_c_time                       Reads a time
 *   pe_c_time_stamp                 Reads what a time stamp says
 * signing
 *   pe_c_digest_ranges              Returns what the Authenticode digest of an image covers
 *   pe_c_checksum                   Returns the checksum that an image should have, and where its field is
 *   pe_c_attach                     Writes the file with a certificate to the start of the array, and its length to ..
 *   pe_c_detach                     Writes the file without certificates to the start of the array, and its length to ..
 * sections and images written
 *   pe_c_write_sections             Writes the sections of the view into the array
 *   pe_c_write_certificates         Writes the certificates into the array, one after the other from the offset of their ..
 *   pe_c_write_image                Writes the image into the array
 *   pe_c_write_whole                Writes the whole file into the array, and over it what pe_c_write_image writes, but no ..
 * x64 functions and unwind records
 *   pe_c_exception_table            Returns the range of the function table of an image for a machine, 0x8664 for x64 or ..
 *   pe_c_function_table             Returns the range of the function table, entries of 12 bytes
 *   pe_c_find_function              Returns the function that covers an RVA, by binary search, or PE_C_NOTHING. In a table ..
 *   pe_c_unwind_record              Returns the unwind record of an unwind RVA, the field `unwind` of a function of this ..
 *   pe_c_scope_table                Returns the scope table in a record's handler_data as a walk for pe_c_next_scope
 *   pe_c_next_scope                 Returns the next entry of a scope table
 *   pe_c_plan_from                  Starts the plan of a function, by its unwind RVA, the field `unwind` of the function
 *   pe_c_next_record                Returns the next record of a plan
 *   pe_c_step                       Finds the registers of a function's caller, from those inside the function, in its ..
 *   pe_c_next_frames                Returns the next frames of a stack walk on x64
 * ARM64 functions and unwind records
 *   pe_c_arm64_table                Returns the range of the function table, entries of 8 bytes
 *   pe_c_find_arm64_function        Returns the function that covers an RVA, by binary search, or PE_C_NOTHING. In a table ..
 *   pe_c_arm64_packed_fields        Returns the fields of packed unwind data
 *   pe_c_arm64_unwind_record        Returns the unwind record of a function
 *   pe_c_next_arm64_scope           Returns the next epilog scope of a record
 *   pe_c_arm64_codes                Returns a walk over a record's codes
 *   pe_c_step_arm64                 Finds the registers of a function's caller, from those inside the function, and writes ..
 *   pe_c_next_arm64_frames          As pe_c_next_frames, on ARM64
 * exports
 *   pe_c_export_directory           Returns the fields of the export directory, whatever its tables are
 *   pe_c_export_tables              Returns the tables of the export directory, where a walk starts
 *   pe_c_export_addresses           Returns the table of RVAs of the export directory, the ordinal base and the DLL's name
 * names of functions without a PDB
 *   pe_c_name_tables                Reads the tables of which pe_c_function_names reads names
 *   pe_c_function_names             Writes to `names` what names each of these addresses, in their order; the rest of ..
 * imports
 *   pe_c_import_libraries           Returns where a walk over libraries starts
 * delay imports
 *   pe_c_delay_imports              Returns the entries of the delay import directory, where a walk starts
 * bound imports
 *   pe_c_bound_imports              Returns the bytes of the directory
 * version information and manifest
 *   pe_c_version_blocks             Returns version information as a walk over its blocks, of which the first is all of it
 *   pe_c_manifest                   Returns the range of the manifest, an XML text
 * resources
 *   pe_c_resource_leaves            Returns where a walk over leaves starts; they come in the order of the entries of ..
 *   pe_c_resource_root              Returns the root of the resource tree, the directory whose entries are types ..
 *   pe_c_resource_directory_at      Returns the directory at an offset of a tree, which is that of a walk over leaves
 *   pe_c_next_resource_item         Returns the next entry of a directory of a tree
 *   pe_c_fixed_version_in           Returns the fixed file information in the content of a leaf of type 16 (RT_VERSION)
 *   pe_c_version_text_in            Returns the value of a name in the content of such a leaf, as pe_c_version_text does
 * resources written
 *   pe_c_edit                       Writes the image with these resources in place of those that it has to the start of ..
 *   pe_c_write_block                Writes a block of version information to the start of the array, with zeros up to a ..
 *   pe_c_write_version              Writes version information, the content of a resource of type 16 (RT_VERSION), to the ..
 * thread-local storage
 *   pe_c_tls                        Returns the TLS directory
 *   pe_c_tls_callbacks              Returns the callbacks of a TLS directory as a walk
 *   pe_c_next_tls_callback          Returns the next callback, a virtual address
 * load configuration
 *   pe_c_load_config                Returns the load configuration
 *   pe_c_load_config_field          Returns the field with a number, PE_C_CONFIG_
 * tables of a load configuration
 *   pe_c_guard_table                Returns a walk over the table with a number, PE_C_GUARD_
 * base relocations
 *   pe_c_relocation_blocks          Returns the blocks of the base relocations as a walk
 * CLR header and metadata
 *   pe_c_clr_header                 Returns the CLR header
 *   pe_c_clr_metadata               Returns the root of the metadata of a CLR header
 *   pe_c_next_metadata_stream       Returns the next stream of the metadata
 * texts
 *   pe_c_guid_text                  Writes the text of a GUID, the first 16 of these bytes, as those of pe_c_key
 *   pe_c_utf16_text                 Writes the text of a range in UTF-16 as UTF-8
 *   pe_c_text_in                    Returns the text in a range up to its first zero, and whether a zero follows it, in ..
 * lists in one call
 *   pe_c_list_functions             Lists the functions of a table as pe_c_function_at reads them, from the index `next` ..
 *   pe_c_list_codes                 Lists the unwind codes of a walk
 *   pe_c_all_codes                  Lists all codes of a record, of which these are the bytes of its codes alone
 *   pe_c_list_arm64_functions       Lists the functions of an ARM64 table as pe_c_arm64_function_at reads them, from the ..
 *   pe_c_list_arm64_codes           Lists the ARM64 unwind codes of a walk
 *   pe_c_list_exports               Lists the exports that have a name, and reads names and forwarders' texts together ..
 *   pe_c_list_libraries             Lists the libraries of an import directory, and reads the names together, and looks ..
 *   pe_c_list_imports               Lists the imports of a library, and reads the names together, with a run for each ..
 *   pe_c_list_all_imports           Lists the imports of all libraries, one library after the other, and reads the names ..
 *   pe_c_list_export_addresses      Lists all exports as pe_c_export_at reads them, from the index `next` on, which moves ..
 *   pe_c_list_long_section_names    Lists the long names of the sections of an image, from the index `next` on, which ..
 *   pe_c_list_symbols               Lists the symbols of a walk as pe_c_next_symbol returns them, each with what ..
 *   pe_c_list_resource_leaves       Lists the leaves of a resource tree
 *   pe_c_list_version_blocks        Lists blocks of version information
 *   pe_c_list_relocation_blocks     Lists the blocks of base relocations
 *   pe_c_list_relocations           Lists the relocations of a block, whose page RVA is page_rva
 *   pe_c_list_delay_imports         Lists the DLLs of a delay import directory, and reads the names together, with a run ..
 *   pe_c_list_delayed_functions     Lists what is imported of a DLL that is loaded later, and reads the names together ..
 *   pe_c_list_all_delayed_functions Lists the functions of all delay-loaded DLLs, one DLL after the other, and reads the ..
 *   pe_c_list_bound_imports         Lists bound imports as pe_c_next_bound_import returns them, and reads the names ..
 *   pe_c_list_bound_forwarders      Lists the same of the DLLs that a DLL forwards to, as pe_c_next_bound_forwarder ..
 *   pe_c_list_pogo_entries          Lists the entries of a POGO record
 *   pe_c_list_guard_entries         Lists the entries of a table of a load configuration
 * the next item
 *   pe_c_next_code                  Returns the next code of a record, in the order in which they are undone
 *   pe_c_next_arm64_code            Returns the next code
 *   pe_c_next_export                Returns the next export
 *   pe_c_next_library               Returns the next library
 *   pe_c_next_import                Returns the next import of a library
 *   pe_c_next_delay_import          Returns the next DLL. The directory ends with its bytes, or at an entry without the ..
 *   pe_c_next_delayed_function      Returns the next function of a DLL. Errors
 *   pe_c_next_bound_import          Returns the next DLL. The walk starts as a copy of the table
 *   pe_c_next_bound_forwarder       Returns the next DLL that a DLL forwards to
 *   pe_c_next_version_block         Returns the next block
 *   pe_c_next_resource_leaf         Returns the next leaf
 *   pe_c_next_relocation_block      Returns the next block
 *   pe_c_next_relocation            Returns the next relocation of a block
 *   pe_c_next_guard_entry           Returns the next entry of a table
 *   pe_c_next_pogo_entry            Returns the next entry of a POGO record
 *   pe_c_next_frame                 Returns the next frame of a stack walk on x64, in the walk
 *   pe_c_next_arm64_frame           The same on ARM64
 *   pe_c_function_at                Returns the function with an index, from 0
 *   pe_c_arm64_function_at          Returns the function with an index, from 0
 *   pe_c_export_at                  Returns the export with an index, from 0
 *   pe_c_symbol                     Reads the symbol in an entry of a symbol table
 * two calls
 *   pe_c_fixed_version              Returns the fixed file information
 *   pe_c_version_text               Returns the value of a name, PE_C_COMMENTS .. PE_C_SPECIAL_BUILD: UTF-16 code units ..
 * why headers, a directory or a step are refused
 *   pe_c_item_failure               Returns why an item of a kind is refused that bytes alone have
 *   pe_c_image_item_failure         Returns why an item of another of these kinds is refused
 *   pe_c_image_failure              Returns why pe_c_image refuses the bytes in this mode
 *   pe_c_directory_failure          Returns what is wrong with a directory, PE_C_DIRECTORY_EXPORT and so on
 *   pe_c_sections_failure           Returns why pe_c_sections refuses the section headers of an image, whatever room it is ..
 *   pe_c_te_failure                 Returns why pe_c_te refuses the bytes
 *   pe_c_debug_failure              Returns what is wrong with the record of an entry of the debug directory that is read ..
 *   pe_c_library_failure            Of pe_c_next_library
 *   pe_c_import_failure             Of pe_c_next_import
 *   pe_c_unwind_record_failure      Of pe_c_unwind_record, which takes the same
 *   pe_c_code_failure               Of pe_c_next_code
 *   pe_c_resource_leaf_failure      Of pe_c_next_resource_leaf
 *   pe_c_certificate_failure        Of pe_c_next_certificate
 *   pe_c_relocation_block_failure   Of pe_c_next_relocation_block
 *   pe_c_relocation_failure         Of pe_c_next_relocation, which takes the same `page_rva`. PE_C_DIRECTORY_NO_ARGUMENT ..
 *   pe_c_arm64_record_failure       Of pe_c_arm64_unwind_record
 *   pe_c_arm64_code_failure         Of pe_c_next_arm64_code
 *   pe_c_delay_import_failure       Of pe_c_next_delay_import
 *   pe_c_delayed_function_failure   Of pe_c_next_delayed_function
 *   pe_c_bound_import_failure       Of pe_c_next_bound_import, which takes the same `table`. ..
 *   pe_c_symbol_name_failure        Of pe_c_symbol_name, which takes the same
 * minidumps
 *   pe_c_dump                       Reads the header of a minidump, and tests that its directory is inside the bytes
 *   pe_c_dump_stream                Returns the range of the stream of a kind, that of the first entry of the kind, or ..
 *   pe_c_dump_text                  Returns the range of a string, in UTF-16LE without its final zero
 *   pe_c_dump_record                Reads the record with an index of the stream of a kind, PE_C_THREAD_LIST_STREAM and ..
 *   pe_c_dump_entry_at              Returns the entry of the directory with an index, or PE_C_NOTHING. Errors
 *   pe_c_dump_thread_at             Returns the thread with an index in the stream of threads, or PE_C_NOTHING. Errors
 *   pe_c_dump_module_at             The same of modules, which stand in no order
 *   pe_c_dump_thread_name_at        The same of names of threads
 *   pe_c_dump_unloaded_at           Returns the unloaded module with an index in their stream, or PE_C_NOTHING. Errors
 *   pe_c_dump_thread_info_at        The same of thread information
 *   pe_c_dump_handle_at             The same of handles
 *   pe_c_dump_region_at             The same of regions of memory
 *   pe_c_dump_memory_at             Returns the piece of memory with an index in PE_C_MEMORY_LIST_STREAM, or PE_C_NOTHING. ..
 *   pe_c_dump_exception             Reads the exception, by its stream
 *   pe_c_dump_system                Reads the system, by its stream
 *   pe_c_dump_process               Reads what is known of the process, by its stream
 *   pe_c_dump_memory64              Returns a walk over the pieces of memory of a full dump, by PE_C_MEMORY64_LIST_STREAM. ..
 *   pe_c_next_memory64              Returns the next piece of memory of a full dump
 *   pe_c_read_dump_context          Reads a context of a machine, 9 for x64 or 12 for ARM64, PROCESSOR_ARCHITECTURE_* ..
 *   pe_c_dump_context               Reads a context of x64
 *   pe_c_dump_context_arm64         The same of ARM64, whose contexts have 912 bytes
 *   pe_c_dump_thread_context        Reads the registers of a thread that count, on x64
 *   pe_c_dump_thread_context_arm64  The same of ARM64
 *   pe_c_is_image_of                Returns PE_C_DONE where an image is that of a module
 *   pe_c_memory_runs                Writes the memory of pieces in any order to `runs`, as pieces that ascend and do not ..
 *   pe_c_memory_ranges              Writes to `found`, for each of the ranges that are asked for, whose offset is an ..
 * program databases
 *   pe_c_pdb                        Reads what a PDB says of itself
 *   pe_c_is_pdb_of                  Returns PE_C_DONE where a PDB is that of an image with this key
 *   pe_c_pdb_starts                 Writes to the start of `room` where the directory lists the blocks of each stream
 *   pe_c_pdb_stream                 Copies the stream with a number to the start of `room`. `starts` is what ..
 *   pe_c_pdb_stream_range           Returns the range of the file that has the bytes of the stream with a number in their ..
 *   pe_c_list_pdb_modules           Lists the modules, and moves the walk past them
 *   pe_c_list_pdb_symbols           Lists the records of symbols, and moves the walk past them
 *   pe_c_pdb_index                  Makes an index of the symbols of a kind, PE_C_PDB_PUBLICS or PE_C_PDB_PROCEDURES, by ..
 *   pe_c_find_pdb_symbol            Finds the symbol of an RVA by an index that pe_c_pdb_index made of these bytes and ..
 *   pe_c_read_pdb_symbol            Finds the symbol of an RVA without an index
 *   pe_c_pdb_lines                  Makes an index of the lines of a module by their RVAs at the start of `room`, in ..
 *   pe_c_find_pdb_line              Finds the line of an RVA by an index that pe_c_pdb_lines made
 *   pe_c_read_pdb_line              Finds the line of an RVA without an index
 *   pe_c_pdb_files                  Returns the range of the source files of a module in its stream
 *   pe_c_pdb_file_name              Returns the range of the name of a source file in `names`, the bytes of the stream ..
 *   pe_c_pdb_moved_rva              Returns where the code at an RVA is by an OMAP table, whose bytes are those of its stream
 *   pe_c_pdb_module_ranges          Writes to the start of `room` which RVAs are of which module
 *   pe_c_pdb_ids                    Writes to the start of `room` where each record of the stream of ids starts, for ..
 *   pe_c_find_pdb_inlined           Writes the inlined functions whose code is at an RVA to the start of `room`, the ..
 *   pe_c_pdb_named_stream           Returns the number of the stream with a name, such as "/names", by the bytes of the ..
 */

#ifndef PE_C_H
#define PE_C_H

#if !defined(__cplusplus) && (!defined(__STDC_VERSION__) || __STDC_VERSION__ < 199901L)
#error "pe.h is C11, and compiles as C99: pass -std=c11, or /std:c11"
#endif

#include <stddef.h>
#include <stdint.h>

/* The version of this header, the archive, the file for pkg-config and the cargo crate. */
#define PE_C_VERSION "0.1.0"

/* What a compiler may know of calls: which arguments are never NULL, and that the result matters. */
#if defined(__GNUC__)
#define PE_C_NOT_NULL(...) __attribute__((nonnull(__VA_ARGS__)))
#define PE_C_RESULT(...) __attribute__((warn_unused_result, nonnull(__VA_ARGS__)))
#else
#define PE_C_NOT_NULL(...)
#define PE_C_RESULT(...)
#endif

#ifdef __cplusplus
extern "C" {
#define PE_C_SIZE(type, size) static_assert(sizeof(type) == size, #type)
#define PE_C_EMPTY {}
#else
#define PE_C_SIZE(type, size) _Static_assert(sizeof(type) == size, #type)
#define PE_C_EMPTY {0}
#endif

/* ---- the ABI
 *
 * The number of the ABI is in the name of this call, and grows with each change that breaks callers. A program refers to the name
 * from each file that includes pe.h, so it does not link with an archive of another ABI. Returns the number. */
uint32_t pe_c_abi_5(void);
#if defined(__GNUC__)
static uint32_t (*const pe_c_abi)(void) __attribute__((used)) = pe_c_abi_5;
#endif

/* ---- results
 *
 * The numbers are stable; new ones may be added. pe_c_message returns their texts. Calls return a uint32_t, since C leaves the
 * width of an enum open; debuggers show a number by its name where it is cast to this one. tools/make_errors writes it. */

enum pe_c_result {
    PE_C_DONE = 0,                  /* the call succeeded */
    PE_C_MEMORY = 1,                /* out of memory; never returned */
    PE_C_SHORT = 2,                 /* truncated */
    PE_C_BAD_MAGIC = 3,             /* invalid magic number */
    PE_C_HEADER_POINTER = 4,        /* PE header offset lies inside the DOS header; strict mode only */
    PE_C_IMPORT_NAME = 5,           /* import name not NUL-terminated or not UTF-8 */
    PE_C_STRING_TABLE = 6,          /* string table truncated, or string not NUL-terminated or not UTF-8 */
    PE_C_CERTIFICATE_REVISION = 7,  /* invalid certificate revision */
    PE_C_CERTIFICATE_TYPE = 8,      /* invalid certificate type */
    PE_C_CERTIFICATE_SIZE = 9,      /* certificate truncated */
    PE_C_CERTIFICATE_TABLE = 10,    /* certificate table ends past the end of the file */
    PE_C_UNMAPPED = 11,             /* RVA maps to no file offset */
    PE_C_DEBUG_BOUNDS = 12,         /* debug directory ends past the end of the file; strict mode only */
    PE_C_DEBUG_SIZE = 13,           /* debug record too small; strict mode only */
    PE_C_DEBUG_DATA = 14,           /* debug record truncated */
    PE_C_POGO_SIZE = 15,            /* POGO record has no entries */
    PE_C_POGO_NAME = 16,            /* POGO entry truncated */
    PE_C_EXCEPTION_SIZE = 17,       /* exception directory size is not a multiple of the entry size */
    PE_C_EXCEPTION_OFFSET = 18,     /* exception directory is not aligned to 4 bytes */
    PE_C_EXCEPTION_BOUNDS = 19,     /* exception directory ends past the end of the file */
    PE_C_FUNCTION_INDEX = 20,       /* function index out of range */
    PE_C_FUNCTION_LINK = 21,        /* link leads to no function entry */
    PE_C_FUNCTION_CYCLE = 22,       /* loop in unwind links or chained records */
    PE_C_UNWIND_VERSION = 23,       /* unknown unwind record version */
    PE_C_UNWIND_CODE = 24,          /* invalid unwind code */
    PE_C_ARM64_VERSION = 25,        /* unknown ARM64 unwind record version */
    PE_C_ARM64_STREAM = 26,         /* invalid ARM64 unwind code stream */
    PE_C_ARM64_CUT = 27,            /* ARM64 unwind code truncated */
    PE_C_RESOURCE_BOUNDS = 28,      /* resource data ends past the bytes that hold it */
    PE_C_RESOURCE_CYCLE = 29,       /* loop in the resource tree */
    PE_C_RESOURCE_STRING = 30,      /* version string value missing, or its length above 32,767 */
    PE_C_TE_SIZE = 31,              /* stripped size smaller than the TE header */
    PE_C_NO_OPTIONAL_HEADER = 32,   /* image has no optional header */
    PE_C_WRITE_ALIGNMENT = 33,      /* alignment cannot be written */
    PE_C_WRITE_SYMBOLS = 34,        /* images with COFF symbols cannot be written */
    PE_C_WRITE_OVERLAP = 35,        /* sections overlap in the file */
    PE_C_WRITE_SECTION = 36,        /* section data is not in the source bytes */
    PE_C_WRITE_FIT = 37,            /* write does not fit the buffer */
    PE_C_IMPORTS_LIMIT = 38,        /* image has more imports than the limit; never returned */
    PE_C_NOTHING = 100,             /* there is nothing of the kind, or the walk is over */
    PE_C_ROOM = 101,                /* the array is too small */
    PE_C_MISSING = 102,             /* eight bytes of memory are missing, at the frame's address */
    PE_C_BAD_ADDRESS = 103,         /* address and the offset of an unwind code do not fit 64 bits */
    PE_C_BAD_OPERATION = 104,       /* unwind operation cannot be undone */
    PE_C_NOT_RISING = 105,          /* stack pointer of the caller is not above that of the function */
    PE_C_LONG_CHAIN = 106,          /* more than 32 unwind records are chained */
    PE_C_OUT_OF_ORDER = 107,        /* pieces of memory overlap or do not ascend */
    PE_C_SIGN_NO_DIRECTORY = 201,   /* image has no certificate directory */
    PE_C_SIGN_TABLE_NOT_LAST = 202, /* certificate table ends before the end of the file */
    PE_C_SIGN_HEADERS = 203,        /* headers end after the start of the certificates or the end of the file */
    PE_C_SIGN_SECTION = 204,        /* section data ends after the start of the certificates or the end of the file */
    PE_C_SIGN_TABLE_OFFSET = 205,   /* certificate table is not aligned to 8 bytes */
    PE_C_SIGN_TOO_LARGE = 206,      /* image with the certificate has 2^32 bytes or more */
    PE_C_DIRECTORY_BLOCK_SIZE = 301, /* base relocation block size below 8 or odd */
    PE_C_DIRECTORY_BLOCK_TRUNCATED = 302, /* base relocation block truncated */
    PE_C_DIRECTORY_NO_ARGUMENT = 303, /* base relocation has no argument */
    PE_C_DIRECTORY_VA_BELOW_BASE = 304, /* virtual address below the image base */
    PE_C_DIRECTORY_CLR_HEADER_SIZE = 305, /* CLR header smaller than 72 bytes */
    PE_C_DIRECTORY_STREAM_NAME = 306, /* name of a metadata stream not NUL-terminated */
    PE_C_DIRECTORY_DELAY_IMPORT_NAME = 307, /* name of a delay import not NUL-terminated or not UTF-8 */
    PE_C_DIRECTORY_BOUND_IMPORT_NAME = 308, /* name of a bound import not NUL-terminated or not UTF-8 */
    PE_C_DIRECTORY_RELOCATION_KIND = 309, /* base relocation of a type that is not applied */
    PE_C_DIRECTORY_RELOCATION_OUTSIDE = 310, /* base relocation outside of the image */
    PE_C_TREE_NOT_DIRECTORY = 401,  /* resource data entry above the level of languages */
    PE_C_TREE_NOT_DATA = 402,       /* resource directory below the level of languages */
    PE_C_TREE_NO_ENTRIES = 403,     /* resource directory of names or languages has no entries */
    PE_C_EDIT_TOO_MANY = 451,       /* more than 65,535 resources */
    PE_C_EDIT_NAME = 452,           /* type or name of a resource has an odd number of bytes or is too long */
    PE_C_EDIT_ORDER = 453,          /* resource is not sorted after the one before it */
    PE_C_EDIT_TABLES_TOO_LARGE = 454, /* directories and names of the resources have 2^31 bytes or more */
    PE_C_EDIT_TOO_LARGE = 455,      /* resource section ends at the RVA 2^32 or after it */
    PE_C_EDIT_NO_DIRECTORY = 456,   /* image has no resource directory */
    PE_C_EDIT_SIGNED = 457,         /* image has certificates, which have to be detached first */
    PE_C_EDIT_HEADERS = 458,        /* data directories end after the section table starts */
    PE_C_EDIT_ALIGNMENT = 459,      /* alignment of sections or of their data is too small or no power of two */
    PE_C_EDIT_NO_SECTION = 460,     /* no section starts at the RVA of the resource directory */
    PE_C_EDIT_SECTION = 461,        /* data of the sections are in the headers, truncated or not aligned */
    PE_C_EDIT_SHARED_SECTION = 462, /* the entry point, a directory or a base relocation leads where the resources go */
    PE_C_EDIT_SYMBOLS = 463,        /* COFF symbols lie in the data of the resource section or at its end */
    PE_C_EDIT_OVERLAP = 464,        /* section shares bytes or pages with the resource section or headers, or is after it */
    PE_C_EDIT_NO_ROOM = 465,        /* resources do not fit into the data of their section or into the image in memory */
    PE_C_EDIT_RECORD = 466,         /* resource has a range outside of the array, or an id or language above 65,535 */
    PE_C_EDIT_NAMES = 467,          /* names of the resources have more than 16 MiB */
    PE_C_BLOCK_KEY = 468,           /* key of a version block has an odd number of bytes, or a code unit of zero */
    PE_C_BLOCK_TEXT = 469,          /* text of a version block has an odd number of bytes */
    PE_C_BLOCK_TOO_LONG = 470,      /* version block has more than 65,535 bytes */
    PE_C_EDIT_NO_HEADER_ROOM = 471, /* headers have no room for another section header */
    PE_C_EDIT_IMAGE_TOO_LARGE = 472, /* image with the resources ends after 4 GB */
    PE_C_EDIT_DEBUG_DATA = 473,     /* debug entries or their data lie where the resources go */
    PE_C_EDIT_CONTENTS = 474,       /* contents of the resources, which share bytes, are too large for their array */
    PE_C_SIGNATURE_TRUNCATED = 501, /* element of a signature truncated before its content */
    PE_C_SIGNATURE_TAG_NUMBER = 502, /* element of a signature has a tag number above 30 */
    PE_C_SIGNATURE_INDEFINITE_LENGTH = 503, /* element of a signature has an indefinite length */
    PE_C_SIGNATURE_LENGTH_OCTETS = 504, /* length of an element of a signature has more than 4 octets after its first */
    PE_C_SIGNATURE_LENGTH_FORM = 505, /* length of an element of a signature is not in its shortest form */
    PE_C_SIGNATURE_PAST_PARENT = 506, /* element of a signature ends after its parent */
    PE_C_SIGNATURE_MISSING = 507,   /* element of a signature is missing */
    PE_C_SIGNATURE_TAG = 508,       /* element of a signature has another tag */
    PE_C_SIGNATURE_TRAILING = 509,  /* bytes follow the last field of an element of a signature */
    PE_C_SIGNATURE_CONTENT_TYPE = 510, /* content of a signature has another type */
    PE_C_SIGNATURE_BAD_TIME = 511,  /* time of a signature is not in the form of RFC 5280 */
    PE_C_SIGNATURE_END_OF_CONTENTS = 512, /* element of a signature is an end of contents, which DER does not have */
    PE_C_SIGNATURE_EMPTY_CONTENT = 513, /* element of a signature has no content, which its type does not allow */
    PE_C_DUMP_SIGNATURE = 551,      /* invalid signature of a minidump */
    PE_C_DUMP_VERSION = 552,        /* invalid version of a minidump */
    PE_C_DUMP_DIRECTORY = 553,      /* directory of the streams ends past the end of the file */
    PE_C_DUMP_LOCATION = 554,       /* location in a minidump ends past the end of the file */
    PE_C_DUMP_LIST_SIZE = 555,      /* number of entries of a list and the size of its stream do not agree */
    PE_C_DUMP_ENTRY_SIZE = 556,     /* entries of a list smaller than their fields */
    PE_C_DUMP_TEXT = 557,           /* string has an odd number of bytes */
    PE_C_DUMP_CONTEXT_SIZE = 558,   /* context smaller than its fields */
    PE_C_DUMP_CONTEXT_FLAGS = 559,  /* context without control or integer registers */
    PE_C_DUMP_MACHINE = 560,        /* context of another machine */
    PE_C_PDB20 = 601,               /* a PDB 2.0, which has another layout */
    PE_C_PDB_PORTABLE = 602,        /* a portable PDB of .NET, which has another layout */
    PE_C_PDB_MAGIC = 603,           /* not a PDB 7.0 */
    PE_C_PDB_BLOCK_SIZE = 604,      /* invalid block size of a PDB */
    PE_C_PDB_FILE_SIZE = 605,       /* blocks of a PDB end past the end of the file */
    PE_C_PDB_BLOCK_MAP = 606,       /* directory of a PDB larger than the file, or than its superblock can list */
    PE_C_PDB_BLOCK = 607,           /* block of a PDB lies outside of the file */
    PE_C_PDB_DIRECTORY = 608,       /* directory of a PDB too short for its streams */
    PE_C_PDB_NO_STREAM = 609,       /* PDB has no stream with this number */
    PE_C_PDB_STREAM_SIZE = 610,     /* stream of a PDB has more blocks than the file */
    PE_C_PDB_OUTSIDE = 611,         /* read past the end of a stream of a PDB */
    PE_C_PDB_INFO_VERSION = 612,    /* unknown version of the info stream of a PDB */
    PE_C_PDB_DBI_SIGNATURE = 613,   /* DBI stream of a PDB does not start with -1 */
    PE_C_PDB_DBI_VERSION = 614,     /* unknown version of the DBI stream of a PDB */
    PE_C_PDB_DBI_PARTS = 615,       /* parts of the DBI stream of a PDB end past its end */
    PE_C_PDB_SECTION_HEADERS = 616, /* section headers of a PDB are not a multiple of 40 bytes */
    PE_C_PDB_RECORD_SIZE = 617,     /* record of a symbol smaller than its kind */
    PE_C_PDB_RECORD_TRUNCATED = 618, /* record of a PDB ends past the end of its bytes */
    PE_C_PDB_NAME = 619,            /* name in a PDB not NUL-terminated or not UTF-8 */
    PE_C_PDB_MODULE_SYMBOLS = 620,  /* symbols of a module end past the end of its stream */
    PE_C_PDB_MODULE_SIGNATURE = 621, /* stream of a module does not start with 4 */
    PE_C_PDB_SYMBOLS_SIZE = 622,    /* records of a PDB have 4 GB or more */
    PE_C_PDB_NAMES_SIGNATURE = 623, /* names of the source files of a PDB do not start with 0xEFFEEFFE */
    PE_C_PDB_CONTRIBUTIONS_VERSION = 624, /* unknown version of the section contributions of a PDB */
    PE_C_PDB_CONTRIBUTIONS_SIZE = 625, /* section contributions of a PDB are not a multiple of their size */
    PE_C_PDB_ANNOTATION = 626,      /* annotation of an inlined function truncated or not known */
    PE_C_PDB_INLINE_DEPTH = 627,    /* more than 64 inlined functions at one offset of a procedure */
};

/* Modes. PE_C_MAPPED is added to one of the others, or stands for PE_C_STRICT | PE_C_MAPPED. */
enum {
    PE_C_STRICT = 0,
    PE_C_PERMISSIVE = 1,            /* accepts what the head of pe.h lists; a mode without it is strict */
    PE_C_MAPPED = 2                 /* added to a mode: the bytes are an image as loaded */
};

/* Writes the text of a result to the start of the array, in UTF-8, with a zero after it; where the array is too small as
 * much of it as has room before the zero. Returns the length of the whole text in bytes, which is below 128.
 *
 *     char text[128];
 *     pe_c_text(result, text, sizeof text);
 *     printf("%s\n", text); */
size_t pe_c_text(uint32_t number, char *room, size_t length);

/* Returns the text of a result, that of pe_c_text, as a string constant: below 128 bytes, in ASCII, with a zero after it. The
 * pointer is valid for as long as the program runs, in every thread; nothing frees it.
 *
 *     fprintf(stderr, "%s\n", pe_c_message(result));
 *
 * It is a function of this header and no call of the library: a result that only a newer library has is "unknown result", as
 * is a number that no call returns. tools/make_errors writes its texts. */
static inline const char *pe_c_message(uint32_t number)
{
    switch (number) {
    case PE_C_DONE: return "done";
    case PE_C_MEMORY: return "out of memory";
    case PE_C_SHORT: return "truncated";
    case PE_C_BAD_MAGIC: return "invalid magic number";
    case PE_C_HEADER_POINTER: return "PE header offset lies inside the DOS header";
    case PE_C_IMPORT_NAME: return "import name not NUL-terminated or not UTF-8";
    case PE_C_STRING_TABLE: return "string table truncated, or string not NUL-terminated or not UTF-8";
    case PE_C_CERTIFICATE_REVISION: return "invalid certificate revision";
    case PE_C_CERTIFICATE_TYPE: return "invalid certificate type";
    case PE_C_CERTIFICATE_SIZE: return "certificate truncated";
    case PE_C_CERTIFICATE_TABLE: return "certificate table ends past the end of the file";
    case PE_C_UNMAPPED: return "RVA maps to no file offset";
    case PE_C_DEBUG_BOUNDS: return "debug directory ends past the end of the file";
    case PE_C_DEBUG_SIZE: return "debug record too small";
    case PE_C_DEBUG_DATA: return "debug record truncated";
    case PE_C_POGO_SIZE: return "POGO record has no entries";
    case PE_C_POGO_NAME: return "POGO entry truncated";
    case PE_C_EXCEPTION_SIZE: return "exception directory size is not a multiple of the entry size";
    case PE_C_EXCEPTION_OFFSET: return "exception directory is not aligned to 4 bytes";
    case PE_C_EXCEPTION_BOUNDS: return "exception directory ends past the end of the file";
    case PE_C_FUNCTION_INDEX: return "function index out of range";
    case PE_C_FUNCTION_LINK: return "link leads to no function entry";
    case PE_C_FUNCTION_CYCLE: return "loop in unwind links or chained records";
    case PE_C_UNWIND_VERSION: return "unknown unwind record version";
    case PE_C_UNWIND_CODE: return "invalid unwind code";
    case PE_C_ARM64_VERSION: return "unknown ARM64 unwind record version";
    case PE_C_ARM64_STREAM: return "invalid ARM64 unwind code stream";
    case PE_C_ARM64_CUT: return "ARM64 unwind code truncated";
    case PE_C_RESOURCE_BOUNDS: return "resource data ends past the bytes that hold it";
    case PE_C_RESOURCE_CYCLE: return "loop in the resource tree";
    case PE_C_RESOURCE_STRING: return "version string value missing, or its length above 32,767";
    case PE_C_TE_SIZE: return "stripped size smaller than the TE header";
    case PE_C_NO_OPTIONAL_HEADER: return "image has no optional header";
    case PE_C_WRITE_ALIGNMENT: return "alignment cannot be written";
    case PE_C_WRITE_SYMBOLS: return "images with COFF symbols cannot be written";
    case PE_C_WRITE_OVERLAP: return "sections overlap in the file";
    case PE_C_WRITE_SECTION: return "section data is not in the source bytes";
    case PE_C_WRITE_FIT: return "write does not fit the buffer";
    case PE_C_IMPORTS_LIMIT: return "image has more imports than the limit";
    case PE_C_NOTHING: return "there is nothing of the kind";
    case PE_C_ROOM: return "the array is too small";
    case PE_C_MISSING: return "memory is missing";
    case PE_C_BAD_ADDRESS: return "address and the offset of an unwind code do not fit 64 bits";
    case PE_C_BAD_OPERATION: return "unwind operation cannot be undone";
    case PE_C_NOT_RISING: return "stack pointer of the caller is not above that of the function";
    case PE_C_LONG_CHAIN: return "more than 32 unwind records are chained";
    case PE_C_OUT_OF_ORDER: return "pieces of memory overlap or do not ascend";
    case PE_C_SIGN_NO_DIRECTORY: return "image has no certificate directory";
    case PE_C_SIGN_TABLE_NOT_LAST: return "certificate table ends before the end of the file";
    case PE_C_SIGN_HEADERS: return "headers end after the start of the certificates or the end of the file";
    case PE_C_SIGN_SECTION: return "section data ends after the start of the certificates or the end of the file";
    case PE_C_SIGN_TABLE_OFFSET: return "certificate table is not aligned to 8 bytes";
    case PE_C_SIGN_TOO_LARGE: return "image with the certificate has 2^32 bytes or more";
    case PE_C_DIRECTORY_BLOCK_SIZE: return "base relocation block size below 8 or odd";
    case PE_C_DIRECTORY_BLOCK_TRUNCATED: return "base relocation block truncated";
    case PE_C_DIRECTORY_NO_ARGUMENT: return "base relocation has no argument";
    case PE_C_DIRECTORY_VA_BELOW_BASE: return "virtual address below the image base";
    case PE_C_DIRECTORY_CLR_HEADER_SIZE: return "CLR header smaller than 72 bytes";
    case PE_C_DIRECTORY_STREAM_NAME: return "name of a metadata stream not NUL-terminated";
    case PE_C_DIRECTORY_DELAY_IMPORT_NAME: return "name of a delay import not NUL-terminated or not UTF-8";
    case PE_C_DIRECTORY_BOUND_IMPORT_NAME: return "name of a bound import not NUL-terminated or not UTF-8";
    case PE_C_DIRECTORY_RELOCATION_KIND: return "base relocation of a type that is not applied";
    case PE_C_DIRECTORY_RELOCATION_OUTSIDE: return "base relocation outside of the image";
    case PE_C_TREE_NOT_DIRECTORY: return "resource data entry above the level of languages";
    case PE_C_TREE_NOT_DATA: return "resource directory below the level of languages";
    case PE_C_TREE_NO_ENTRIES: return "resource directory of names or languages has no entries";
    case PE_C_EDIT_TOO_MANY: return "more than 65,535 resources";
    case PE_C_EDIT_NAME: return "type or name of a resource has an odd number of bytes or is too long";
    case PE_C_EDIT_ORDER: return "resource is not sorted after the one before it";
    case PE_C_EDIT_TABLES_TOO_LARGE: return "directories and names of the resources have 2^31 bytes or more";
    case PE_C_EDIT_TOO_LARGE: return "resource section ends at the RVA 2^32 or after it";
    case PE_C_EDIT_NO_DIRECTORY: return "image has no resource directory";
    case PE_C_EDIT_SIGNED: return "image has certificates, which have to be detached first";
    case PE_C_EDIT_HEADERS: return "data directories end after the section table starts";
    case PE_C_EDIT_ALIGNMENT: return "alignment of sections or of their data is too small or no power of two";
    case PE_C_EDIT_NO_SECTION: return "no section starts at the RVA of the resource directory";
    case PE_C_EDIT_SECTION: return "data of the sections are in the headers, truncated or not aligned";
    case PE_C_EDIT_SHARED_SECTION: return "the entry point, a directory or a base relocation leads where the resources go";
    case PE_C_EDIT_SYMBOLS: return "COFF symbols lie in the data of the resource section or at its end";
    case PE_C_EDIT_OVERLAP: return "section shares bytes or pages with the resource section or headers, or is after it";
    case PE_C_EDIT_NO_ROOM: return "resources do not fit into the data of their section or into the image in memory";
    case PE_C_EDIT_RECORD: return "resource has a range outside of the array, or an id or language above 65,535";
    case PE_C_EDIT_NAMES: return "names of the resources have more than 16 MiB";
    case PE_C_BLOCK_KEY: return "key of a version block has an odd number of bytes, or a code unit of zero";
    case PE_C_BLOCK_TEXT: return "text of a version block has an odd number of bytes";
    case PE_C_BLOCK_TOO_LONG: return "version block has more than 65,535 bytes";
    case PE_C_EDIT_NO_HEADER_ROOM: return "headers have no room for another section header";
    case PE_C_EDIT_IMAGE_TOO_LARGE: return "image with the resources ends after 4 GB";
    case PE_C_EDIT_DEBUG_DATA: return "debug entries or their data lie where the resources go";
    case PE_C_EDIT_CONTENTS: return "contents of the resources, which share bytes, are too large for their array";
    case PE_C_SIGNATURE_TRUNCATED: return "element of a signature truncated before its content";
    case PE_C_SIGNATURE_TAG_NUMBER: return "element of a signature has a tag number above 30";
    case PE_C_SIGNATURE_INDEFINITE_LENGTH: return "element of a signature has an indefinite length";
    case PE_C_SIGNATURE_LENGTH_OCTETS: return "length of an element of a signature has more than 4 octets after its first";
    case PE_C_SIGNATURE_LENGTH_FORM: return "length of an element of a signature is not in its shortest form";
    case PE_C_SIGNATURE_PAST_PARENT: return "element of a signature ends after its parent";
    case PE_C_SIGNATURE_MISSING: return "element of a signature is missing";
    case PE_C_SIGNATURE_TAG: return "element of a signature has another tag";
    case PE_C_SIGNATURE_TRAILING: return "bytes follow the last field of an element of a signature";
    case PE_C_SIGNATURE_CONTENT_TYPE: return "content of a signature has another type";
    case PE_C_SIGNATURE_BAD_TIME: return "time of a signature is not in the form of RFC 5280";
    case PE_C_SIGNATURE_END_OF_CONTENTS: return "element of a signature is an end of contents, which DER does not have";
    case PE_C_SIGNATURE_EMPTY_CONTENT: return "element of a signature has no content, which its type does not allow";
    case PE_C_DUMP_SIGNATURE: return "invalid signature of a minidump";
    case PE_C_DUMP_VERSION: return "invalid version of a minidump";
    case PE_C_DUMP_DIRECTORY: return "directory of the streams ends past the end of the file";
    case PE_C_DUMP_LOCATION: return "location in a minidump ends past the end of the file";
    case PE_C_DUMP_LIST_SIZE: return "number of entries of a list and the size of its stream do not agree";
    case PE_C_DUMP_ENTRY_SIZE: return "entries of a list smaller than their fields";
    case PE_C_DUMP_TEXT: return "string has an odd number of bytes";
    case PE_C_DUMP_CONTEXT_SIZE: return "context smaller than its fields";
    case PE_C_DUMP_CONTEXT_FLAGS: return "context without control or integer registers";
    case PE_C_DUMP_MACHINE: return "context of another machine";
    case PE_C_PDB20: return "a PDB 2.0, which has another layout";
    case PE_C_PDB_PORTABLE: return "a portable PDB of .NET, which has another layout";
    case PE_C_PDB_MAGIC: return "not a PDB 7.0";
    case PE_C_PDB_BLOCK_SIZE: return "invalid block size of a PDB";
    case PE_C_PDB_FILE_SIZE: return "blocks of a PDB end past the end of the file";
    case PE_C_PDB_BLOCK_MAP: return "directory of a PDB larger than the file, or than its superblock can list";
    case PE_C_PDB_BLOCK: return "block of a PDB lies outside of the file";
    case PE_C_PDB_DIRECTORY: return "directory of a PDB too short for its streams";
    case PE_C_PDB_NO_STREAM: return "PDB has no stream with this number";
    case PE_C_PDB_STREAM_SIZE: return "stream of a PDB has more blocks than the file";
    case PE_C_PDB_OUTSIDE: return "read past the end of a stream of a PDB";
    case PE_C_PDB_INFO_VERSION: return "unknown version of the info stream of a PDB";
    case PE_C_PDB_DBI_SIGNATURE: return "DBI stream of a PDB does not start with -1";
    case PE_C_PDB_DBI_VERSION: return "unknown version of the DBI stream of a PDB";
    case PE_C_PDB_DBI_PARTS: return "parts of the DBI stream of a PDB end past its end";
    case PE_C_PDB_SECTION_HEADERS: return "section headers of a PDB are not a multiple of 40 bytes";
    case PE_C_PDB_RECORD_SIZE: return "record of a symbol smaller than its kind";
    case PE_C_PDB_RECORD_TRUNCATED: return "record of a PDB ends past the end of its bytes";
    case PE_C_PDB_NAME: return "name in a PDB not NUL-terminated or not UTF-8";
    case PE_C_PDB_MODULE_SYMBOLS: return "symbols of a module end past the end of its stream";
    case PE_C_PDB_MODULE_SIGNATURE: return "stream of a module does not start with 4";
    case PE_C_PDB_SYMBOLS_SIZE: return "records of a PDB have 4 GB or more";
    case PE_C_PDB_NAMES_SIGNATURE: return "names of the source files of a PDB do not start with 0xEFFEEFFE";
    case PE_C_PDB_CONTRIBUTIONS_VERSION: return "unknown version of the section contributions of a PDB";
    case PE_C_PDB_CONTRIBUTIONS_SIZE: return "section contributions of a PDB are not a multiple of their size";
    case PE_C_PDB_ANNOTATION: return "annotation of an inlined function truncated or not known";
    case PE_C_PDB_INLINE_DEPTH: return "more than 64 inlined functions at one offset of a procedure";
    default: return "unknown result";
    }
}

/* ---- the image
 *
 * An image starts with the DOS header, whose last field is the file offset of the PE header. That has the COFF header,
 * the optional header with the data directories, and the section headers, which map RVAs to file offsets.
 * https://learn.microsoft.com/windows/win32/debug/pe-format */

/* A range of the bytes of the image. */
typedef struct {
    uint64_t offset;                /* from the start of the bytes */
    uint64_t length;                /* bytes */
} pe_c_range;

/* A data directory. Both fields are 0 where it is absent. */
typedef struct {
    uint32_t virtual_address;       /* RVA; of the certificate table a file offset */
    uint32_t size;                  /* bytes */
} pe_c_directory;

/* The indices of directories, IMAGE_DIRECTORY_ENTRY_ of winnt.h. The last of the 16 is reserved. */
enum {
    PE_C_DIRECTORY_EXPORT = 0,
    PE_C_DIRECTORY_IMPORT = 1,
    PE_C_DIRECTORY_RESOURCE = 2,
    PE_C_DIRECTORY_EXCEPTION = 3,   /* the function table */
    PE_C_DIRECTORY_SECURITY = 4,    /* the certificate table: its virtual_address is a file offset, not an RVA */
    PE_C_DIRECTORY_BASERELOC = 5,
    PE_C_DIRECTORY_DEBUG = 6,
    PE_C_DIRECTORY_ARCHITECTURE = 7,
    PE_C_DIRECTORY_GLOBALPTR = 8,
    PE_C_DIRECTORY_TLS = 9,
    PE_C_DIRECTORY_LOAD_CONFIG = 10,
    PE_C_DIRECTORY_BOUND_IMPORT = 11,
    PE_C_DIRECTORY_IAT = 12,
    PE_C_DIRECTORY_DELAY_IMPORT = 13,
    PE_C_DIRECTORY_COM_DESCRIPTOR = 14
};

/* The headers of an image. Without an optional header the numbers that it has are 0, and its directories are absent. */
typedef struct {
    uint64_t base;                  /* ImageBase, the preferred virtual address of the image; add RVAs to it */
    uint64_t sections_offset;       /* offset of the section headers */
    uint64_t checksum_offset;       /* offset of the field CheckSum, 4 bytes; 0 without an optional header */
    uint64_t certificate_entry_offset;  /* offset of directory PE_C_DIRECTORY_SECURITY, 8 bytes; 0 without that entry */
    uint32_t entry;                 /* RVA of the entry point */
    uint32_t file_alignment;        /* bytes; a power of two, or no RVA of a file is mapped */
    uint32_t mode;                  /* how the image is read: PE_C_PERMISSIVE, PE_C_MAPPED, both or 0, that of the
                                       call of pe_c_image. A caller may change it */
    uint32_t section_alignment;     /* bytes: sections start at multiples of it in memory */
    uint32_t size_of_image;         /* bytes of the image in memory */
    uint32_t size_of_headers;       /* bytes of the headers in the file, rounded up to the file alignment */
    uint32_t checksum;              /* CheckSum, as the file has it; 0 in most that are no drivers */
    uint32_t time_date_stamp;       /* seconds since 1970, or a hash in a reproducible build */
    uint32_t number_of_directories; /* those that the optional header has, at most 16; the others are absent */
    pe_c_directory directories[16]; /* by their indices, PE_C_DIRECTORY_EXPORT and so on */
    uint16_t machine;               /* IMAGE_FILE_MACHINE_AMD64 0x8664, _ARM64 0xAA64, _I386 0x14C, or another */
    uint16_t width;                 /* 64 for PE32+, 32 for PE32, 0 without an optional header */
    uint16_t number_of_sections;    /* the number of section headers */
    uint16_t characteristics;       /* IMAGE_FILE_ flags; IMAGE_FILE_DLL 0x2000 */
    uint16_t subsystem;             /* IMAGE_SUBSYSTEM_: 1 native, 2 Windows GUI, 3 Windows console, 10 EFI, or another */
    uint16_t dll_characteristics;   /* IMAGE_DLLCHARACTERISTICS_ flags */
} pe_c_image_info;

/* A section header, IMAGE_SECTION_HEADER. */
typedef struct {
    uint8_t name[8];                /* padded with zeros; a name of 8 bytes is not NUL-terminated */
    uint32_t virtual_size;          /* bytes in memory */
    uint32_t virtual_address;       /* RVA of its first byte */
    uint32_t size_of_raw_data;      /* bytes in the file */
    uint32_t pointer_to_raw_data;   /* file offset of its first byte */
    uint32_t pointer_to_relocations;    /* file offset; 0 in images */
    uint32_t pointer_to_linenumbers;    /* file offset, or 0 */
    uint16_t number_of_relocations; /* 0 in images */
    uint16_t number_of_linenumbers; /* the number of COFF line numbers */
    uint32_t characteristics;       /* IMAGE_SCN_ flags */
} pe_c_section;

PE_C_SIZE(pe_c_range, 16);
PE_C_SIZE(pe_c_directory, 8);
PE_C_SIZE(pe_c_image_info, 208);
PE_C_SIZE(pe_c_section, 40);

/* An entry of an index of the sections, which pe_c_index makes, or of pieces of memory, which pe_c_memory_runs makes on the way:
 * the RVAs or addresses from `start` up to the start of the next entry. */
typedef struct {
    uint64_t start;                 /* the first one */
    uint64_t number;                /* index of the section or piece that has them, plus 1; 0 where none does */
} pe_c_range_entry;

/* An image as calls take it: its bytes, what pe_c_image and pe_c_sections returned of them, and an index of the sections or
 * none. A caller makes one view and passes it to all calls. Digests, certificates, edits, the string table and bound imports
 * need no sections: of these the view may have none. */
typedef struct {
    const uint8_t *bytes;           /* the bytes of the image */
    size_t length;                  /* of the bytes */
    const pe_c_image_info *image;   /* its headers, which say how it is read; not NULL */
    const pe_c_section *sections;   /* its section headers */
    size_t count;                   /* of the sections */
    const pe_c_range_entry *index;  /* what pe_c_index made of these sections; NULL for no index */
    size_t entries;                 /* of the index; 0 for no index, and then calls test the sections in turn */
} pe_c_view;

/* The sections of the last RVAs of a walk, which calls over exports, imports, delay imports, resources and the records of a
 * plan test before the others: the RVAs of a table mostly lie in one section or two. `kept` of such a walk is all 0 at the
 * start, and only these calls read and write it. Where a caller changes it and sections overlap, they may return an offset by
 * another section, and no other harm is done; a number past the last section maps nothing. */
typedef struct {
    uint32_t first;                 /* index of a section plus 1; 0 for none, as at the start of a walk; 0xFFFFFFFF for none,
                                       and the walk keeps no more, where that of an RVA may share some with an earlier one */
    uint32_t second;                /* the same of the one that was kept before it */
} pe_c_kept_sections;

PE_C_SIZE(pe_c_range_entry, 16);
PE_C_SIZE(pe_c_view, 56);
PE_C_SIZE(pe_c_kept_sections, 8);

/* Reads the headers of an image, which are at the same offsets in a file and in memory.
 * Errors: PE_C_SHORT, PE_C_BAD_MAGIC of the DOS header; PE_C_HEADER_POINTER in strict mode; PE_C_SHORT, PE_C_BAD_MAGIC of
 * the PE signature; PE_C_SHORT of the COFF header; PE_C_SHORT, PE_C_BAD_MAGIC of the optional header; PE_C_SHORT of its
 * fields and directories. */
uint32_t pe_c_image(const uint8_t *bytes, size_t length, uint32_t mode, pe_c_image_info *out) PE_C_RESULT(4);

/* Writes the section headers to the start of the array, image->number_of_sections of them, from image->sections_offset on; of
 * `image` nothing else is read, so it reads those of an object too. The rest of the array is unchanged, and all of it after an
 * error.
 * Errors: PE_C_ROOM where the array has fewer entries; PE_C_SHORT where the section headers are truncated. */
uint32_t pe_c_sections(const uint8_t *bytes, size_t length, const pe_c_image_info *image, pe_c_section *room,
                       size_t entries) PE_C_RESULT(3);

/* Returns the file offset of an RVA, by the first section that covers it; in an image as loaded the RVA itself. The bytes
 * are not read, and the offset may be past their end. PE_C_NOTHING where no section covers the RVA, or the file alignment is
 * not a power of two.
 * A section's data start at its raw pointer rounded down to a multiple of 512. Of a file whose alignment is below 512, as
 * iPXE's, every call that maps RVAs so finds other offsets than a reader that does not round. */
uint32_t pe_c_offset(const pe_c_view *view, uint32_t rva, uint64_t *out) PE_C_RESULT(1, 3);

/* ---- all numbers of the headers
 *
 * pe_c_image reads of them what other calls take; this call reads all. Fields have the names of winnt.h, without
 * abbreviations. */

/* IMAGE_DOS_HEADER, in its layout. Windows reads the first field and the last alone. */
typedef struct {
    uint16_t signature;             /* e_magic: 0x5A4D, "MZ" */
    uint16_t bytes_on_last_page;    /* e_cblp */
    uint16_t pages_in_file;         /* e_cp: of 512 bytes */
    uint16_t relocations;           /* e_crlc: how many */
    uint16_t size_of_header_in_paragraphs;  /* e_cparhdr: of 16 bytes */
    uint16_t minimum_extra_paragraphs;  /* e_minalloc */
    uint16_t maximum_extra_paragraphs;  /* e_maxalloc */
    uint16_t initial_relative_ss;   /* e_ss */
    uint16_t initial_sp;            /* e_sp */
    uint16_t checksum;              /* e_csum */
    uint16_t initial_ip;            /* e_ip */
    uint16_t initial_relative_cs;   /* e_cs */
    uint16_t relocations_offset;    /* e_lfarlc: file offset of the relocations */
    uint16_t overlay_number;        /* e_ovno */
    uint16_t reserved[4];           /* e_res */
    uint16_t oem_id;                /* e_oemid */
    uint16_t oem_information;       /* e_oeminfo */
    uint16_t reserved2[10];         /* e_res2 */
    uint32_t pe_pointer;            /* e_lfanew: file offset of the PE signature */
} pe_c_dos_header;

/* IMAGE_FILE_HEADER. */
typedef struct {
    uint32_t time_date_stamp;       /* seconds since 1970, or a hash in a reproducible build */
    uint32_t pointer_to_symbol_table;   /* file offset of the COFF symbols, or 0 */
    uint32_t number_of_symbol_table;    /* their entries of 18 bytes, auxiliary records included */
    uint16_t machine;               /* IMAGE_FILE_MACHINE_ */
    uint16_t number_of_sections;    /* the number of section headers */
    uint16_t size_of_optional_header;   /* bytes; 0 where there is no optional header */
    uint16_t characteristics;       /* IMAGE_FILE_ flags */
} pe_c_coff_header;

/* IMAGE_OPTIONAL_HEADER32 or IMAGE_OPTIONAL_HEADER64. */
typedef struct {
    uint64_t image_base;            /* preferred virtual address of the image */
    uint64_t size_of_stack_reserve; /* bytes of the stack to reserve */
    uint64_t size_of_stack_commit;  /* bytes of the stack to commit */
    uint64_t size_of_heap_reserve;  /* bytes of the heap to reserve */
    uint64_t size_of_heap_commit;   /* bytes of the heap to commit */
    uint32_t size_of_code;          /* bytes of all sections of code */
    uint32_t size_of_initialized_data;  /* bytes of all sections of initialized data */
    uint32_t size_of_uninitialized_data;  /* bytes of all sections of uninitialized data */
    uint32_t address_of_entry_point;    /* RVA, or 0 */
    uint32_t base_of_code;          /* RVA */
    uint32_t base_of_data;          /* RVA; 0 in PE32+, which has no such field */
    uint32_t section_alignment;     /* bytes */
    uint32_t file_alignment;        /* bytes */
    uint32_t win32_version_value;   /* reserved */
    uint32_t size_of_image;         /* bytes in memory */
    uint32_t size_of_headers;       /* bytes in the file, rounded up to the file alignment */
    uint32_t check_sum;             /* `CheckSum`, as the file has it */
    uint32_t loader_flags;          /* reserved */
    uint32_t number_of_rva_and_sizes;   /* directories, as the header says */
    uint32_t number_of_directories; /* those of them that are kept, at most 16 */
    uint16_t magic;                 /* 0x10B in PE32, 0x20B in PE32+ */
    uint16_t major_operating_system_version;  /* the major version of the operating system that is required */
    uint16_t minor_operating_system_version;  /* the minor version of the operating system that is required */
    uint16_t major_image_version;   /* the major version of the image */
    uint16_t minor_image_version;   /* the minor version of the image */
    uint16_t major_subsystem_version;  /* the major version of the subsystem */
    uint16_t minor_subsystem_version;  /* the minor version of the subsystem */
    uint16_t subsystem;             /* IMAGE_SUBSYSTEM_ */
    uint16_t dll_characteristics;   /* IMAGE_DLLCHARACTERISTICS_ flags */
    uint8_t major_linker_version;   /* the major version of the linker */
    uint8_t minor_linker_version;   /* the minor version of the linker */
} pe_c_optional_header;

/* All numbers of the headers of an image. Without an optional header its numbers and both offsets are 0, and all directories are
 * absent. */
typedef struct {
    pe_c_optional_header optional;  /* the optional header */
    pe_c_range dos_stub;            /* between the DOS header and the PE signature; no bytes where these overlap */
    uint64_t optional_offset;       /* offset of the optional header */
    uint64_t directories_offset;    /* offset of the data directories, 8 bytes each */
    pe_c_dos_header dos;            /* the DOS header */
    pe_c_coff_header coff;          /* the COFF header */
    uint32_t signature;             /* 0x4550, "PE" */
    pe_c_directory directories[16]; /* by their indices; absent from number_of_directories on */
} pe_c_headers_info;

PE_C_SIZE(pe_c_dos_header, 64);
PE_C_SIZE(pe_c_coff_header, 20);
PE_C_SIZE(pe_c_optional_header, 120);
PE_C_SIZE(pe_c_headers_info, 368);

/* Reads all numbers of the headers of an image, which are at the same offsets in a file and in memory.
 * Errors are those of pe_c_image. */
uint32_t pe_c_headers(const uint8_t *bytes, size_t length, uint32_t mode, pe_c_headers_info *out) PE_C_RESULT(4);

/* ---- the section map, section by section */

/* Makes an index of the sections at the start of the array, and writes how many entries it has: two for each section.
 * The array has to have four for each, of which the second half is left open; what follows is unchanged. Calls that take
 * a view with these entries return what they return without them, and map each RVA by it: in steps that grow with the
 * logarithm of the number of sections, not with that number itself: 65,535 in a hostile file. So do steps and walks of
 * stacks, with scans. What maps no RVA still looks at all of them: pe_c_rva, which maps an offset, pe_c_overlay and the
 * lists of their names. Few calls, and images with few sections, as most, gain nothing by it. No entries, and PE_C_DONE,
 * where no section is searched: in an image as loaded, and where the file alignment is not a power of two. An index in
 * the view that is passed makes no difference. An index of other sections gives wrong offsets, and no other harm.
 * With an index a walk keeps no sections, and needs none; nor does it under 32 sections or fewer, which are searched for
 * less. Else a call over exports, imports, delay imports, resources or the records of a plan tests the section or two that
 * its walk keeps, and searches all of them only for an RVA elsewhere; all other calls search all for each RVA. A section
 * that may share an RVA with an earlier one, whose size is rounded up to a page, is not kept.
 * Errors: PE_C_ROOM where the array has too few entries; then `written` is how many it has to have. */
uint32_t pe_c_index(const pe_c_view *view, pe_c_range_entry *room, size_t entries, uint64_t *written) PE_C_RESULT(1, 4);

/* Returns the index of the section that maps an RVA: the first that covers it, by which pe_c_offset maps it.
 * PE_C_NOTHING where none does, and in an image as loaded, where no section maps RVAs. It never returns an error. */
uint32_t pe_c_section_at(const pe_c_view *view, uint32_t rva, uint64_t *out) PE_C_RESULT(1, 3);

/* Returns the bytes that the RVAs of a section are mapped to, one after the other, up to the end of the bytes. In an
 * image as loaded they stand at the section's RVA, as many as its virtual size says, or its raw size where that is 0.
 * PE_C_NOTHING without any. It never returns an error. */
uint32_t pe_c_section_range(const pe_c_view *view, const pe_c_section *section, pe_c_range *out) PE_C_RESULT(1, 2, 3);

/* Returns the bytes from an RVA to the end of what its section has in the file: the first section that covers the RVA, by
 * which pe_c_offset maps it. In an image as loaded they go from the RVA to the end of the bytes. PE_C_NOTHING where no
 * section covers the RVA, and where the file has no byte there. It never returns an error. */
uint32_t pe_c_range_at(const pe_c_view *view, uint32_t rva, pe_c_range *out) PE_C_RESULT(1, 3);

/* Returns the RVA that leads to a file offset, by the first section whose RVAs are mapped to it. Where sections share RVAs,
 * pe_c_offset may map that RVA by another. In an image as loaded an offset is its own RVA. PE_C_NOTHING where no section is
 * mapped to the offset, and where the RVA has more than 32 bits. It never returns an error. */
uint32_t pe_c_rva(const pe_c_view *view, uint64_t offset, uint32_t *out) PE_C_RESULT(1, 3);

/* ---- the image as a loader lays it out */

/* Writes the image as a loader lays it out to the start of the array, as many bytes as size_of_image says, and that size to
 * `written`: at each RVA the byte of the file at the offset to which pe_c_offset maps it; where it maps it to none that of
 * the headers, which are size_of_headers bytes at the start of the file; zeros elsewhere. What follows in the array is
 * unchanged. The array does not overlap the file; it may be NULL if room_length is 0. The bytes at RVAs that the file maps
 * are read of it with PE_C_MAPPED as they are of the file; where no section covers an RVA, which of the file is
 * PE_C_UNMAPPED, so are those of the headers or zeros. size_of_image is what the headers say: up to 4 GB of a short file.
 * Under many sections make an index first: without one each of them is searched for among all.
 * Errors: PE_C_ROOM where the array is smaller; then it is unchanged, and `written` is how many bytes it has to have. */
uint32_t pe_c_map(const pe_c_view *view, uint8_t *room, size_t room_length, uint64_t *written) PE_C_RESULT(1, 4);

/* Relocates an image as loaded, which pe_c_map wrote to the array, by the base relocations of the view: adds `difference`,
 * the new base less the one that the image has, modulo 2^64, to the field of its header that has the base, and to each
 * number that they name. No other byte changes. They are read from the bytes of the view, which the array does not overlap.
 * PE_C_NOTHING where the image has none; then it is unchanged.
 * Errors, after which it is unchanged: PE_C_UNMAPPED, PE_C_SHORT of the directory; PE_C_DIRECTORY_RELOCATION_OUTSIDE where
 * the array does not have that field, or a number, in turn with PE_C_DIRECTORY_BLOCK_SIZE,
 * PE_C_DIRECTORY_BLOCK_TRUNCATED, PE_C_SHORT and PE_C_DIRECTORY_NO_ARGUMENT of blocks and entries, and
 * PE_C_DIRECTORY_RELOCATION_KIND of a type other than IMAGE_REL_BASED_ABSOLUTE, _HIGH, _LOW, _HIGHLOW and _DIR64. */
uint32_t pe_c_relocate(const pe_c_view *view, uint64_t difference, uint8_t *room, size_t room_length) PE_C_RESULT(1);

/* ---- ranges, and the overlay */

/* Kinds of ranges of an image, each also by a function of its name. */
enum {
    PE_C_RANGE_OVERLAY = 1,         /* by pe_c_overlay */
    PE_C_RANGE_STRING_TABLE = 2,    /* by pe_c_string_table */
    PE_C_RANGE_DEBUG_ENTRIES = 3    /* by pe_c_debug_entries */
};

/* Returns the range of a kind. PE_C_NOTHING without one, and of another kind. Errors: those of the function of the kind. */
uint32_t pe_c_image_range(const pe_c_view *view, uint32_t kind, pe_c_range *out) PE_C_RESULT(1, 3);

/* Returns the bytes of a directory by its index, PE_C_DIRECTORY_BASERELOC and others, as RVAs lead to them. PE_C_NOTHING where it is
 * absent. Errors: PE_C_UNMAPPED, PE_C_SHORT. */
uint32_t pe_c_directory_table(const pe_c_view *view, uint32_t index, pe_c_range *out) PE_C_RESULT(1, 3);

/* Returns the range of the bytes after the headers and the raw data of all sections, which no loader reads: where installers
 * keep their archives, and signed images their certificates. It may hold what headers lead to: the certificate table, COFF
 * symbols. PE_C_NOTHING where no byte follows, and in an image as loaded. It never returns an error. */
PE_C_RESULT(1, 2)
static inline uint32_t pe_c_overlay(const pe_c_view *view, pe_c_range *out)
{
    return pe_c_image_range(view, PE_C_RANGE_OVERLAY, out);
}

/* ---- section names
 *
 * A section's name that is longer than 8 bytes is a string of the COFF string table, and its header has a slash and the
 * offset of that, as "/4", or two slashes and the offset in base 64. Images of mingw-w64 have such names for their debug
 * sections. */

/* Returns the COFF string table, from its size field on. PE_C_NOTHING where the image has no COFF symbols, where the bytes
 * end after them, and in an image as loaded.
 * Errors: PE_C_SHORT of the headers and of the symbols; PE_C_STRING_TABLE where the table is truncated. */
PE_C_RESULT(1, 2)
static inline uint32_t pe_c_string_table(const pe_c_view *view, pe_c_range *out)
{
    return pe_c_image_range(view, PE_C_RANGE_STRING_TABLE, out);
}

/* Returns the name of a section in the string table: UTF-8, not NUL-terminated. PE_C_NOTHING where its header has the name
 * itself, and where no string is at the offset, NUL-terminated and UTF-8.
 * Error: PE_C_SHORT where the table is not inside the bytes. */
uint32_t pe_c_long_section_name(const uint8_t *bytes, size_t length, const pe_c_range *table,
                                const pe_c_section *section, pe_c_range *out) PE_C_RESULT(3, 4, 5);

/* ---- COFF objects and COFF symbols
 *
 * An object, the output of a compiler, starts with the COFF header; the section headers follow it. Images of mingw-w64 and
 * Go have COFF symbols too: their header is the field `coff` of pe_c_headers_info. The symbol table has entries of 18 bytes,
 * each a symbol or an auxiliary record of the symbol before. The string table after it has the names of more than 8 bytes.
 * https://learn.microsoft.com/windows/win32/debug/pe-format#coff-symbol-table
 *
 *     pe_c_coff(bytes, length, &coff);
 *     image.sections_offset = 20u + coff.size_of_optional_header;
 *     image.number_of_sections = coff.number_of_sections;
 *     pe_c_sections(bytes, length, &image, sections, entries);
 *     pe_c_coff_symbols(bytes, length, &coff, &walk);
 *     while (pe_c_next_symbol(bytes, length, &walk, &symbol) == PE_C_DONE)
 *         pe_c_symbol_name(bytes, length, &walk.table, &strings, symbol.index, &name); */

/* A COFF symbol, IMAGE_SYMBOL, with what its entry says of others. */
typedef struct {
    pe_c_range auxiliary;           /* its auxiliary records, 18 bytes each, up to the end of the table */
    uint64_t index;                 /* index of its entry in the table; auxiliary records count */
    uint8_t name[8];                /* padded with zeros; or 4 zeros, and the offset of a longer name in the string table */
    uint32_t value;                 /* by the storage class, for instance an offset in the section */
    uint32_t string_offset;         /* offset of the name in the string table, from its size field; 0 where `name` has it */
    int16_t section_number;         /* from 1; 0 IMAGE_SYM_UNDEFINED, -1 _ABSOLUTE, -2 _DEBUG */
    uint16_t type;                  /* IMAGE_SYM_TYPE_ and IMAGE_SYM_DTYPE_ */
    uint8_t storage_class;          /* IMAGE_SYM_CLASS_ */
    uint8_t number_of_aux_symbols;  /* auxiliary records that follow */
    uint16_t spare;                 /* 0 */
} pe_c_symbol_entry;

/* A walk over symbols, which skips auxiliary records. */
typedef struct {
    pe_c_range table;               /* the symbol table */
    uint64_t next;                  /* the index of the next symbol's entry */
} pe_c_symbol_walk;

PE_C_SIZE(pe_c_symbol_entry, 48);
PE_C_SIZE(pe_c_symbol_walk, 24);

/* Reads the header of an object, the 20 bytes at its start. Any bytes are such a header: look at `machine`.
 * Error: PE_C_SHORT. */
uint32_t pe_c_coff(const uint8_t *bytes, size_t length, pe_c_coff_header *out) PE_C_RESULT(3);

/* Returns a walk over the symbols of an object or of an image, with the range of their table. PE_C_NOTHING where the
 * header's pointer to them is 0.
 * Error: PE_C_SHORT where the table is truncated; a pointer past the end of the bytes is that even with 0 entries. */
uint32_t pe_c_coff_symbols(const uint8_t *bytes, size_t length, const pe_c_coff_header *coff, pe_c_symbol_walk *out)
    PE_C_RESULT(3, 4);

/* Returns the string table of an object or of an image, from its size field on. PE_C_NOTHING where the header's pointer to
 * the symbols is 0, and where the bytes end after these.
 * Errors: PE_C_SHORT where the symbols are truncated; PE_C_STRING_TABLE where the string table is. */
uint32_t pe_c_coff_strings(const uint8_t *bytes, size_t length, const pe_c_coff_header *coff, pe_c_range *out)
    PE_C_RESULT(3, 4);

/* Reads the next symbol of a walk.
 * Error: PE_C_SHORT where the table is not inside the bytes. */
uint32_t pe_c_next_symbol(const uint8_t *bytes, size_t length, pe_c_symbol_walk *walk, pe_c_symbol_entry *out)
    PE_C_RESULT(3, 4);

/* Returns the name of the symbol in an entry of a symbol table: UTF-8, not NUL-terminated, in the entry or in the string
 * table. A name there is read to its end. PE_C_NOTHING past the last entry. Without a string table pass an empty range.
 * Errors: PE_C_SHORT where the symbol table, then where the string table is not inside the bytes; PE_C_STRING_TABLE where no
 * string is at the offset, NUL-terminated and UTF-8, or where the name in the entry is not UTF-8. */
uint32_t pe_c_symbol_name(const uint8_t *bytes, size_t length, const pe_c_range *table, const pe_c_range *strings,
                          uint64_t index, pe_c_range *out) PE_C_RESULT(3, 4, 6);

/* ---- the Rich header
 *
 * Microsoft's linker writes it between the DOS stub and the PE header: which tools made the objects of the image. Microsoft
 * does not document it; https://www.ntcore.com/files/richsign.htm does. */

/* The Rich header. */
typedef struct {
    pe_c_range entries;             /* 8 bytes each, XORed with the key; a walk through them */
    uint64_t count;                 /* how many entries there are */
    uint32_t key;                   /* what the header is XORed with */
    uint32_t checksum;              /* of the DOS header, the DOS stub and the entries: the linker takes it as the key */
    uint32_t key_is_checksum;       /* 1 where they are equal, so that nobody changed what the checksum covers; else 0 */
    uint32_t spare;                 /* 0 */
} pe_c_rich_header_info;

/* An entry of a Rich header. */
typedef struct {
    uint16_t build;                 /* the build of the tool */
    uint16_t product;               /* which tool it is */
    uint32_t count;                 /* how many objects it made */
} pe_c_rich_entry;

PE_C_SIZE(pe_c_rich_header_info, 40);
PE_C_SIZE(pe_c_rich_entry, 8);

/* Returns the Rich header. PE_C_NOTHING where the bytes before the PE header have none.
 * Error: PE_C_SHORT of the DOS header. */
uint32_t pe_c_rich_header(const uint8_t *bytes, size_t length, pe_c_rich_header_info *out) PE_C_RESULT(3);

/* Returns the next entry. `key` is that of the header, and the walk starts as its entries.
 * Error: PE_C_SHORT of the entry. */
uint32_t pe_c_next_rich_entry(const uint8_t *bytes, size_t length, uint32_t key, pe_c_range *walk, pe_c_rich_entry *out)
    PE_C_RESULT(4, 5);

/* ---- debug data
 *
 * The debug directory is a table of entries of 28 bytes. Each entry says which type of record it leads to and where that
 * is: CodeView names the PDB file of the image, POGO the parts that the linker joined, Repro marks a reproducible build.
 * https://learn.microsoft.com/windows/win32/debug/pe-format#the-debug-section
 *
 * A record is read from one entry: the first of its type, or one that the caller has. No other entry is read, so what
 * damages one record makes no difference to another. */

/* An entry of the debug directory, IMAGE_DEBUG_DIRECTORY. */
typedef struct {
    uint32_t characteristics;       /* reserved */
    uint32_t time_date_stamp;       /* seconds since 1970, or a hash in a reproducible build */
    uint16_t major_version, minor_version;  /* of the record's format */
    uint32_t data_type;             /* IMAGE_DEBUG_TYPE_CODEVIEW 2, _VC_FEATURE 12, _POGO 13, _REPRO 16,
                                       _EMBEDDEDPORTABLEPDB 17, _PDBCHECKSUM 19, _EX_DLLCHARACTERISTICS 20, or another */
    uint32_t size_of_data;          /* bytes of the record */
    uint32_t address_of_raw_data;   /* RVA of the record, or 0; in an image as loaded the library reads it there */
    uint32_t pointer_to_raw_data;   /* file offset of the record; in a file the library reads it there */
} pe_c_debug_entry;

/* A CodeView record of PDB 7.0 ("RSDS"): a symbol server files the PDB under its name, GUID and age. */
typedef struct {
    uint8_t guid[16];               /* as in the file: little-endian u32, u16, u16, then 8 bytes */
    uint32_t age;                   /* grows by one each time the PDB is written */
    uint32_t spare;                 /* 0 */
    pe_c_range name;                /* the rest of the record: the PDB file's name, as a rule with a zero after it */
} pe_c_key;

/* A CodeView record of PDB 2.0 ("NB10"). */
typedef struct {
    pe_c_range name;                /* the rest of the record: the PDB file's name, as a rule with a zero after it */
    uint32_t offset;                /* 0 where the symbols are in a file of their own */
    uint32_t signature;             /* time stamp of the PDB, seconds since 1970 */
    uint32_t age;                   /* grows by one each time the PDB is written */
    uint32_t spare;                 /* 0 */
} pe_c_pdb20;

/* VC features: the counts that dumpbin /headers shows. */
typedef struct {
    uint32_t pre_vc_plusplus_count; /* "Pre-VC++ 11.00" */
    uint32_t c_and_cplusplus_count; /* "C/C++" */
    uint32_t guard_stack_count;     /* "/GS" */
    uint32_t sdl_count;             /* "/sdl" */
    uint32_t guard_count;           /* "guardN" */
} pe_c_vc_features;

/* Repro: the same sources build the same image. */
typedef struct {
    pe_c_range hash;                /* empty unless has_hash */
    uint32_t has_hash;              /* 1; or 0, and the image's time stamps are a hash */
    uint32_t spare;                 /* 0 */
} pe_c_repro;

/* POGO: the parts of the image's sections, such as ".text$mn". */
typedef struct {
    pe_c_range entries;             /* a walk for pe_c_next_pogo_entry, at its start */
    uint32_t signature;             /* 0x4C544347 (LTCG) or 0x50475500 (PGU) */
    uint32_t spare;                 /* 0 */
} pe_c_pogo;

/* An entry of a POGO record. */
typedef struct {
    pe_c_range name;                /* with its final zero */
    uint32_t rva;                   /* RVA of the part */
    uint32_t size;                  /* bytes of the part */
} pe_c_pogo_entry;

/* A portable PDB in the image itself, of .NET. */
typedef struct {
    pe_c_range compressed;          /* raw Deflate data */
    uint32_t uncompressed_size;     /* bytes of the PDB, as the record states it */
    uint32_t spare;                 /* 0 */
} pe_c_embedded_pdb;

/* A checksum of the PDB file, of .NET: of its bytes with zeros in place of the PDB's id. */
typedef struct {
    pe_c_range algorithm;           /* the name of the algorithm, as "SHA256", not NUL-terminated */
    pe_c_range checksum;            /* the rest of the record */
} pe_c_pdb_checksum;

/* Debug records, each with its own result: PE_C_DONE, and then the record is here; PE_C_NOTHING or an error, and then it is as
 * it was. PE_C_NOTHING also where no entry of its type is read. */
typedef struct {
    pe_c_key key;                   /* the CodeView record, if it is one of PDB 7.0 */
    pe_c_pdb20 pdb20;               /* the CodeView record, if it is one of PDB 2.0 */
    pe_c_repro repro;               /* the Repro record */
    pe_c_pogo pogo;                 /* the POGO record, if it has one of the two signatures */
    pe_c_embedded_pdb embedded;     /* the portable PDB in the image */
    pe_c_pdb_checksum checksum;     /* the checksum of the PDB file */
    pe_c_vc_features features;      /* the record of VC features */
    uint32_t characteristics;       /* extended DLL characteristics, IMAGE_DLLCHARACTERISTICS_EX_ flags */
    uint32_t key_result, pdb20_result, repro_result, pogo_result;   /* of each of these fields its result */
    uint32_t embedded_result, checksum_result, features_result, characteristics_result;  /* of these too */
} pe_c_debug_records;

PE_C_SIZE(pe_c_debug_entry, 28);
PE_C_SIZE(pe_c_key, 40);
PE_C_SIZE(pe_c_pdb20, 32);
PE_C_SIZE(pe_c_vc_features, 20);
PE_C_SIZE(pe_c_repro, 24);
PE_C_SIZE(pe_c_pogo, 24);
PE_C_SIZE(pe_c_pogo_entry, 24);
PE_C_SIZE(pe_c_embedded_pdb, 24);
PE_C_SIZE(pe_c_pdb_checksum, 32);
PE_C_SIZE(pe_c_debug_records, 232);

/* Returns the entries of the debug directory as a walk for pe_c_next_debug_entry. PE_C_NOTHING without a directory.
 * Errors: PE_C_UNMAPPED; PE_C_DEBUG_BOUNDS in strict mode. */
PE_C_RESULT(1, 2)
static inline uint32_t pe_c_debug_entries(const pe_c_view *view, pe_c_range *out)
{
    return pe_c_image_range(view, PE_C_RANGE_DEBUG_ENTRIES, out);
}

/* Returns the next entry of the debug directory.
 * Errors: PE_C_SHORT where the walk is not inside the bytes, or its last entry is truncated. */
uint32_t pe_c_next_debug_entry(const uint8_t *bytes, size_t length, pe_c_range *walk, pe_c_debug_entry *out)
    PE_C_RESULT(3, 4);

/* Returns the symbol key of a CodeView record that stands alone, as a minidump has one of each module: no other debug
 * data is read, and no damage there is an error. PE_C_NOTHING where it is not a record of PDB 7.0.
 * Errors: PE_C_SHORT where the range is not inside the bytes; PE_C_DEBUG_SIZE where it has fewer than 24 bytes. */
uint32_t pe_c_codeview(const uint8_t *bytes, size_t length, const pe_c_range *record, pe_c_key *out) PE_C_RESULT(3, 4);

/* Returns the symbol key: the record of the first CodeView entry, if it is one of PDB 7.0. PE_C_NOTHING also without such an entry.
 * It reads no other entry's record: it is the field `key` of what pe_c_debug_data reads.
 * Errors: those of pe_c_debug_entries, then those of `key` of pe_c_debug_record. */
uint32_t pe_c_symbol_key(const pe_c_view *view, pe_c_key *out) PE_C_RESULT(1, 2);

/* Reads the record of the first entry of each type. A truncated last entry is none. It always returns PE_C_DONE: each record has a
 * result of its own, the error of pe_c_debug_entries, or else as of pe_c_debug_record. */
uint32_t pe_c_debug_data(const pe_c_view *view, pe_c_debug_records *out) PE_C_NOT_NULL(1, 2);

/* Reads the record of an entry that the caller has, in a mode, by the type that the entry says. It always returns PE_C_DONE: each
 * record has a result of its own, PE_C_NOTHING of another type.
 * Errors: of `key` PE_C_DEBUG_SIZE where the entry's size is below 24, in strict mode, and PE_C_NOTHING in permissive mode;
 * PE_C_SHORT of the first 24 bytes; PE_C_DEBUG_DATA of the name. Of `pdb20` the same with 16 for 24. Of `repro` PE_C_SHORT of the
 * hash's length; PE_C_DEBUG_DATA of the hash. Of `pogo` PE_C_SHORT of the signature; PE_C_POGO_SIZE where the entry's size is at most
 * 4; PE_C_DEBUG_DATA of the entries. Of `embedded` PE_C_DEBUG_SIZE where the entry's size is below 8; PE_C_SHORT of the first 8 bytes;
 * PE_C_BAD_MAGIC; PE_C_DEBUG_DATA of the compressed data. Of `checksum` PE_C_DEBUG_DATA; PE_C_DEBUG_SIZE where no zero ends the name of
 * the algorithm. Of `features` and `characteristics` PE_C_SHORT, whatever the entry's size is. */
uint32_t pe_c_debug_record(const uint8_t *bytes, size_t length, uint32_t mode, const pe_c_debug_entry *entry,
                           pe_c_debug_records *out) PE_C_NOT_NULL(4, 5);

/* ---- TE images
 *
 * Firmware keeps of an image the sections and a header of 40 bytes. RVAs and file offsets in the file still count from the
 * start of the headers that were stripped: the calls here subtract how many bytes the file is shorter, so an RVA is a file
 * offset. https://uefi.org/specs/PI/1.8/V1_TE_Image.html
 *
 *     pe_c_te(bytes, length, &te);
 *     pe_c_te_debug_entries(bytes, length, &te, &walk);
 *     while (pe_c_next_te_debug_entry(bytes, length, &te, &walk, &entry) == PE_C_DONE && entry.data_type != 2)
 *         continue;
 *     pe_c_debug_record(bytes, length, PE_C_MAPPED, &entry, &records); */

/* The header of a TE image, EFI_TE_IMAGE_HEADER. Its RVAs are reduced by rva_offset. */
typedef struct {
    uint64_t image_base;            /* preferred virtual address of the image */
    uint32_t entry_point;           /* RVA of the entry point */
    uint32_t base_of_code;          /* RVA of the code */
    pe_c_directory reloc_dir;       /* the base relocations; the RVA is reduced where it is absent too */
    pe_c_directory debug_dir;       /* the debug directory; both fields are 0 where it is absent */
    uint32_t rva_offset;            /* how many bytes the file is shorter: stripped_size less 40 */
    uint16_t signature;             /* 0x5A56, "VZ" */
    uint16_t machine;               /* IMAGE_FILE_MACHINE_ */
    uint16_t stripped_size;         /* bytes of headers that were stripped */
    uint8_t number_of_sections;     /* the number of section headers */
    uint8_t subsystem;              /* IMAGE_SUBSYSTEM_ */
    uint32_t spare;                 /* 0 */
} pe_c_te_image;

PE_C_SIZE(pe_c_te_image, 48);

/* Reads the header of a TE image, the 40 bytes at its start.
 * Errors: PE_C_SHORT; PE_C_BAD_MAGIC; PE_C_TE_SIZE where fewer than 40 bytes were stripped. */
uint32_t pe_c_te(const uint8_t *bytes, size_t length, pe_c_te_image *out) PE_C_RESULT(3);

/* Writes the section headers of a TE image to the start of the array, te->number_of_sections of them, their RVAs and raw
 * pointers reduced by te->rva_offset. The rest of the array is unchanged, and all of it after an error.
 * Errors: PE_C_ROOM where the array is smaller; PE_C_SHORT where the section headers are truncated. */
uint32_t pe_c_te_sections(const uint8_t *bytes, size_t length, const pe_c_te_image *te, pe_c_section *room, size_t entries)
    PE_C_RESULT(3);

/* Returns the entries of the debug directory as a walk for pe_c_next_te_debug_entry. PE_C_NOTHING where the directory is
 * absent. Error: PE_C_DEBUG_BOUNDS. */
uint32_t pe_c_te_debug_entries(const uint8_t *bytes, size_t length, const pe_c_te_image *te, pe_c_range *out)
    PE_C_RESULT(3, 4);

/* Reads the next entry, the RVA and the file offset of its record reduced by te->rva_offset. The calls that take an entry
 * read its record with PE_C_MAPPED.
 * Error: PE_C_SHORT where an entry is truncated. */
uint32_t pe_c_next_te_debug_entry(const uint8_t *bytes, size_t length, const pe_c_te_image *te, pe_c_range *walk,
                                  pe_c_debug_entry *out) PE_C_RESULT(3, 4, 5);

/* ---- failures
 *
 * A result is one number. The calls that say why another one refuses return with it where the error is, and the number that
 * stands there. */

/* What is wrong with headers, with a directory or with an item of a walk. A number that the error does not have here is
 * 0. */
typedef struct {
    uint64_t offset;                /* offset, from the start of the bytes unless the call says otherwise, of what is
                                       truncated or refused, or where it ends after the bytes that hold it */
    uint64_t needed;                /* bytes that are needed */
    uint64_t value;                 /* the number that is refused: a magic number, an RVA, a size */
    uint32_t result;                /* the error */
    uint32_t spare;                 /* 0 */
} pe_c_failure;

PE_C_SIZE(pe_c_failure, 32);

/* What a debug record is read as: which field of pe_c_debug_records. */
enum {
    PE_C_RECORD_SYMBOL_KEY = 0,     /* key */
    PE_C_RECORD_PDB20 = 1,          /* pdb20 */
    PE_C_RECORD_VC_FEATURES = 2,    /* features */
    PE_C_RECORD_CHARACTERISTICS = 3, /* characteristics */
    PE_C_RECORD_REPRO = 4,          /* repro */
    PE_C_RECORD_POGO = 5,           /* pogo */
    PE_C_RECORD_EMBEDDED_PDB = 6,   /* embedded */
    PE_C_RECORD_PDB_CHECKSUM = 7    /* checksum */
};

/* ---- certificates
 *
 * The attribute certificate table holds the Authenticode signatures: certificates one after the other, each aligned to 8
 * bytes. It is not part of an image as loaded, so its directory has a file offset; in an image as loaded that is the
 * offset of something else.
 * https://learn.microsoft.com/windows/win32/debug/pe-format#the-attribute-certificate-table-image-only */

/* An attribute certificate, WIN_CERTIFICATE. */
typedef struct {
    pe_c_range body;                /* what follows the header of 8 bytes */
    uint32_t length;                /* dwLength: bytes of header and body */
    uint16_t revision;              /* WIN_CERT_REVISION_1_0 0x100 or _2_0 0x200 */
    uint16_t type;                  /* WIN_CERT_TYPE_X509 1, _PKCS_SIGNED_DATA 2, _RESERVED_1 3, _TS_STACK_SIGNED 4 */
} pe_c_certificate;

PE_C_SIZE(pe_c_certificate, 24);

/* Returns the next attribute certificate. The walk starts as the range of the directory:
 * virtual_address and size of image.directories[PE_C_DIRECTORY_SECURITY]. The body of the last certificate may end past the
 * table, not past the file.
 * Errors: PE_C_CERTIFICATE_TABLE where the walk is not inside the bytes; PE_C_SHORT of the header; PE_C_CERTIFICATE_SIZE,
 * PE_C_CERTIFICATE_REVISION, PE_C_CERTIFICATE_TYPE. */
uint32_t pe_c_next_certificate(const uint8_t *bytes, size_t length, pe_c_range *walk, pe_c_certificate *out)
    PE_C_RESULT(3, 4);

/* ---- signatures
 *
 * What an Authenticode signature says: what is signed, by whom, when, and what a verifier hashes. Nothing is verified here.
 * A signature is the body of a certificate of type WIN_CERT_TYPE_PKCS_SIGNED_DATA: PKCS #7 signed data, written by DER as
 * elements of a tag, a length and a content. A time stamp and a nested signature are attributes of a signer, and each is a
 * signature again. RFC 5652, RFC 5280, RFC 3161, and Microsoft's "Windows Authenticode Portable Executable Signature
 * Format".
 *
 *     pe_c_signature(bytes, length, &certificate.body, &failure, &signed_data);
 *     pe_c_indirect_data(bytes, length, &signed_data.content, &failure, &indirect);
 *     while (pe_c_next_element(bytes, length, &signed_data.signers, &failure, &element) == PE_C_DONE)
 *         pe_c_signer(bytes, length, &element.whole, &failure, &signer);
 *
 * `range` is that of an element; bytes after the element are not read. `bytes` may be a file, or a signature alone. A range
 * that is returned is of the content of an element, or, where its comment says "whole", of the whole element with its tag
 * and length, which another call reads. It is {0, 0} where the field is absent. Offsets count from the start of `bytes`.
 *
 * Errors of all these calls: PE_C_SHORT where `range` or `walk` is not inside the bytes; of each element that is read
 * PE_C_SIGNATURE_TRUNCATED, _TAG_NUMBER, _END_OF_CONTENTS, _INDEFINITE_LENGTH, _LENGTH_OCTETS, _TRUNCATED, _LENGTH_FORM,
 * _PAST_PARENT, _EMPTY_CONTENT; of a field _MISSING before these, and _TAG after them; _TRAILING where bytes follow the
 * last field. `failure` then has where and what; else it is unchanged. Elements that a call returns whole are not read any
 * further: an error there is that of another call.
 *
 * A signature costs what its bytes cost: a call reads the head of each field once, and walks go through one list. A caller
 * that goes into nested signatures bounds how deep. */

/* Why an element is refused. */
typedef struct {
    uint64_t offset;                /* of the element, or of the range that is not inside the bytes */
    uint64_t value;                 /* _TAG: the tag that is there; _LENGTH_OCTETS: octets of the length after its first;
                                     * _PAST_PARENT: bytes of the content; PE_C_SHORT: bytes of the range; else 0 */
    uint64_t left;                  /* _TRUNCATED, _PAST_PARENT: bytes that the parent has left; _TRAILING: bytes that
                                     * follow; else 0 */
    uint32_t expected;              /* _TAG: the tag that the grammar has there; else 0 */
    uint32_t result;                /* what the call returned */
} pe_c_signature_failure;

/* Object identifiers with a number. Those of other kinds have 0. Numbers are stable; tools/make_object_ids writes this
 * list. */
enum {
    PE_C_OID_OTHER = 0,
    /* content types, and types of what is signed */
    PE_C_OID_DATA = 1,                          /* 1.2.840.113549.1.7.1: id-data */
    PE_C_OID_SIGNED_DATA = 2,                   /* 1.2.840.113549.1.7.2: id-signedData: the content of a signature */
    PE_C_OID_TST_INFO = 3,                      /* 1.2.840.113549.1.9.16.1.4: id-ct-TSTInfo: what a time-stamp token signs */
    PE_C_OID_SPC_INDIRECT_DATA = 4,             /* 1.3.6.1.4.1.311.2.1.4: SPC_INDIRECT_DATA_OBJID: what Authenticode signs */
    PE_C_OID_SPC_PE_IMAGE_DATA = 5,             /* 1.3.6.1.4.1.311.2.1.15: SPC_PE_IMAGE_DATA_OBJID: of an image */
    PE_C_OID_SPC_SIP_INFO = 6,                  /* 1.3.6.1.4.1.311.2.1.30: SPC_SIPINFO_OBJID: of a script or a package */
    PE_C_OID_SPC_CAB_DATA = 7,                  /* 1.3.6.1.4.1.311.2.1.25: SPC_CAB_DATA_OBJID: of a cabinet */
    PE_C_OID_CTL = 8,                           /* 1.3.6.1.4.1.311.10.1: szOID_CTL: of a catalog */
    /* attributes of signers */
    PE_C_OID_CONTENT_TYPE = 101,                /* 1.2.840.113549.1.9.3: contentType: the type of what is signed */
    PE_C_OID_MESSAGE_DIGEST = 102,              /* 1.2.840.113549.1.9.4: messageDigest: the digest of what is signed */
    PE_C_OID_SIGNING_TIME = 103,                /* 1.2.840.113549.1.9.5: signingTime */
    PE_C_OID_COUNTER_SIGNATURE = 104,           /* 1.2.840.113549.1.9.6: countersignature: a signer again */
    PE_C_OID_SIGNING_CERTIFICATE = 105,         /* 1.2.840.113549.1.9.16.2.12: id-aa-signingCertificate */
    PE_C_OID_AA_TIME_STAMP_TOKEN = 106,         /* 1.2.840.113549.1.9.16.2.14: id-aa-timeStampToken: a time-stamp token (RFC 3161) */
    PE_C_OID_SIGNING_CERTIFICATE_V2 = 107,      /* 1.2.840.113549.1.9.16.2.47: id-aa-signingCertificateV2 */
    PE_C_OID_SPC_STATEMENT_TYPE = 108,          /* 1.3.6.1.4.1.311.2.1.11: SPC_STATEMENT_TYPE_OBJID */
    PE_C_OID_SPC_SP_OPUS_INFO = 109,            /* 1.3.6.1.4.1.311.2.1.12: SPC_SP_OPUS_INFO_OBJID: of the program */
    PE_C_OID_NESTED_SIGNATURE = 110,            /* 1.3.6.1.4.1.311.2.4.1: szOID_NESTED_SIGNATURE: more signatures of the image */
    PE_C_OID_TIME_STAMP_TOKEN = 111,            /* 1.3.6.1.4.1.311.3.3.1: szOID_RFC3161_counterSign: a time-stamp token (RFC 3161) */
    /* algorithms: of digests, of signatures, of keys */
    PE_C_OID_MD5 = 201,                         /* 1.2.840.113549.2.5 */
    PE_C_OID_SHA1 = 202,                        /* 1.3.14.3.2.26 */
    PE_C_OID_SHA256 = 203,                      /* 2.16.840.1.101.3.4.2.1 */
    PE_C_OID_SHA384 = 204,                      /* 2.16.840.1.101.3.4.2.2 */
    PE_C_OID_SHA512 = 205,                      /* 2.16.840.1.101.3.4.2.3 */
    PE_C_OID_RSA = 206,                         /* 1.2.840.113549.1.1.1: a key; of a signature PKCS #1 v1.5 */
    PE_C_OID_MD5_RSA = 207,                     /* 1.2.840.113549.1.1.4: PKCS #1 v1.5, as the next four */
    PE_C_OID_SHA1_RSA = 208,                    /* 1.2.840.113549.1.1.5 */
    PE_C_OID_SHA256_RSA = 209,                  /* 1.2.840.113549.1.1.11 */
    PE_C_OID_SHA384_RSA = 210,                  /* 1.2.840.113549.1.1.12 */
    PE_C_OID_SHA512_RSA = 211,                  /* 1.2.840.113549.1.1.13 */
    PE_C_OID_RSA_PSS = 212,                     /* 1.2.840.113549.1.1.10: with its digest among the parameters */
    PE_C_OID_EC = 213,                          /* 1.2.840.10045.2.1: a key, with its curve as the parameters */
    PE_C_OID_ECDSA_SHA1 = 214,                  /* 1.2.840.10045.4.1 */
    PE_C_OID_ECDSA_SHA256 = 215,                /* 1.2.840.10045.4.3.2 */
    PE_C_OID_ECDSA_SHA384 = 216,                /* 1.2.840.10045.4.3.3 */
    PE_C_OID_ECDSA_SHA512 = 217,                /* 1.2.840.10045.4.3.4 */
    PE_C_OID_DSA = 218,                         /* 1.2.840.10040.4.1: a key */
    PE_C_OID_DSA_SHA1 = 219,                    /* 1.2.840.10040.4.3 */
    PE_C_OID_SHA1_RSA_OIW = 220,                /* 1.3.14.3.2.29: the older identifier of SHA1_RSA, sha1WithRSA of the OIW */
    PE_C_OID_MD2_RSA = 221,                     /* 1.2.840.113549.1.1.2: PKCS #1 v1.5 */
    /* attributes of names */
    PE_C_OID_COMMON_NAME = 301,                 /* 2.5.4.3: CN */
    PE_C_OID_SERIAL_NUMBER = 302,               /* 2.5.4.5 */
    PE_C_OID_COUNTRY = 303,                     /* 2.5.4.6: C */
    PE_C_OID_LOCALITY = 304,                    /* 2.5.4.7: L */
    PE_C_OID_STATE = 305,                       /* 2.5.4.8: ST */
    PE_C_OID_STREET = 306,                      /* 2.5.4.9: STREET */
    PE_C_OID_ORGANIZATION = 307,                /* 2.5.4.10: O */
    PE_C_OID_ORGANIZATIONAL_UNIT = 308,         /* 2.5.4.11: OU */
    PE_C_OID_BUSINESS_CATEGORY = 309,           /* 2.5.4.15 */
    PE_C_OID_POSTAL_CODE = 310,                 /* 2.5.4.17 */
    PE_C_OID_DOMAIN_COMPONENT = 311,            /* 0.9.2342.19200300.100.1.25: DC */
    PE_C_OID_USER_ID = 312,                     /* 0.9.2342.19200300.100.1.1: UID */
    PE_C_OID_EMAIL_ADDRESS = 313,               /* 1.2.840.113549.1.9.1 */
    PE_C_OID_JURISDICTION_COUNTRY = 314,        /* 1.3.6.1.4.1.311.60.2.1.3 */
    PE_C_OID_JURISDICTION_STATE = 315,          /* 1.3.6.1.4.1.311.60.2.1.2 */
    PE_C_OID_JURISDICTION_LOCALITY = 316,       /* 1.3.6.1.4.1.311.60.2.1.1 */
    /* extensions of certificates */
    PE_C_OID_SUBJECT_KEY_IDENTIFIER = 401,      /* 2.5.29.14 */
    PE_C_OID_KEY_USAGE = 402,                   /* 2.5.29.15: what the key is for */
    PE_C_OID_SUBJECT_ALT_NAME = 403,            /* 2.5.29.17 */
    PE_C_OID_BASIC_CONSTRAINTS = 404,           /* 2.5.29.19: whether it is a certificate of an authority */
    PE_C_OID_CERTIFICATE_POLICIES = 405,        /* 2.5.29.32 */
    PE_C_OID_AUTHORITY_KEY_IDENTIFIER = 406,    /* 2.5.29.35 */
    PE_C_OID_EXTENDED_KEY_USAGE = 407,          /* 2.5.29.37: what the key is for, by object identifiers */
    PE_C_OID_CRL_DISTRIBUTION_POINTS = 408,     /* 2.5.29.31 */
    PE_C_OID_AUTHORITY_INFORMATION_ACCESS = 409, /* 1.3.6.1.5.5.7.1.1 */
};

/* An object identifier. */
typedef struct {
    pe_c_range octets;              /* its content */
    uint32_t id;                    /* PE_C_OID_, of the group that the field has */
    uint32_t spare;                 /* 0 */
} pe_c_oid;

/* An algorithm, AlgorithmIdentifier. */
typedef struct {
    pe_c_oid oid;                   /* of algorithms */
    pe_c_range parameters;          /* whole */
} pe_c_algorithm;

/* An element of DER. */
typedef struct {
    pe_c_range whole;               /* all octets: tag, length and content */
    pe_c_range content;             /* the content */
    uint32_t tag;                   /* the identifier octet, such as 0x30 for a SEQUENCE, 4 for an OCTET STRING */
    uint32_t spare;                 /* 0 */
} pe_c_der_element;

/* A signature: ContentInfo, SignedData, EncapsulatedContentInfo. */
typedef struct {
    pe_c_oid content_type;          /* of what is signed, by content types */
    pe_c_range version;             /* an INTEGER, which is 1 in Authenticode */
    pe_c_range digest_algorithms;   /* a walk for pe_c_next_element, each for pe_c_algorithm_identifier */
    pe_c_range content;             /* what is signed, whole: for pe_c_indirect_data, or in a time stamp for
                                       pe_c_time_stamp */
    pe_c_range digested;            /* what messageDigest is the digest of: the content of `content` */
    pe_c_range certificates;        /* a walk, each for pe_c_x509 */
    pe_c_range crls;                /* a walk over certificate revocation lists */
    pe_c_range signers;             /* a walk, each for pe_c_signer */
    uint32_t has_content;           /* 1 where what is signed is there, 0 where it is detached */
    uint32_t spare;                 /* 0 */
} pe_c_signed_data;

/* What Authenticode signs, SpcIndirectDataContent. */
typedef struct {
    pe_c_oid value_type;            /* by content types; of an image PE_C_OID_SPC_PE_IMAGE_DATA */
    pe_c_range value;               /* whole; of an image for pe_c_image_data */
    pe_c_algorithm digest_algorithm;  /* of the digest */
    pe_c_range digest;              /* of what pe_c_digest_ranges says */
} pe_c_spc_indirect_data;

/* What a signature says of an image as a file, SpcPeImageData. */
typedef struct {
    pe_c_range flags;               /* a BIT STRING, not used */
    pe_c_range file;                /* whole: [2] with the text <<<Obsolete>>>, or [1] with page hashes */
} pe_c_spc_pe_image_data;

/* A signer, SignerInfo. Its certificate is the one with this issuer and serial number. Its signature is over the octet
 * signed_first and the bytes of signed_rest; without signed attributes over what is signed, the field `digested`. */
typedef struct {
    pe_c_range version;             /* an INTEGER, which is 1 with an issuer and a serial number */
    pe_c_range issuer;              /* whole, for pe_c_name */
    pe_c_range serial;              /* serial number, an INTEGER: two's complement, the high byte first */
    pe_c_range key_identifier;      /* of the certificate, where there is no issuer */
    pe_c_algorithm digest_algorithm;  /* of `messageDigest`, and of what is signed */
    pe_c_range signed_attributes;   /* a walk for pe_c_next_element, each for pe_c_attribute */
    pe_c_range signed_rest;         /* the octets of the signed attributes after their tag */
    pe_c_algorithm signature_algorithm;  /* of the signature */
    pe_c_range signature;           /* the signature */
    pe_c_range unsigned_attributes; /* a walk, each for pe_c_attribute */
    uint32_t has_signed_attributes; /* 1 where there are signed attributes, else 0 */
    uint32_t signed_first;          /* 0x31, the tag of a SET, in place of their own tag; 0 without them */
} pe_c_signer_info;

/* An attribute of a signer. Its values are a walk for pe_c_next_element, mostly of one:
 *   PE_C_OID_MESSAGE_DIGEST      an OCTET STRING, whose content is the digest
 *   PE_C_OID_SIGNING_TIME        for pe_c_time
 *   PE_C_OID_SPC_SP_OPUS_INFO    for pe_c_opus_info
 *   PE_C_OID_COUNTER_SIGNATURE   for pe_c_signer: its messageDigest is the digest of the signature of this signer
 *   PE_C_OID_TIME_STAMP_TOKEN    for pe_c_signature, whose content is for pe_c_time_stamp
 *   PE_C_OID_NESTED_SIGNATURE    each for pe_c_signature */
typedef struct {
    pe_c_oid type;                  /* by attributes */
    pe_c_range values;              /* a walk over its values */
} pe_c_signer_attribute;

/* What a signer says of the program, SpcSpOpusInfo. */
typedef struct {
    pe_c_range program_name;        /* the name of the program */
    pe_c_range more_info;           /* where more is said */
    uint32_t program_name_tag;      /* 0x80 for UTF-16, the high byte first; 0x81 for ASCII; 0 without a name */
    uint32_t more_info_tag;         /* 0x80 for a URL in ASCII; 0xA1 for an object, 0xA2 for a file; 0 without one */
} pe_c_spc_opus_info;

/* A certificate of X.509, of those in a signature. The issuer's signature is over the bytes of to_be_signed. */
typedef struct {
    pe_c_range to_be_signed;        /* whole */
    pe_c_range serial;              /* serial number, an INTEGER: two's complement, the high byte first */
    pe_c_range issuer;              /* whole, for pe_c_name */
    pe_c_range subject;             /* whole, for pe_c_name */
    pe_c_range not_before;          /* the first time when it is valid: whole, for pe_c_time */
    pe_c_range not_after;           /* the last one: whole, for pe_c_time */
    pe_c_range public_key;          /* whole: SubjectPublicKeyInfo */
    pe_c_range extensions;          /* a walk for pe_c_next_element, each for pe_c_extension */
    pe_c_algorithm signature_algorithm;  /* of the signature */
    pe_c_range signature;           /* the bits of the BIT STRING, without the octet before them */
} pe_c_x509_certificate;

/* An extension of a certificate. */
typedef struct {
    pe_c_oid type;                  /* by extensions */
    pe_c_range value;               /* the content of its OCTET STRING: an element */
    uint32_t critical;              /* 1 where it is critical, else 0 */
    uint32_t spare;                 /* 0 */
} pe_c_x509_extension;

/* A walk over the attributes of a name. */
typedef struct {
    pe_c_range left;                /* the bytes of the name that are left */
    uint64_t rdn_end;               /* where the relative distinguished name ends that is read */
} pe_c_name_walk;

/* An attribute of a name. */
typedef struct {
    pe_c_oid type;                  /* by attributes of names */
    pe_c_range value;               /* the content of the value */
    uint32_t tag;                   /* of the value: PrintableString 0x13, UTF8String 0x0C, IA5String 0x16, BMPString 0x1E,
                                       .. */
    uint32_t starts_rdn;            /* 1 where it is the first of its relative distinguished name, else 0 */
} pe_c_name_attribute;

/* A time in UTC. */
typedef struct {
    uint32_t year;                  /* 0 to 9999 */
    uint32_t month;                 /* 1 to 12 */
    uint32_t day;                   /* 1 to 31; that a month has fewer days is not tested */
    uint32_t hour;                  /* 0 to 23 */
    uint32_t minute;                /* 0 to 59 */
    uint32_t second;                /* 0 to 59; a fraction is left out. A time stamp may have one; that a certificate and a
                                       signing time have none (RFC 5280, RFC 5652) is not tested */
} pe_c_utc_time;

/* What a time-stamp token says, TSTInfo. */
typedef struct {
    pe_c_range version;             /* an INTEGER, which is 1 */
    pe_c_range policy;              /* the policy, an object identifier */
    pe_c_algorithm digest_algorithm;  /* of the digest */
    pe_c_range digest;              /* of the signature that is stamped, the field `signature` of its signer */
    pe_c_range serial;              /* serial number of the token, an INTEGER */
    pe_c_range time;                /* whole, for pe_c_time */
    pe_c_range accuracy;            /* how exact the time is: whole */
    pe_c_range nonce;               /* the number of who asked, an INTEGER */
    pe_c_range authority;           /* who stamps, a GeneralName */
} pe_c_tst_info;

/* Kinds of parts, which pe_c_signature_part reads, each also by a function of its name. */
enum {
    PE_C_PART_SIGNATURE = 1,        /* by pe_c_signature */
    PE_C_PART_ALGORITHM = 2,        /* by pe_c_algorithm_identifier */
    PE_C_PART_INDIRECT_DATA = 3,    /* by pe_c_indirect_data */
    PE_C_PART_IMAGE_DATA = 4,       /* by pe_c_image_data */
    PE_C_PART_SIGNER = 5,           /* by pe_c_signer */
    PE_C_PART_ATTRIBUTE = 6,        /* by pe_c_attribute */
    PE_C_PART_OPUS_INFO = 7,        /* by pe_c_opus_info */
    PE_C_PART_X509 = 8,             /* by pe_c_x509 */
    PE_C_PART_EXTENSION = 9,        /* by pe_c_extension */
    PE_C_PART_KEY_USAGE = 10,       /* by pe_c_key_usage */
    PE_C_PART_NAME = 11,            /* by pe_c_name */
    PE_C_PART_TIME = 12,            /* by pe_c_time */
    PE_C_PART_TIME_STAMP = 13       /* by pe_c_time_stamp */
};

/* A part of any kind: pe_c_signature_part writes the field of one kind. */
typedef struct {
    pe_c_signed_data signature;     /* PE_C_PART_SIGNATURE */
    pe_c_algorithm algorithm;       /* PE_C_PART_ALGORITHM */
    pe_c_spc_indirect_data indirect_data; /* PE_C_PART_INDIRECT_DATA */
    pe_c_spc_pe_image_data image_data; /* PE_C_PART_IMAGE_DATA */
    pe_c_signer_info signer;        /* PE_C_PART_SIGNER */
    pe_c_signer_attribute attribute; /* PE_C_PART_ATTRIBUTE */
    pe_c_spc_opus_info opus_info;   /* PE_C_PART_OPUS_INFO */
    pe_c_x509_certificate x509;     /* PE_C_PART_X509 */
    pe_c_x509_extension extension;  /* PE_C_PART_EXTENSION */
    pe_c_name_walk name;            /* PE_C_PART_NAME */
    pe_c_utc_time time;             /* PE_C_PART_TIME */
    pe_c_tst_info time_stamp;       /* PE_C_PART_TIME_STAMP */
    uint32_t key_usage;             /* PE_C_PART_KEY_USAGE */
    uint32_t spare;                 /* is never written */
} pe_c_any_part;

PE_C_SIZE(pe_c_signature_failure, 32);
PE_C_SIZE(pe_c_oid, 24);
PE_C_SIZE(pe_c_algorithm, 40);
PE_C_SIZE(pe_c_der_element, 40);
PE_C_SIZE(pe_c_signed_data, 144);
PE_C_SIZE(pe_c_spc_indirect_data, 96);
PE_C_SIZE(pe_c_spc_pe_image_data, 32);
PE_C_SIZE(pe_c_signer_info, 216);
PE_C_SIZE(pe_c_signer_attribute, 40);
PE_C_SIZE(pe_c_spc_opus_info, 40);
PE_C_SIZE(pe_c_x509_certificate, 184);
PE_C_SIZE(pe_c_x509_extension, 48);
PE_C_SIZE(pe_c_name_walk, 24);
PE_C_SIZE(pe_c_name_attribute, 48);
PE_C_SIZE(pe_c_utc_time, 24);
PE_C_SIZE(pe_c_tst_info, 168);
PE_C_SIZE(pe_c_any_part, 1064);

/* Reads the part that a range starts with, as one of a kind, PE_C_PART_SIGNATURE and others, into the field of the kind alone.
 * The other fields are unchanged, and none need be initialised. PE_C_NOTHING of another kind. Errors: those of the function of
 * the kind, below. */
uint32_t pe_c_signature_part(const uint8_t *bytes, size_t length, const pe_c_range *range, uint32_t kind,
                             pe_c_signature_failure *failure, pe_c_any_part *out) PE_C_RESULT(3, 5, 6);

/* Reads a signature: the body of a certificate, or the value of an attribute that is a nested signature or a time stamp.
 * Errors, then: PE_C_SIGNATURE_CONTENT_TYPE where the content is no signed data. */
PE_C_RESULT(3, 4, 5)
static inline uint32_t pe_c_signature(const uint8_t *bytes, size_t length, const pe_c_range *range,
                                      pe_c_signature_failure *failure, pe_c_signed_data *out)
{
    pe_c_any_part found;
    uint32_t result = pe_c_signature_part(bytes, length, range, PE_C_PART_SIGNATURE, failure, &found);
    if (result == PE_C_DONE)
        *out = found.signature;
    return result;
}

/* Returns the next element of a list: certificates, signers, attributes, their values, extensions, algorithms. The walk
 * starts as the range of the list. A member of the list that another call refuses does not end the walk. */
uint32_t pe_c_next_element(const uint8_t *bytes, size_t length, pe_c_range *walk, pe_c_signature_failure *failure,
                           pe_c_der_element *out) PE_C_RESULT(3, 4, 5);

/* Reads an algorithm. */
PE_C_RESULT(3, 4, 5)
static inline uint32_t pe_c_algorithm_identifier(const uint8_t *bytes, size_t length, const pe_c_range *range,
                                                 pe_c_signature_failure *failure, pe_c_algorithm *out)
{
    pe_c_any_part found;
    uint32_t result = pe_c_signature_part(bytes, length, range, PE_C_PART_ALGORITHM, failure, &found);
    if (result == PE_C_DONE)
        *out = found.algorithm;
    return result;
}

/* Reads what Authenticode signs: the content of a signature with the type PE_C_OID_SPC_INDIRECT_DATA. */
PE_C_RESULT(3, 4, 5)
static inline uint32_t pe_c_indirect_data(const uint8_t *bytes, size_t length, const pe_c_range *range,
                                          pe_c_signature_failure *failure, pe_c_spc_indirect_data *out)
{
    pe_c_any_part found;
    uint32_t result = pe_c_signature_part(bytes, length, range, PE_C_PART_INDIRECT_DATA, failure, &found);
    if (result == PE_C_DONE)
        *out = found.indirect_data;
    return result;
}

/* Reads what a signature says of an image as a file. */
PE_C_RESULT(3, 4, 5)
static inline uint32_t pe_c_image_data(const uint8_t *bytes, size_t length, const pe_c_range *range,
                                       pe_c_signature_failure *failure, pe_c_spc_pe_image_data *out)
{
    pe_c_any_part found;
    uint32_t result = pe_c_signature_part(bytes, length, range, PE_C_PART_IMAGE_DATA, failure, &found);
    if (result == PE_C_DONE)
        *out = found.image_data;
    return result;
}

/* Reads a signer of a signature, or a counter-signature. */
PE_C_RESULT(3, 4, 5)
static inline uint32_t pe_c_signer(const uint8_t *bytes, size_t length, const pe_c_range *range,
                                   pe_c_signature_failure *failure, pe_c_signer_info *out)
{
    pe_c_any_part found;
    uint32_t result = pe_c_signature_part(bytes, length, range, PE_C_PART_SIGNER, failure, &found);
    if (result == PE_C_DONE)
        *out = found.signer;
    return result;
}

/* Reads an attribute of a signer. */
PE_C_RESULT(3, 4, 5)
static inline uint32_t pe_c_attribute(const uint8_t *bytes, size_t length, const pe_c_range *range,
                                      pe_c_signature_failure *failure, pe_c_signer_attribute *out)
{
    pe_c_any_part found;
    uint32_t result = pe_c_signature_part(bytes, length, range, PE_C_PART_ATTRIBUTE, failure, &found);
    if (result == PE_C_DONE)
        *out = found.attribute;
    return result;
}

/* Finds an attribute of a signer by the id of its type, such as PE_C_OID_MESSAGE_DIGEST: the first in a walk over
 * signed_attributes or unsigned_attributes. Moves `walk` past it, so that the next call finds the next one. PE_C_NOTHING
 * where there is none; then `walk` is at its end. The id 0 is that of every type that has none here. An attribute before it
 * that is refused is an error, after which `walk` is past that one; after another error it is over. */
uint32_t pe_c_find_attribute(const uint8_t *bytes, size_t length, pe_c_range *walk, uint32_t id,
                             pe_c_signature_failure *failure, pe_c_signer_attribute *out) PE_C_RESULT(3, 5, 6);

/* Reads what a signer says of the program. */
PE_C_RESULT(3, 4, 5)
static inline uint32_t pe_c_opus_info(const uint8_t *bytes, size_t length, const pe_c_range *range,
                                      pe_c_signature_failure *failure, pe_c_spc_opus_info *out)
{
    pe_c_any_part found;
    uint32_t result = pe_c_signature_part(bytes, length, range, PE_C_PART_OPUS_INFO, failure, &found);
    if (result == PE_C_DONE)
        *out = found.opus_info;
    return result;
}

/* Reads a certificate. */
PE_C_RESULT(3, 4, 5)
static inline uint32_t pe_c_x509(const uint8_t *bytes, size_t length, const pe_c_range *range,
                                 pe_c_signature_failure *failure, pe_c_x509_certificate *out)
{
    pe_c_any_part found;
    uint32_t result = pe_c_signature_part(bytes, length, range, PE_C_PART_X509, failure, &found);
    if (result == PE_C_DONE)
        *out = found.x509;
    return result;
}

/* Reads an extension of a certificate. */
PE_C_RESULT(3, 4, 5)
static inline uint32_t pe_c_extension(const uint8_t *bytes, size_t length, const pe_c_range *range,
                                      pe_c_signature_failure *failure, pe_c_x509_extension *out)
{
    pe_c_any_part found;
    uint32_t result = pe_c_signature_part(bytes, length, range, PE_C_PART_EXTENSION, failure, &found);
    if (result == PE_C_DONE)
        *out = found.extension;
    return result;
}

/* Returns what a key is for, of an extension with the type PE_C_OID_KEY_USAGE: 0x80 digitalSignature, 0x40
 * contentCommitment, 0x20 keyEncipherment, 0x10 dataEncipherment, 8 keyAgreement, 4 keyCertSign, 2 cRLSign, 1 encipherOnly,
 * 0x8000 decipherOnly. PE_C_NOTHING where the value has no bits, more than 16, or unused bits that are more than 7 or not 0.
 * `range` is that of the extension. */
PE_C_RESULT(3, 4, 5)
static inline uint32_t pe_c_key_usage(const uint8_t *bytes, size_t length, const pe_c_range *range,
                                      pe_c_signature_failure *failure, uint32_t *out)
{
    pe_c_any_part found;
    uint32_t result = pe_c_signature_part(bytes, length, range, PE_C_PART_KEY_USAGE, failure, &found);
    if (result == PE_C_DONE)
        *out = found.key_usage;
    return result;
}

/* Returns a walk over the attributes of a name: of an issuer or a subject. */
PE_C_RESULT(3, 4, 5)
static inline uint32_t pe_c_name(const uint8_t *bytes, size_t length, const pe_c_range *range,
                                 pe_c_signature_failure *failure, pe_c_name_walk *out)
{
    pe_c_any_part found;
    uint32_t result = pe_c_signature_part(bytes, length, range, PE_C_PART_NAME, failure, &found);
    if (result == PE_C_DONE)
        *out = found.name;
    return result;
}

/* Returns the next attribute of a name, in the order of the name: the country mostly first. */
uint32_t pe_c_next_name_attribute(const uint8_t *bytes, size_t length, pe_c_name_walk *walk,
                                  pe_c_signature_failure *failure, pe_c_name_attribute *out) PE_C_RESULT(3, 4, 5);

/* Reads a time: the end of a validity, the value of signingTime, the time of a time stamp.
 * Errors, then: PE_C_SIGNATURE_BAD_TIME where it is no UTCTime or GeneralizedTime, not in the form of RFC 5280 (seconds, and
 * Z), or has a number that no time has. */
PE_C_RESULT(3, 4, 5)
static inline uint32_t pe_c_time(const uint8_t *bytes, size_t length, const pe_c_range *range,
                                 pe_c_signature_failure *failure, pe_c_utc_time *out)
{
    pe_c_any_part found;
    uint32_t result = pe_c_signature_part(bytes, length, range, PE_C_PART_TIME, failure, &found);
    if (result == PE_C_DONE)
        *out = found.time;
    return result;
}

/* Reads what a time stamp says: the content of a signature with the type PE_C_OID_TST_INFO. */
PE_C_RESULT(3, 4, 5)
static inline uint32_t pe_c_time_stamp(const uint8_t *bytes, size_t length, const pe_c_range *range,
                                       pe_c_signature_failure *failure, pe_c_tst_info *out)
{
    pe_c_any_part found;
    uint32_t result = pe_c_signature_part(bytes, length, range, PE_C_PART_TIME_STAMP, failure, &found);
    if (result == PE_C_DONE)
        *out = found.time_stamp;
    return result;
}

/* ---- signing
 *
 * A signing tool hashes an image, makes a certificate of the digest, and attaches that. A signature must survive being
 * attached, so the Authenticode digest leaves out three parts of the file: the field CheckSum, the entry of the certificate
 * directory, and the certificates. Zeros follow, as many as fill up the file without its certificates to a multiple of
 * eight, since that is where certificates are attached.
 * https://learn.microsoft.com/windows/win32/debug/pe-format#process-for-generating-the-authenticode-pe-image-hash
 *
 * `bytes` are the whole file, also in mode PE_C_MAPPED. Each of these calls reads the headers from them, as pe_c_image
 * does, in the mode of `image`, whose other fields make no difference. So a caller need not read an image anew to go on with
 * what was written, and each call may return the errors of pe_c_image before its own. */

/* What an Authenticode digest covers: hash the ranges in their order, and then so many zeros. */
typedef struct {
    pe_c_range ranges[4];           /* in the order of the file; those that are not needed are at the end, and empty */
    uint64_t zeros;                 /* 0 to 7 */
} pe_c_digest;

/* The checksum that an image should have. Windows tests it for drivers and boot files. */
typedef struct {
    uint64_t offset;                /* file offset of the field that holds it, 4 bytes, little-endian */
    uint32_t value;                 /* what the field has to hold; what it holds makes no difference */
    uint32_t spare;                 /* 0 */
} pe_c_checksum_field;

/* Where a certificate is attached. Other even numbers are as PE_C_AFTER, other odd ones as PE_C_IN_PLACE. */
enum {
    PE_C_AFTER = 0,                 /* after the certificates that are there */
    PE_C_IN_PLACE = 1               /* in place of the certificates that are there */
};

PE_C_SIZE(pe_c_digest, 72);
PE_C_SIZE(pe_c_checksum_field, 16);

/* Returns what the Authenticode digest of an image covers.
 * Errors: those of pe_c_image; PE_C_NO_OPTIONAL_HEADER. */
uint32_t pe_c_digest_ranges(const pe_c_view *view, pe_c_digest *out) PE_C_RESULT(1, 2);

/* Returns the checksum that an image should have, and where its field is.
 * Errors: those of pe_c_image; PE_C_NO_OPTIONAL_HEADER. */
uint32_t pe_c_checksum(const pe_c_view *view, pe_c_checksum_field *out) PE_C_RESULT(1, 2);

/* Writes the file with a certificate to the start of the array, and its length to `written`: zeros up to a multiple of eight
 * bytes, the certificate, zeros again, the entry of the certificate directory and the checksum. What the digest covers stays
 * as it was. The rest of the array is unchanged, and all of it after an error. The array overlaps neither the file nor the
 * certificate; it may be NULL if room_length is 0, and the certificate if certificate_length is.
 * `certificate` is one or more entries of a certificate table (WIN_CERTIFICATE), each but the last with its padding to a
 * multiple of eight bytes; `placement` is PE_C_AFTER or PE_C_IN_PLACE.
 * Errors: those of pe_c_image; PE_C_NO_OPTIONAL_HEADER; PE_C_SIGN_NO_DIRECTORY where the image has fewer than five
 * directories; PE_C_CERTIFICATE_TABLE where the table passes the end of the file, PE_C_SIGN_TABLE_NOT_LAST where it ends
 * before that; PE_C_SIGN_HEADERS, PE_C_SIGN_SECTION where headers or the data of a section end after the start of the table,
 * or after the end of the file without one; PE_C_SIGN_TABLE_OFFSET where the certificate is to go after others whose table
 * is not at a multiple of eight; PE_C_SHORT, PE_C_CERTIFICATE_SIZE of a certificate shorter than eight bytes, or than its
 * first entry says; PE_C_SIGN_TOO_LARGE where the file with it has 2^32 bytes or more; PE_C_ROOM. */
uint32_t pe_c_attach(const pe_c_view *view, const uint8_t *certificate, size_t certificate_length, uint32_t placement,
                     uint8_t *room, size_t room_length, uint64_t *written) PE_C_RESULT(1, 7);

/* Writes the file without certificates to the start of the array, and its length to `written`: all before the certificate table,
 * with zeros in the entry of the certificate directory, and the checksum. An image without certificates stays as it is, but
 * for its checksum. The rest of the array is unchanged, and all of it after an error. The array does not overlap the file;
 * it may be NULL if room_length is 0.
 * Errors: those of pe_c_attach up to PE_C_SIGN_SECTION; PE_C_ROOM. */
uint32_t pe_c_detach(const pe_c_view *view, uint8_t *room, size_t room_length, uint64_t *written) PE_C_RESULT(1, 4);

/* ---- sections and images written
 *
 * The sections of an image changed: a caller reads them by pe_c_sections, changes a field, and writes them, by themselves or
 * with all of the image. Their data come from `bytes`, the whole file. Any number may be passed.
 * https://learn.microsoft.com/windows/win32/debug/pe-format#section-table-section-headers The calls after
 * pe_c_write_sections read the headers and the certificates from the bytes, in the mode of the image: the other fields of
 * that make no difference, and a caller that wants another header changes it in the bytes. In strict mode a certificate
 * table that is invalid is an error, and in permissive mode no certificate of it is written. Certificates go where their
 * directory says, each with zeros up to a multiple of 8 bytes. Of all of these calls: offsets count from the start of the
 * array, and where pieces overlap the later one wins. What no piece covers is unchanged, and after an error all of the array
 * and, but for PE_C_ROOM, `out`, `next` or `written`. The array does not overlap the file; it may be NULL if room_length is 0. */

/* Writes the sections of the view into the array: for each its data at pointer_to_raw_data, its header, and zeros after the
 * data up to a multiple of `unit` bytes, no zeros where that is 0. The headers are written one after the other, from `next`
 * on, which moves past them.
 * Errors: PE_C_WRITE_OVERLAP where two sections that are not equal share a byte of the file; PE_C_WRITE_SECTION where the
 * data of one are not in the file; PE_C_WRITE_FIT where a piece does not fit into the array. */
uint32_t pe_c_write_sections(const pe_c_view *view, uint32_t unit, uint8_t *room, size_t room_length, uint64_t *next)
    PE_C_RESULT(1, 5);

/* Writes the certificates into the array, one after the other from the offset of their directory on. Puts the offset after
 * the last one to `out`, 0 where none is written. The sections of the view make no difference.
 * Errors: those of pe_c_image; in strict mode those of pe_c_next_certificate, of all certificates; PE_C_NO_OPTIONAL_HEADER;
 * PE_C_WRITE_FIT where a certificate does not fit into the array. */
uint32_t pe_c_write_certificates(const pe_c_view *view, uint8_t *room, size_t room_length, uint64_t *out) PE_C_RESULT(1, 4);

/* Writes the image into the array: the DOS header, the stub, the PE signature, the COFF header and the optional header where
 * the headers have them; the sections of the view as pe_c_write_sections does, up to multiples of the file alignment, with
 * their headers in the section table; the certificates. Puts to `written` the greatest of three offsets: the start of the
 * section table, the end of the data of the last section with the greatest raw pointer, the end of the certificates. Without
 * a section the first may lie past the end of the array. With PE_C_ROOM `written` is the greatest end of what is written.
 * Errors: those of pe_c_image; in strict mode those of pe_c_next_certificate, of all certificates; PE_C_NO_OPTIONAL_HEADER;
 * PE_C_WRITE_ALIGNMENT where the file alignment is no power of two; PE_C_WRITE_SYMBOLS where the pointer to COFF symbols is
 * not 0; PE_C_WRITE_OVERLAP, PE_C_WRITE_SECTION as of pe_c_write_sections; PE_C_WRITE_FIT where no array is long enough;
 * PE_C_ROOM. */
uint32_t pe_c_write_image(const pe_c_view *view, uint8_t *room, size_t room_length, uint64_t *written) PE_C_RESULT(1, 4);

/* Writes the whole file into the array, and over it what pe_c_write_image writes, but no zeros after sections. So COFF
 * symbols and bytes between sections and after them stay as they are in the file. An image without certificates whose
 * sections are unchanged comes back byte for byte. Puts to `written` the greater of the file's length and of what
 * pe_c_write_image puts there, which may lie past the end of the array as there. With PE_C_ROOM `written` is the length of the
 * file, or the greatest end of what is written over it if that is greater.
 * Errors: those of pe_c_write_image but for PE_C_WRITE_ALIGNMENT and PE_C_WRITE_SYMBOLS. */
uint32_t pe_c_write_whole(const pe_c_view *view, uint8_t *room, size_t room_length, uint64_t *written) PE_C_RESULT(1, 4);

/* ---- x64 functions and unwind records
 *
 * The exception directory of an x64 image is a table of functions, sorted by start RVA. Each function leads to an unwind
 * record, whose codes say what the prolog did to the stack; undo them to find the caller's frame. A record can be
 * chained to another function, whose record continues it. A leaf function needs no entry.
 * https://learn.microsoft.com/cpp/build/exception-handling-x64
 *
 * For the registers of the caller: pe_c_function_table, pe_c_find_function, then pe_c_step. For the records and codes
 * themselves: pe_c_plan_from, then pe_c_next_record until PE_C_NOTHING, and pe_c_next_code for each record. */

/* An entry of the x64 function table, RUNTIME_FUNCTION. */
typedef struct {
    uint32_t begin;                 /* RVA of its first byte */
    uint32_t end;                   /* RVA after its last byte */
    uint32_t unwind;                /* RVA of its unwind record; an odd one is a link: the RVA of another entry, plus 1 */
} pe_c_function;

/* A walk over x64 unwind codes. */
typedef struct {
    pe_c_range left;                /* the code bytes that are left, 2 for each slot */
    uint8_t version;                /* of the unwind record, 1 or 2 */
    uint8_t frame_register;         /* its number, as in pe_c_code.operand; 0 without one */
    uint8_t spare[6];               /* 0 */
} pe_c_walk;

/* An x64 unwind record, UNWIND_INFO. */
typedef struct {
    pe_c_walk codes;                /* a walk for pe_c_next_code, at its start */
    pe_c_range handler_data;        /* what follows the handler's RVA, up to the end of the file; empty without a handler */
    uint32_t handler;               /* RVA of the handler, or 0 */
    pe_c_function chained;          /* the function whose record continues this one; 0 unless is_chained */
    uint32_t is_chained;            /* 1 or 0 */
    uint32_t frame_register_offset; /* bytes: subtract them from the frame register to get the base of saves */
    uint8_t size_of_prolog;         /* bytes */
    uint8_t handler_kind;           /* 0 none, 1 exception handler (also with both flags), 2 termination handler */
    uint8_t spare[6];               /* 0 */
} pe_c_record;

/* What an instruction of the prolog did. */
enum {
    PE_C_PUSH = 0,                  /* UWOP_PUSH_NONVOL: pushed the register `operand` */
    PE_C_ALLOC = 1,                 /* UWOP_ALLOC_SMALL, _LARGE: allocated `value` bytes on the stack */
    PE_C_SET_FRAME = 2,             /* UWOP_SET_FPREG: set the frame register to rsp + frame_register_offset */
    PE_C_SAVE = 3,                  /* UWOP_SAVE_NONVOL, _FAR: saved the register `operand` at offset `value` */
    PE_C_SAVE_XMM = 4,              /* opcode 6 of version 1: saved the low 8 bytes of `operand` at offset `value` */
    PE_C_EPILOG = 5,                /* UWOP_EPILOG of version 2: `value` is the epilog's size or the low part of its
                                       offset, `operand` its flags or the high part */
    PE_C_SAVE_XMM128 = 6,           /* UWOP_SAVE_XMM128, _FAR, opcode 7 of version 1: saved `operand` at offset `value` */
    PE_C_MACHINE_FRAME = 7,         /* UWOP_PUSH_MACHFRAME: the processor's frame; `operand` is 1 with an error code */
    PE_C_NOOP = 8                   /* opcode 7 of version 2: nothing to undo */
};

/* An x64 unwind code, UNWIND_CODE. */
typedef struct {
    uint8_t code_offset;            /* bytes from the start of the prolog to the end of the instruction; undo the code at
                                       this offset and after it */
    uint8_t operation;              /* PE_C_PUSH .. PE_C_NOOP */
    uint8_t operand;                /* a register: 0 to 15 rax, rcx, rdx, rbx, rsp, rbp, rsi, rdi, r8 .. r15; 17 to 32
                                       xmm0 .. xmm15; or as the operation says; else 0 */
    uint8_t from_frame;             /* 1: once PE_C_SET_FRAME has run, `value` counts from the frame register minus
                                       frame_register_offset. Before that, and if this is 0, it counts from rsp */
    uint32_t value;                 /* bytes, or as the operation says; else 0 */
} pe_c_code;

/* How codes are read: two fields of their unwind record, for pe_c_all_codes. */
typedef struct {
    uint8_t version;                /* of the record, 1 or 2 */
    uint8_t frame_register;         /* number of the frame register; 0 without one */
} pe_c_code_form;

/* An entry of the scope table of a C handler: a __try block. */
typedef struct {
    uint32_t begin, end;            /* RVAs of the first guarded byte and after the last one */
    uint32_t handler;               /* RVA of the filter or of the __finally block; 1 means EXCEPTION_EXECUTE_HANDLER */
    uint32_t target;                /* RVA of the __except block; 0 for __finally */
} pe_c_scope;

/* Where a plan stands: a walk over the records of a function, up to the root of its chain. pe_c_plan_from starts it. */
typedef struct {
    uint32_t unwind;                /* unwind RVA of the next record */
    uint32_t is_over;               /* 1 after the root or an error, else 0 */
    uint32_t saved;                 /* an unwind RVA on the way: if it comes again, the chain never ends */
    uint32_t spare;                 /* 0 */
    uint64_t steps;                 /* records returned since that RVA was saved */
    uint64_t limit;                 /* records after which another RVA is saved */
} pe_c_plan;

/* A plan, step by step. It starts as PE_C_EMPTY with what pe_c_plan_from returns. The plan of another function of the same
 * image may start in the same walk, at &walk.plan, with `kept` as the last steps left it: that spares its first search. */
typedef struct {
    pe_c_plan plan;                 /* where it stands */
    pe_c_kept_sections kept;        /* the sections of its last RVAs */
} pe_c_plan_walk;

/* The registers of a thread that unwinding restores. */
typedef struct {
    uint64_t general[16];           /* by their numbers: rax, rcx, rdx, rbx, rsp, rbp, rsi, rdi, r8 .. r15; rsp is general[4] */
    uint64_t xmm[32];               /* of xmm0 .. xmm15 the low half and then the high half, as CONTEXT has them */
    uint64_t rip;                   /* the instruction pointer */
} pe_c_registers;

/* A frame of a stack walk. A caller sets all fields but `address` and `interrupted`.
 * A step changes `registers` and `interrupted`, or after an error `address`. */
typedef struct {
    pe_c_registers registers;       /* inside the function; after a step those of its caller */
    uint64_t address;               /* the one that PE_C_MISSING, _BAD_ADDRESS or _NOT_RISING speaks of */
    pe_c_function function;         /* the one that pe_c_find_function returned */
    uint32_t rva;                   /* `rip` less the address where the image is loaded */
    uint32_t leaf;                  /* 0, or where pe_c_find_function returned PE_C_NOTHING 1: a leaf function, of which
                                       neither `function` nor `rva` is read */
    uint32_t interrupted;           /* after a step 1 where an interrupt stopped the caller: its rip is the instruction that
                                       is about to run. Else 0: it is a return address */
} pe_c_frame;

/* A piece of memory, as MINIDUMP_MEMORY_DESCRIPTOR and _DESCRIPTOR64 say it. */
typedef struct {
    uint64_t start;                 /* address of the first byte */
    uint64_t offset;                /* of the first byte in the memory that is passed, as a minidump file */
    uint64_t length;                /* bytes; those past the last address have none */
} pe_c_memory_piece;

/* A module of a process: its image, which has size_of_image bytes where it is loaded. What the view leads to stays readable
 * as long as the record is passed. One whose image is not at hand has no bytes and no sections, and an image of which
 * size_of_image is set: frames are found in it by its addresses alone, as guesses. */
typedef struct {
    pe_c_view image;                /* the image */
    pe_c_range table;               /* of pe_c_function_table, on ARM64 pe_c_arm64_table; all 0 where that returned
                                       PE_C_NOTHING: no records describe its functions. Walks take the whole entries of
                                       any range that is inside the bytes, so of a damaged table those that are there */
    uint64_t base;                  /* address where it is loaded */
} pe_c_module;

/* How a frame of a walk was found. */
enum {
    PE_C_WAY_TOP = 0,               /* it is the top frame */
    PE_C_WAY_RECORDS = 1,           /* by the unwind records of the function that it called */
    PE_C_WAY_LEAF = 2,              /* it called a leaf function */
    PE_C_WAY_INTERRUPT = 3,         /* an interrupt stopped it: the records before it show what the processor pushed, on
                                       ARM64 what the operating system saved */
    PE_C_WAY_SCANNED = 4,           /* by a scan of the stack, where no records led on: at the call that leads nearest into
                                       the code without records, on x64, else at the first call, else from a module
                                       without an image at the first address of one. It may be wrong, and those after it */
    PE_C_WAY_FRAME_POINTER = 5      /* by the frame pointer, where no records led on: the words to which rbp, or x29, leads
                                       are the frame pointer of the caller and a return address. It may be wrong, and
                                       those after it */
};

/* Why a walk is over. */
enum {
    PE_C_END_BOUND = 0,             /* as many frames were returned as the caller wants */
    PE_C_END_BOTTOM = 1,            /* by records the last frame returns to 0, no frame is found there, and no frame is a guess.
                                       By its records the stack is whole. A return address that was overwritten may have
                                       led them astray, as where a frame by PE_C_WAY_RECORDS has not called */
    PE_C_END_NO_MODULE = 2,         /* the last instruction pointer is in no module, or in one without an image, and no
                                       return address is found */
    PE_C_END_NO_FUNCTION = 3,       /* no function covers the call in the last frame, and no return address is found */
    PE_C_END_RECORDS = 4,           /* an unwind record of the last function cannot be read: `error` says why */
    PE_C_END_LONG_CHAIN = 5,        /* more than 32 of them are chained */
    PE_C_END_STEP = 6,              /* the step from the last frame is refused: `error` and `address` as in pe_c_step */
    PE_C_END_ZERO = 7,              /* the last frame returns to 0, but a frame is a guess, as after a call of a null pointer,
                                       or no records describe the code of the last one: frames may be missing or wrong */
    PE_C_END_NO_RETURN_ADDRESS = 8  /* no records describe the code of the last frame, and where it would return to is no
                                       executable code, nor in a module without an image */
};

/* A walk of a stack on x64, and the frame that was returned last. For a walk from the start set the registers to those of the
 * thread, `remaining` to how many frames are wanted at most, and all else to 0. */
typedef struct {
    pe_c_registers registers;       /* inside the function of the frame */
    uint64_t remaining;             /* how many frames follow at most; 0 once the walk is over */
    uint64_t address;               /* of a walk that is over, as `address` of a frame; else 0 */
    uint32_t has_returned;          /* 0 before the first call, else 1 */
    uint32_t way;                   /* PE_C_WAY_* */
    uint32_t has_called;            /* 1 where the function of the frame has called: rip is the return address. 0 where rip
                                       is the instruction that is about to run. It is 0 by PE_C_WAY_RECORDS too where no
                                       call precedes rip, as where a return address was overwritten */
    uint32_t end;                   /* PE_C_END_* of a walk that is over */
    uint32_t error;                 /* a result, for PE_C_END_RECORDS, _LONG_CHAIN and _STEP; else 0 */
    uint32_t is_searched;           /* 1 where a call found that the pieces of memory lie in it, ascend and do not overlap:
                                       later calls test only those that they read. 0 before the first call, and where the
                                       caller wants them tested again */
    uint32_t is_guess;              /* 1 where the frame may be wrong: nothing proves that it is the caller, or it follows a
                                       frame of which this holds */
    uint32_t spare;                 /* 0 */
} pe_c_stack_walk;

PE_C_SIZE(pe_c_module, 80);
PE_C_SIZE(pe_c_stack_walk, 440);
PE_C_SIZE(pe_c_function, 12);
PE_C_SIZE(pe_c_walk, 24);
PE_C_SIZE(pe_c_record, 72);
PE_C_SIZE(pe_c_code, 8);
PE_C_SIZE(pe_c_code_form, 2);
PE_C_SIZE(pe_c_scope, 16);
PE_C_SIZE(pe_c_plan, 32);
PE_C_SIZE(pe_c_plan_walk, 40);
PE_C_SIZE(pe_c_registers, 392);
PE_C_SIZE(pe_c_frame, 424);
PE_C_SIZE(pe_c_memory_piece, 24);

/* Returns the range of the function table of an image for a machine, 0x8664 for x64 or 0xAA64 for ARM64, IMAGE_FILE_MACHINE_*.
 * PE_C_NOTHING without one, in an image for another machine, and for other numbers.
 * Errors: PE_C_EXCEPTION_SIZE, PE_C_UNMAPPED, PE_C_EXCEPTION_OFFSET, PE_C_EXCEPTION_BOUNDS. */
uint32_t pe_c_exception_table(const pe_c_view *view, uint32_t machine, pe_c_range *out) PE_C_RESULT(1, 3);

/* Returns the range of the function table, entries of 12 bytes. PE_C_NOTHING without one, or for a machine other than
 * x64.
 * Errors: PE_C_EXCEPTION_SIZE, PE_C_UNMAPPED, PE_C_EXCEPTION_OFFSET, PE_C_EXCEPTION_BOUNDS. */
PE_C_RESULT(1, 2)
static inline uint32_t pe_c_function_table(const pe_c_view *view, pe_c_range *out)
{
    return pe_c_exception_table(view, 0x8664, out);
}

/* Returns the function that covers an RVA, by binary search, or PE_C_NOTHING. In a table sorted by start RVA that is the
 * last function that starts at or before the RVA, if the RVA is before its end; in any other table it is some function
 * that covers the RVA, or PE_C_NOTHING.
 * Errors: PE_C_SHORT where the table is not inside the bytes. */
uint32_t pe_c_find_function(const uint8_t *bytes, size_t length, const pe_c_range *table, uint32_t rva,
                            pe_c_function *out) PE_C_RESULT(3, 5);

/* Returns the unwind record of an unwind RVA, the field `unwind` of a function of this table, which pe_c_function_table
 * returned. An odd one is a link to another entry of the table; links are followed to their end.
 * Errors: PE_C_SHORT where the table is not inside the bytes; PE_C_UNMAPPED, PE_C_FUNCTION_LINK, PE_C_FUNCTION_CYCLE of the
 * links; PE_C_UNMAPPED, PE_C_SHORT, PE_C_UNWIND_VERSION of the record. */
uint32_t pe_c_unwind_record(const pe_c_view *view, const pe_c_range *table, uint32_t unwind, pe_c_record *out)
    PE_C_RESULT(1, 2, 4);

/* Returns the scope table in a record's handler_data as a walk for pe_c_next_scope. PE_C_NOTHING where it is truncated.
 * Only a handler such as __C_specific_handler has one: the caller knows it by the handler's RVA.
 * Functions may share one table: n hostile bytes have n/12 functions of n/16 scopes. Bound what you read for all of them.
 * Errors: PE_C_SHORT where handler_data is not inside the bytes. */
uint32_t pe_c_scope_table(const uint8_t *bytes, size_t length, const pe_c_range *handler_data, pe_c_range *out)
    PE_C_RESULT(3, 4);

/* Returns the next entry of a scope table.
 * Errors: PE_C_SHORT where the walk is not inside the bytes, or its last entry is truncated. */
uint32_t pe_c_next_scope(const uint8_t *bytes, size_t length, pe_c_range *walk, pe_c_scope *out) PE_C_RESULT(3, 4);

/* Starts the plan of a function, by its unwind RVA, the field `unwind` of the function. */
PE_C_NOT_NULL(2)
static inline void pe_c_plan_from(uint32_t unwind, pe_c_plan *out)
{
    const pe_c_plan plan = {unwind, 0, unwind, 0, 0, 1};
    *out = plan;
}

/* Returns the next record of a plan: that of the function, then that of the function to which it is chained, and so on.
 * PE_C_NOTHING after the root. The table is the one that the function is from: pass the same one at each step.
 * Errors: those of pe_c_unwind_record for the next record; PE_C_FUNCTION_CYCLE if, and only if, the chain of a plan that
 * pe_c_plan_from started never ends. Records may be returned before that error. Such a plan is over after at most 3 * 2^32
 * records; a plan with other fields may never be over. */
uint32_t pe_c_next_record(const pe_c_view *view, const pe_c_range *table, pe_c_plan_walk *walk, pe_c_record *out)
    PE_C_RESULT(1, 2, 3, 4);

/* Finds the registers of a function's caller, from those inside the function, in its prolog and epilogs too, and writes them
 * over those of the frame. It undoes the records of frame->function, which is of the table, up to the root of their chain,
 * or runs what is left of an epilog. Where that ends with a jump to an RVA, it runs it up to the jump, and undoes the
 * records of the function that the table has there, if they can be read: the jump may go on in a part of the function. A
 * leaf function returns to the word at rsp; of it neither the view nor the table nor the code is read.
 *
 * `memory` has the bytes of all pieces of the stack, as a minidump file has, and `pieces` says where each is; a stack in one
 * piece is a list of one. The byte at an address is that of the first piece that has it, so eight bytes may stand in pieces
 * that touch. Pieces in ascending order that do not overlap are searched by halving, any others in turn for each byte. Each
 * call tests all pieces once. After PE_C_MISSING a caller reads a piece that has the eight bytes at frame->address, and
 * makes the same call again.
 *
 * In the top frame, and in one that an interrupt stopped, frame->rva is that of the instruction which is about to run: look
 * the function up by it, and pass in `code` the bytes of the function from it to frame->function.end, as the image has them
 * at pe_c_offset. In every other frame it is that of a return address, which may lie at the end of the function: look the
 * function up by frame->rva - 1, and pass no code. Without code epilogs are not recognized.
 *
 * Errors: PE_C_SHORT where a piece is not inside the memory. Of a leaf function PE_C_MISSING of the return address, and
 * PE_C_BAD_ADDRESS where it is the last word below 2^64. Of any other PE_C_SHORT where the table is not inside the bytes;
 * for each record those of pe_c_unwind_record, and PE_C_LONG_CHAIN where more than 32 are chained, as in each loop. In an
 * epilog for each instruction PE_C_MISSING, PE_C_BAD_ADDRESS. Else, and at the target of its jump, for each record
 * PE_C_SHORT, PE_C_UNWIND_CODE of its codes, PE_C_BAD_OPERATION, PE_C_BAD_ADDRESS of its frame register; for each code
 * PE_C_BAD_OPERATION, PE_C_BAD_ADDRESS, PE_C_MISSING; then PE_C_MISSING, PE_C_BAD_ADDRESS of the return address. Last
 * PE_C_NOT_RISING, but for interrupts: so a walk ends. */
uint32_t pe_c_step(const pe_c_view *view, const pe_c_range *table, const uint8_t *code, size_t code_length,
                   const uint8_t *memory, size_t memory_length, const pe_c_memory_piece *pieces, size_t piece_count,
                   pe_c_frame *frame) PE_C_RESULT(1, 2, 9);

/* Returns the next frames of a stack walk on x64: first the top frame, and then the caller of each, through the modules of a
 * process. Each of `frames` is the walk as it is after a frame, and `count` how many there are. PE_C_NOTHING where the walk was
 * over before all were filled: walk->end says why, and the others stay unchanged. An array of no entries is always filled. The
 * caller keeps the walk between two calls, and may copy it.
 *
 * An address is that of the first module that has it: by binary search in modules in ascending order that do not overlap, in
 * any others in turn. The modules are tested in each call, and may differ from call to call. `memory` and `pieces` are as in
 * pe_c_step. The first call of a walk tests all pieces. Where they ascend and do not overlap it sets walk->is_searched, of a
 * walk that is over too, and later calls find a piece by halving and test only those that they read: pass the same pieces in
 * all calls of a walk, or set walk->is_searched to 0 for others. With others a word may be unknown, as PE_C_MISSING, or be
 * one of another piece that has the address; no byte outside of the memory is ever read.
 *
 * In each frame the function is looked up by rip, or by the byte before it where the function has called. Its epilogs are
 * known by their code in the image, and a jump out of it is followed. Where no records describe the code of the top frame, or
 * of one that was interrupted, the caller is found by the return address at rsp, if a call ends there or it is in a module
 * without an image, else by the first of 128 words from rsp on that is after a call in an executable section: the last section
 * of its module that starts at or before the call's last byte is asked, so sections have to be in ascending order. In a frame
 * that has called it is the first such word. In a module with an image the frame pointer comes before such a word where rbp
 * leads to two words, the frame pointer of the caller, which is higher or 0, and at or above rsp a return address. In a module
 * without one, where none is found, each address of such a module is a return address: rbp leads on, else the first such word
 * does. In a module with a table that has no function there, the word whose call, E8, leads nearest before the frame among such code comes
 * before all but a call at rsp and a frame pointer that leads lower on the stack. What is found so may be wrong:
 * walk->is_guess says so of each frame, but not of the caller of code in a module with a table that has no function there, if
 * both are executable and a call ends at the return address: that is a leaf function. Without such a call a leaf function of a
 * module, which was jumped to, returns to executable code. Only past an interrupt may the stack pointer not rise.
 * Errors, which change nothing: PE_C_SHORT where the table of a module is not inside its bytes, or, where walk->is_searched
 * is 0, a piece not inside the memory. */
uint32_t pe_c_next_frames(const pe_c_module *modules, size_t module_count, const uint8_t *memory, size_t memory_length,
                          const pe_c_memory_piece *pieces, size_t piece_count, pe_c_stack_walk *walk,
                          pe_c_stack_walk *frames, size_t frame_count, uint64_t *count) PE_C_RESULT(7, 10);

/* ---- ARM64 functions and unwind records
 *
 * The exception directory of an ARM64 image is a table of functions too. The unwind data of a function is packed into its
 * entry if the prolog and epilog are canonical, else it is a record with a byte stream of codes: those of the prolog, and
 * those of each epilog, which a scope locates. The length of a function is in its unwind data.
 *
 * For the registers of the caller: pe_c_arm64_table, pe_c_find_arm64_function, then pe_c_step_arm64. For a whole stack:
 * pe_c_next_arm64_frame.
 * https://learn.microsoft.com/cpp/build/arm64-exception-handling */

/* An entry of the ARM64 function table. */
typedef struct {
    uint32_t begin;                 /* RVA of its first byte */
    uint32_t unwind;                /* packed unwind data, or the RVA of its unwind record: its two lowest bits say which */
} pe_c_arm64_function;

/* Packed unwind data of an ARM64 function. The fields mean nothing unless is_packed. */
typedef struct {
    uint32_t flag;                  /* 0: `unwind` is the RVA of a record; 1 a function; 2 a fragment; 3 reserved */
    uint32_t function_length;       /* bytes */
    uint32_t frame_size;            /* bytes of stack that the function allocates */
    uint32_t reg_f;                 /* RegF: 0, or the number of saved registers from d8 on, less 1 */
    uint32_t reg_i;                 /* RegI: the number of saved registers from x19 on */
    uint32_t h;                     /* H: 1 where x0 .. x7 are stored at the start of the function */
    uint32_t cr;                    /* CR: 0 x29 and lr are not saved, 1 lr is, 2 and 3 both are, with 2 signed */
    uint32_t is_packed;             /* 1 unless `flag` is 0 */
} pe_c_arm64_packed;

/* An ARM64 unwind record (.xdata). */
typedef struct {
    pe_c_range scopes;              /* a walk for pe_c_next_arm64_scope, at its start */
    pe_c_range codes;               /* the code bytes, for pe_c_arm64_codes */
    pe_c_range handler_data;        /* what follows the handler's RVA, up to the end of the file; empty without a handler */
    uint32_t handler;               /* RVA of the handler, or 0 */
    uint32_t has_handler;           /* 1 or 0 */
    uint32_t function_length;       /* bytes */
    uint32_t epilog_in_header;      /* 1 where the one epilog has no scope: its codes start at epilog_start */
    uint32_t epilog_start;          /* index of that epilog's first code byte; else 0 */
    uint32_t version;               /* 0 */
} pe_c_arm64_record;

/* An epilog scope: where an epilog of an ARM64 function is, and where its codes are. */
typedef struct {
    uint32_t start_offset;          /* bytes, from the start of the function to that of the epilog */
    uint32_t start_index;           /* index of the epilog's first code byte, for pe_c_arm64_codes */
    uint32_t reserved;              /* bits 18 to 21 */
    uint32_t word;                  /* the whole entry */
} pe_c_arm64_scope;

/* A walk over ARM64 unwind codes. */
typedef struct {
    pe_c_range left;                /* the code bytes that are left */
    uint64_t offset;                /* bytes, from the start of the record's codes to these */
} pe_c_arm64_walk;

/* The kinds of codes, with Microsoft's names. `value` is bytes: a size, or an offset from sp. `operand` is a register:
 * n means xn, or dn in the kinds of floating point. A pair is that register and the next, or lr. A preindexed store (_x)
 * moves sp down by `value` first. */
enum {
    PE_C_ARM64_ALLOC_SMALL = 0,     /* alloc_s: allocated `value` bytes, below 512, on the stack */
    PE_C_ARM64_SAVE_R19_R20_PREINDEXED = 1, /* save_r19r20_x */
    PE_C_ARM64_SAVE_FP_LR = 2,      /* save_fplr: saved x29 and lr at `value` */
    PE_C_ARM64_SAVE_FP_LR_PREINDEXED = 3,   /* save_fplr_x */
    PE_C_ARM64_ALLOC_MEDIUM = 4,    /* alloc_m: allocated `value` bytes, below 32 KiB */
    PE_C_ARM64_SAVE_REG_PAIR = 5,   /* save_regp: saved the pair from `operand` on at `value` */
    PE_C_ARM64_SAVE_REG_PAIR_PREINDEXED = 6,    /* save_regp_x */
    PE_C_ARM64_SAVE_REG = 7,        /* save_reg: saved the register `operand` at `value` */
    PE_C_ARM64_SAVE_REG_PREINDEXED = 8,     /* save_reg_x */
    PE_C_ARM64_SAVE_LR_PAIR = 9,    /* save_lrpair: saved the register `operand` and lr at `value` */
    PE_C_ARM64_SAVE_FREG_PAIR = 10, /* save_fregp */
    PE_C_ARM64_SAVE_FREG_PAIR_PREINDEXED = 11,  /* save_fregp_x */
    PE_C_ARM64_SAVE_FREG = 12,      /* save_freg */
    PE_C_ARM64_SAVE_FREG_PREINDEXED = 13,   /* save_freg_x */
    PE_C_ARM64_ALLOC_Z = 14,        /* alloc_z: allocated `operand` scalable vectors */
    PE_C_ARM64_ALLOC_LARGE = 15,    /* alloc_l: allocated `value` bytes, below 256 MiB */
    PE_C_ARM64_SET_FP = 16,         /* set_fp: set x29 to sp */
    PE_C_ARM64_ADD_FP = 17,         /* add_fp: set x29 to sp + `value`; `operand` is the code's byte, `value` / 8 */
    PE_C_ARM64_NOP = 18,            /* nop: nothing to undo */
    PE_C_ARM64_END = 19,            /* end: the end of the prolog's or an epilog's codes */
    PE_C_ARM64_END_C = 20,          /* end_c: the end of the codes of a chained fragment */
    PE_C_ARM64_SAVE_NEXT = 21,      /* save_next: saved the next pair after that of the instruction before, whose code
                                       follows this one */
    PE_C_ARM64_SAVE_ANY_REG = 22,   /* save_any_reg: `flags` bit 0 a pair, bit 1 preindexed, bits 2 and 3 the registers:
                                       0 x, 1 d, 2 q. Preindexed, `value` is 16 * the code's number; LLVM adds 16 */
    PE_C_ARM64_SAVE_ZREG = 23,      /* save_zreg: the code's numbers of register (`operand`) and offset (`value`) */
    PE_C_ARM64_SAVE_PREG = 24,      /* save_preg: likewise */
    PE_C_ARM64_CUSTOM_STACK = 25,   /* `operand` 0 MSFT_OP_TRAP_FRAME, 1 _MACHINE_FRAME, 2 _CONTEXT, 3 _EC_CONTEXT,
                                       4 _CLEAR_UNWOUND_TO_CALL */
    PE_C_ARM64_PAC_SIGN_LR = 26,    /* pac_sign_lr: signed lr */
    PE_C_ARM64_RESERVED = 27        /* `operand` is the first byte, `value` the number in the bytes after it */
};

/* An ARM64 unwind code. */
typedef struct {
    uint32_t offset;                /* bytes, from the start of the record's codes to this one */
    uint32_t length;                /* bytes of the code, 1 to 5 */
    uint32_t kind;                  /* PE_C_ARM64_ALLOC_SMALL .. PE_C_ARM64_RESERVED */
    uint32_t operand;               /* a register, or as the kind says; else 0 */
    uint32_t value;                 /* bytes, or as the kind says; else 0 */
    uint32_t flags;                 /* of PE_C_ARM64_SAVE_ANY_REG; else 0 */
} pe_c_arm64_code;

/* The registers of a thread on ARM64 that unwinding restores. */
typedef struct {
    uint64_t general[31];           /* x0 .. x30: the frame pointer is general[29], the link register general[30] */
    uint64_t floats[8];             /* d8 .. d15, the low halves of v8 .. v15 */
    uint64_t sp;                    /* the stack pointer */
    uint64_t pc;                    /* the instruction pointer */
} pe_c_arm64_registers;

/* A frame of a stack walk on ARM64. A caller sets all fields but `address` and `interrupted`.
 * A step changes `registers` and `interrupted`, or after an error `address`. */
typedef struct {
    pe_c_arm64_registers registers; /* inside the function; after a step those of its caller */
    uint64_t address;               /* the one that PE_C_MISSING, _BAD_ADDRESS or _NOT_RISING speaks of */
    pe_c_arm64_function function;   /* the one that pe_c_find_arm64_function returned */
    uint32_t rva;                   /* `pc` less the address where the image is loaded */
    uint32_t leaf;                  /* 0, or where pe_c_find_arm64_function returned PE_C_NOTHING 1: a leaf function, of
                                       which neither `function` nor `rva` is read */
    uint32_t interrupted;           /* after a step 1 where no call left the caller: its pc is the instruction that is about
                                       to run. Else 0 */
    uint32_t spare;                 /* 0 */
} pe_c_arm64_frame;

PE_C_SIZE(pe_c_arm64_function, 8);
PE_C_SIZE(pe_c_arm64_packed, 32);
PE_C_SIZE(pe_c_arm64_record, 72);
PE_C_SIZE(pe_c_arm64_scope, 16);
PE_C_SIZE(pe_c_arm64_walk, 24);
PE_C_SIZE(pe_c_arm64_code, 24);
PE_C_SIZE(pe_c_arm64_registers, 328);
PE_C_SIZE(pe_c_arm64_frame, 360);

/* Returns the range of the function table, entries of 8 bytes. PE_C_NOTHING without one, or for a machine other than
 * ARM64.
 * Errors: PE_C_EXCEPTION_SIZE, PE_C_UNMAPPED, PE_C_EXCEPTION_OFFSET, PE_C_EXCEPTION_BOUNDS. */
PE_C_RESULT(1, 2)
static inline uint32_t pe_c_arm64_table(const pe_c_view *view, pe_c_range *out)
{
    return pe_c_exception_table(view, 0xAA64, out);
}

/* Returns the function that covers an RVA, by binary search, or PE_C_NOTHING. In a table sorted by start RVA that is the
 * last function that starts at or before the RVA, if it is long enough; in any other table it is some function that covers
 * the RVA, or PE_C_NOTHING. The length is packed into the entry, or stands in the first word of its unwind record.
 * Errors: PE_C_SHORT where the table is not inside the bytes; of that record PE_C_UNMAPPED, and PE_C_SHORT where its first
 * word is truncated. */
uint32_t pe_c_find_arm64_function(const pe_c_view *view, const pe_c_range *table, uint32_t rva, pe_c_arm64_function *out)
    PE_C_RESULT(1, 2, 4);

/* Returns the fields of packed unwind data. It always returns PE_C_DONE. */
uint32_t pe_c_arm64_packed_fields(const pe_c_arm64_function *function, pe_c_arm64_packed *out) PE_C_NOT_NULL(1, 2);

/* Returns the unwind record of a function. PE_C_NOTHING where its unwind data is packed.
 * Errors: those of pe_c_arm64_table, also where the data is packed; PE_C_UNMAPPED, PE_C_SHORT, PE_C_ARM64_VERSION of the
 * record. */
uint32_t pe_c_arm64_unwind_record(const pe_c_view *view, const pe_c_arm64_function *function, pe_c_arm64_record *out)
    PE_C_RESULT(1, 2, 3);

/* Returns the next epilog scope of a record. Functions may share one record: n hostile bytes have n/8 functions of 65,535
 * scopes, or of n/4 if that is less. Bound what you read for all of them.
 * Errors: PE_C_SHORT where the walk is not inside the bytes, or its last scope is truncated. */
uint32_t pe_c_next_arm64_scope(const uint8_t *bytes, size_t length, pe_c_range *walk, pe_c_arm64_scope *out)
    PE_C_RESULT(3, 4);

/* Returns a walk over a record's codes. `start` is the index of the first code byte: 0 for the prolog, start_index of a
 * scope or epilog_start for an epilog.
 * Errors: PE_C_SHORT where the codes are not inside the bytes; PE_C_ARM64_STREAM where their length is not a multiple of 4,
 * is above 4,294,967,292, or is below the start. */
uint32_t pe_c_arm64_codes(const uint8_t *bytes, size_t length, const pe_c_range *codes, uint64_t start,
                          pe_c_arm64_walk *out) PE_C_RESULT(3, 5);

/* Finds the registers of a function's caller, from those inside the function, and writes them over those of the frame. It
 * undoes the codes of frame->function, which are those of its unwind record or what its packed unwind data stand for: after
 * the prolog all of them, inside of it and in an epilog those that are left. It takes a signature off the link register. The
 * caller of a leaf function goes on at the link register; of it neither the view nor the memory is read.
 *
 * `memory` and `pieces` are as in pe_c_step. After PE_C_MISSING a caller reads a piece that has the eight bytes at
 * frame->address, and makes the same call again.
 *
 * In the top frame, and after a step that set frame->interrupted to 1, frame->rva is that of the instruction which is about
 * to run: look the function up by it. In every other frame it is that of a return address, which may lie at the end of the
 * function: look the function up by frame->rva - 4. Only the top frame can be one of a leaf function. A step may leave the
 * stack pointer where it is, before a prolog has moved it: end a walk where one does so in any other frame.
 *
 * Errors: PE_C_SHORT where a piece is not inside the memory. Of a leaf function no other. Of the record PE_C_UNMAPPED,
 * PE_C_SHORT, PE_C_ARM64_VERSION; then PE_C_ARM64_CUT of a code up to the first PE_C_ARM64_END, in an epilog of its codes
 * too. Or PE_C_BAD_OPERATION where packed unwind data have no canonical prolog. For each code PE_C_BAD_OPERATION,
 * PE_C_BAD_ADDRESS, PE_C_MISSING. Last PE_C_NOT_RISING where the caller's stack pointer is below that of the function. */
uint32_t pe_c_step_arm64(const pe_c_view *view, const uint8_t *memory, size_t memory_length, const pe_c_memory_piece *pieces,
                         size_t piece_count, pe_c_arm64_frame *frame) PE_C_RESULT(1, 6);

/* A walk of a stack on ARM64, and the frame that was returned last, as pe_c_stack_walk. */
typedef struct {
    pe_c_arm64_registers registers; /* inside the function of the frame */
    uint64_t remaining;             /* how many frames follow at most; 0 once the walk is over */
    uint64_t address;               /* of a walk that is over, as `address` of a frame; else 0 */
    uint32_t has_returned;          /* 0 before the first call, else 1 */
    uint32_t way;                   /* PE_C_WAY_* */
    uint32_t has_called;            /* 1 where the function of the frame has called: pc is the return address. 0 where pc is
                                       the instruction that is about to run */
    uint32_t end;                   /* PE_C_END_* of a walk that is over */
    uint32_t error;                 /* a result, for PE_C_END_RECORDS and _STEP; else 0 */
    uint32_t is_searched;           /* as in pe_c_stack_walk */
    uint32_t is_guess;              /* as in pe_c_stack_walk */
    uint32_t spare;                 /* 0 */
} pe_c_arm64_stack_walk;

PE_C_SIZE(pe_c_arm64_stack_walk, 376);

/* As pe_c_next_frames, on ARM64. In each frame the function is looked up by pc, or by the call, four bytes before it, where
 * the function has called. Where no unwind data describe the code of the top frame, or of one that was interrupted, the
 * caller is found by the link register, if a call ends there or it is in a module without an image, else by the first of 128
 * words from the stack pointer on that is, without its signature, after a call in an executable section; in a frame that has
 * called by the first such word. In a module, also one without an image, x29 comes before such a word, as rbp does on x64;
 * the stack pointer is then that after the two words, and may be too low. In a module without an image, where none is found, it
 * is the first word that is an address of such a module. The stack pointer may stay where it is in the first two alone, and
 * sink past an interrupt alone.
 * Errors, which change nothing: those of pe_c_next_frames. */
uint32_t pe_c_next_arm64_frames(const pe_c_module *modules, size_t module_count, const uint8_t *memory, size_t memory_length,
                                const pe_c_memory_piece *pieces, size_t piece_count, pe_c_arm64_stack_walk *walk,
                                pe_c_arm64_stack_walk *frames, size_t frame_count, uint64_t *count) PE_C_RESULT(7, 10);

/* ---- exports
 *
 * The export directory has three tables: the RVAs of what is exported, the RVAs of names in alphabetical order, and for
 * each name the index of its RVA in the first table. An export's ordinal is that index plus a base. An RVA inside the
 * directory is a forwarder: that of a text such as "NTDLL.RtlAllocateHeap".
 * https://learn.microsoft.com/windows/win32/debug/pe-format#the-edata-section-image-only */

/* Where a walk over exports stands. */
typedef struct {
    pe_c_range names;               /* RVAs of names, 4 bytes each */
    pe_c_range ordinals;            /* for each name the index of its RVA in `addresses`, 2 bytes each */
    pe_c_range addresses;           /* RVAs of what is exported, 4 bytes each */
    uint64_t next;                  /* index of the next name */
    pe_c_directory directory;       /* the export directory: an RVA inside it is that of a forwarder's text */
} pe_c_exports;

/* A walk over exports. It starts as PE_C_EMPTY with what pe_c_export_tables returns. */
typedef struct {
    pe_c_exports exports;           /* where it stands */
    pe_c_kept_sections kept;        /* the sections of its last RVAs */
} pe_c_export_walk;

/* An export. */
typedef struct {
    pe_c_range name;                /* UTF-8, without its final zero */
    pe_c_range forwarder;           /* the forwarder's text, "DLL.NAME" or "DLL.#ORDINAL": UTF-8, without its final zero;
                                       empty unless is_forwarder, and where no text is there */
    uint64_t offset;                 /* file offset of the RVA; 0 unless has_offset */
    uint32_t rva;                   /* RVA of what is exported, or of the forwarder's text */
    uint32_t has_offset;             /* 1 where the RVA is mapped, else 0 */
    uint32_t index;                 /* index in the table of RVAs, as of pe_c_export_at */
    uint32_t is_forwarder;          /* 1 where the RVA lies in the export directory, else 0 */
} pe_c_export;

/* The export directory's table of RVAs, which has all exports by their index, also those without a name. */
typedef struct {
    pe_c_range name;                /* of the DLL: UTF-8, without its final zero; empty unless has_name */
    pe_c_range addresses;           /* RVAs of what is exported, 4 bytes each */
    pe_c_directory directory;       /* the export directory: an RVA inside it is that of a forwarder's text */
    uint32_t ordinal_base;          /* ordinal of the export with the index 0 */
    uint32_t has_name;              /* 1 where the directory has a name that is mapped and is UTF-8 text, else 0 */
} pe_c_address_table;

/* An export by its index. */
typedef struct {
    pe_c_range forwarder;           /* the forwarder's text, "DLL.NAME" or "DLL.#ORDINAL": UTF-8, without its final zero;
                                       empty unless is_forwarder, and where no text is there */
    uint64_t ordinal;               /* its index plus ordinal_base */
    uint32_t rva;                   /* RVA of what is exported, or of the forwarder's text; 0 for an unused ordinal */
    uint32_t is_forwarder;          /* 1 or 0 */
} pe_c_exported;

/* The export directory itself, IMAGE_EXPORT_DIRECTORY. */
typedef struct {
    uint32_t characteristics;       /* reserved */
    uint32_t time_date_stamp;       /* seconds since the start of 1970, or a hash */
    uint16_t major_version;         /* of the directory */
    uint16_t minor_version;         /* of the directory */
    uint32_t name;                  /* RVA of the DLL's name, or 0 */
    uint32_t base;                  /* ordinal of the export with the index 0 */
    uint32_t number_of_functions;   /* entries of the table of RVAs */
    uint32_t number_of_names;       /* entries of the table of names, and of that of indices */
    uint32_t address_of_functions;  /* RVA of the table of RVAs */
    uint32_t address_of_names;      /* RVA of the table of names */
    uint32_t address_of_name_ordinals;  /* RVA of the table of indices */
} pe_c_export_fields;

PE_C_SIZE(pe_c_exports, 64);
PE_C_SIZE(pe_c_export_walk, 72);
PE_C_SIZE(pe_c_export, 56);
PE_C_SIZE(pe_c_address_table, 48);
PE_C_SIZE(pe_c_exported, 32);
PE_C_SIZE(pe_c_export_fields, 40);

/* Returns the fields of the export directory, whatever its tables are. PE_C_NOTHING without a directory.
 * Errors: PE_C_UNMAPPED, PE_C_SHORT of its 40 bytes. */
uint32_t pe_c_export_directory(const pe_c_view *view, pe_c_export_fields *out) PE_C_RESULT(1, 2);

/* Returns the tables of the export directory, where a walk starts. PE_C_NOTHING without a directory.
 * Errors: PE_C_UNMAPPED, PE_C_SHORT of the directory, then of the table of RVAs, of names and of indices. */
uint32_t pe_c_export_tables(const pe_c_view *view, pe_c_exports *out) PE_C_RESULT(1, 2);

/* Returns the table of RVAs of the export directory, the ordinal base and the DLL's name. PE_C_NOTHING without a directory.
 * Errors: those of pe_c_export_tables. */
uint32_t pe_c_export_addresses(const pe_c_view *view, pe_c_address_table *out) PE_C_RESULT(1, 2);

/* ---- names of functions without a PDB
 *
 * Images of mingw-w64, and of Go and Rust for it, have COFF symbols, and DLLs have exports. The last of either before an address
 * is mostly of another function, since most functions have no export. The function table says which code is one function: within
 * it no name is that of another one.
 *
 *     pe_c_name_tables(&view, &sources);
 *     uint64_t *room = (uint64_t *)calloc((size_t)sources.room + 1, sizeof *room);
 *     if (room != NULL)
 *         pe_c_function_names(&view, &sources, addresses, count, room, (size_t)sources.room, names, count); */

/* The tables of an image of which names are read, each by itself, and the result of each: PE_C_DONE, PE_C_NOTHING where the
 * image has none, or the error. One that is not there is empty. */
typedef struct {
    pe_c_range functions;           /* the function table; there is none on x86 */
    pe_c_range symbols;             /* the symbol table, entries of 18 bytes; there is none in an image as loaded: no section has it */
    pe_c_range strings;             /* the string table, with the longer names of symbols */
    pe_c_exports exports;           /* the tables of the export directory */
    uint64_t room;                  /* how many numbers pe_c_function_names needs room for */
    uint32_t functions_result;      /* errors are those of pe_c_function_table and pe_c_arm64_table */
    uint32_t symbols_result;        /* those of pe_c_headers and pe_c_coff_symbols */
    uint32_t strings_result;        /* those of pe_c_headers and pe_c_coff_strings */
    uint32_t exports_result;        /* those of pe_c_export_tables */
} pe_c_name_sources;

/* An address in the code of an image. */
typedef struct {
    uint32_t rva;                   /* the address */
    uint32_t is_return;             /* 0 where the code there was about to run, as in the top frame of a stack. Else it is a return
                                       address: the byte before it is looked up, as a call may be the last of its function */
} pe_c_code_address;

/* What names an address. */
typedef struct {
    pe_c_range name;                /* UTF-8, without its final zero. Empty without a name, and where the name is not text, or is
                                       longer than 4,095 bytes */
    uint32_t start;                 /* RVA that has the name */
    uint32_t offset;                /* how far after it the address is */
    uint32_t source;                /* what names it: 0 nothing, 1 a COFF symbol, 2 an export */
    uint32_t is_nearest;            /* 1 where it is only the last name before the address, in an image without a function table; it
                                       may be that of another function. Else 0 */
} pe_c_function_name;

PE_C_SIZE(pe_c_name_sources, 136);
PE_C_SIZE(pe_c_code_address, 8);
PE_C_SIZE(pe_c_function_name, 32);

/* Reads the tables of which pe_c_function_names reads names. One that is damaged does not cost the others. Always returns
 * PE_C_DONE. */
uint32_t pe_c_name_tables(const pe_c_view *view, pe_c_name_sources *out) PE_C_RESULT(1, 2);

/* Writes to `names` what names each of these addresses, in their order; the rest of `names` is unchanged. It is
 *   - the last function symbol at or before the address within its function: a COFF symbol of the type 0x20 and the class
 *     IMAGE_SYM_CLASS_EXTERNAL or IMAGE_SYM_CLASS_STATIC. Of several at one RVA it is the first of the table. A function is an
 *     entry of the function table, also one whose unwind record is chained to another;
 *   - else the export that starts the function, of several the first of the name table. A forwarder is none;
 *   - in an image without a function table the last symbol or export at or before the address, a symbol where both are at one RVA;
 *   - else nothing, also where no function of the table has the address: a leaf function needs no entry there.
 * `room` has to have as many numbers as `sources` says; what is in it then is left open. What has a name is sorted in it, so that
 * n entries of the tables and m addresses take as long as (n + m) log n steps, and to read at most 4,096 bytes a name.
 * Errors: PE_C_ROOM where `room` or `names` is too short. */
uint32_t pe_c_function_names(const pe_c_view *view, const pe_c_name_sources *sources, const pe_c_code_address *addresses,
                             size_t address_count, uint64_t *room, size_t room_entries, pe_c_function_name *names,
                             size_t name_entries) PE_C_RESULT(1, 2);

/* ---- imports
 *
 * The import directory has a record of 20 bytes for each DLL, which leads to the DLL's name and to its list of imports,
 * by name or by ordinal. The loader writes the virtual address of each import to a slot of the DLL's address table.
 * https://learn.microsoft.com/windows/win32/debug/pe-format#the-idata-section
 *
 * There are two walks: one over the DLLs (here "libraries"), and for each one over its imports, which starts at
 * library.imports. A program that reads all libraries before the first import meets errors in the order of
 * `peinfo list`. A third walk goes through both, for pe_c_list_all_imports.
 *
 *     pe_c_library_walk libraries = PE_C_EMPTY;
 *     pe_c_import_libraries(&view, &libraries.libraries);
 *     while (pe_c_next_library(&view, &libraries, &library) == PE_C_DONE) {
 *         pe_c_import_walk imports = {library.imports, {0, 0}};
 *         while (pe_c_next_import(&view, &imports, &entry) == PE_C_DONE)
 *             use(&entry);
 *     } */

/* Where a walk over libraries stands. */
typedef struct {
    uint64_t next;                  /* file offset of the next record of the import directory */
    uint32_t is_over;               /* 1 after the last library or an error, else 0 */
    uint32_t spare;                 /* 0 */
} pe_c_libraries;

/* Where a walk over the imports of a library stands. */
typedef struct {
    pe_c_range left;                /* the entries of the list that are left: 8 bytes each in PE32+, else 4 */
    uint64_t rva;                   /* RVA of the next import's slot in the address table */
} pe_c_imports;

/* A walk over libraries. It starts as PE_C_EMPTY with what pe_c_import_libraries returns. */
typedef struct {
    pe_c_libraries libraries;       /* where it stands */
    pe_c_kept_sections kept;        /* the sections of its last RVAs */
} pe_c_library_walk;

/* A walk over the imports of a library. */
typedef struct {
    pe_c_imports imports;           /* where it stands; at the start that of the library */
    pe_c_kept_sections kept;        /* the sections of its last RVAs */
} pe_c_import_walk;

/* A DLL that an image imports from, IMAGE_IMPORT_DESCRIPTOR. */
typedef struct {
    pe_c_range name;                /* of the DLL: UTF-8, without its final zero */
    pe_c_imports imports;           /* where a walk over its imports starts; imports.left is {0, 0} where the RVA of the list is
                                       unmapped, and nowhere else: the signature of the DOS header is at the offset 0 */
    uint32_t lookup_table_rva;      /* RVA of the list; where it is 0, the list is the address table */
    uint32_t time_date_stamp;       /* 0, or not 0 where the imports are bound */
    uint32_t forwarder_chain;       /* index of the first forwarder, or -1 */
    uint32_t name_rva;              /* RVA of the DLL's name */
    uint32_t address_table_rva;     /* RVA of the slots that the loader fills */
    uint32_t spare;                 /* 0 */
} pe_c_library;

/* An import. */
typedef struct {
    pe_c_range name;                /* UTF-8, without its final zero; empty unless has_name */
    uint64_t rva;                   /* RVA of the slot that the loader fills */
    uint32_t ordinal;               /* the ordinal; with a name its hint, an index into the DLL's table of names */
    uint32_t has_name;              /* 1 or 0 */
} pe_c_import;

/* A walk over the imports of all libraries. It starts as PE_C_EMPTY with what pe_c_import_libraries returns as `libraries`. */
typedef struct {
    pe_c_libraries libraries;       /* the libraries after the one that is walked over */
    pe_c_imports imports;           /* the imports that this one has left */
    pe_c_range library_name;        /* of this one: UTF-8, without its final zero */
    uint64_t begun;                 /* how many libraries were begun; 0 before the first */
} pe_c_library_imports;

/* An import, and the library that it is from. */
typedef struct {
    pe_c_import import;             /* what pe_c_next_import returns */
    pe_c_range library_name;        /* of the DLL: UTF-8, without its final zero */
    uint64_t library;               /* index of the library in the order of the import directory */
    uint32_t hint_rva;              /* RVA of the hint, which the name follows; 0 unless import.has_name */
    uint32_t spare;                 /* 0 */
} pe_c_library_import;

PE_C_SIZE(pe_c_libraries, 16);
PE_C_SIZE(pe_c_imports, 24);
PE_C_SIZE(pe_c_library_walk, 24);
PE_C_SIZE(pe_c_import_walk, 32);
PE_C_SIZE(pe_c_library, 64);
PE_C_SIZE(pe_c_import, 32);
PE_C_SIZE(pe_c_library_imports, 64);
PE_C_SIZE(pe_c_library_import, 64);

/* Returns where a walk over libraries starts. PE_C_NOTHING without a directory.
 * Errors: PE_C_UNMAPPED. */
uint32_t pe_c_import_libraries(const pe_c_view *view, pe_c_libraries *out) PE_C_RESULT(1, 2);

/* ---- delay imports
 *
 * DLLs that are loaded when one of their functions is called first. The directory has an entry of 32 bytes for each DLL,
 * which leads to the DLL's name and to a table of what is imported of it, by name or by ordinal.
 * https://learn.microsoft.com/windows/win32/debug/pe-format#delay-load-import-tables-image-only
 *
 * There are two walks: one over the DLLs, and for each one over its functions, which starts at import.functions. A third
 * walk goes through both, for pe_c_list_all_delayed_functions. */

/* An entry of the delay import directory, IMAGE_DELAYLOAD_DESCRIPTOR. Addresses are RVAs where bit 0 of the attributes
 * is set, else virtual addresses, as linkers before Visual C++ 7 wrote them. */
typedef struct {
    uint32_t attributes;            /* flags, of which bit 0 is defined */
    uint32_t name;                  /* where the DLL's name is */
    uint32_t module_handle;         /* where the DLL's handle is written when it is loaded */
    uint32_t import_address_table;  /* where the functions' addresses are written */
    uint32_t import_name_table;     /* where the table of what is imported is */
    uint32_t bound_import_address_table;    /* where the addresses are if the DLL has the time stamp; 0 for none */
    uint32_t unload_information_table;  /* where a copy of the address table is, to unload the DLL; 0 for none */
    uint32_t time_date_stamp;       /* of the DLL to which the image is bound; 0 where it is not bound */
} pe_c_delay_descriptor;

/* Where a walk over what is imported of a DLL stands. */
typedef struct {
    pe_c_range left;                /* its table from the next number on: 8 bytes each in PE32+, else 4 */
    uint32_t attributes;            /* those of the DLL's entry */
    uint32_t spare;                 /* 0 */
} pe_c_delayed_functions;

/* A walk over the DLLs. It starts as PE_C_EMPTY with what pe_c_delay_imports returns. */
typedef struct {
    pe_c_range entries;             /* those of the directory that are left */
    pe_c_kept_sections kept;        /* the sections of its last RVAs */
} pe_c_delay_import_walk;

/* A walk over what is imported of a DLL. */
typedef struct {
    pe_c_delayed_functions functions;  /* where it stands; at the start that of the DLL */
    pe_c_kept_sections kept;        /* the sections of its last RVAs */
} pe_c_delayed_function_walk;

/* A DLL that is loaded later. */
typedef struct {
    pe_c_range name;                /* of the DLL: UTF-8, without its final zero */
    pe_c_delayed_functions functions;   /* where a walk over its functions starts */
    pe_c_delay_descriptor descriptor;  /* the entry */
} pe_c_delay_import;

/* What is imported of a DLL that is loaded later. */
typedef struct {
    pe_c_range name;                /* UTF-8, without its final zero; empty unless has_name */
    uint32_t ordinal;               /* the ordinal; with a name its hint, an index into the DLL's table of names */
    uint32_t has_name;              /* 1 or 0 */
} pe_c_delayed_function;

/* A walk over the functions of all DLLs that are loaded later. It starts as PE_C_EMPTY with what pe_c_delay_imports returns as
 * `libraries`. */
typedef struct {
    pe_c_range libraries;           /* the entries of the directory after that of the DLL that is walked over */
    pe_c_delayed_functions functions;   /* the functions that this one has left */
    pe_c_range library_name;        /* of this one: UTF-8, without its final zero */
    uint64_t begun;                 /* how many DLLs were begun; 0 before the first */
} pe_c_library_functions;

/* A function, and the DLL that it is of. */
typedef struct {
    pe_c_delayed_function function; /* what pe_c_next_delayed_function returns */
    pe_c_range library_name;        /* of the DLL: UTF-8, without its final zero */
    uint64_t library;               /* index of the DLL in the order of the delay import directory */
} pe_c_library_function;

PE_C_SIZE(pe_c_delay_descriptor, 32);
PE_C_SIZE(pe_c_delayed_functions, 24);
PE_C_SIZE(pe_c_delay_import_walk, 24);
PE_C_SIZE(pe_c_delayed_function_walk, 32);
PE_C_SIZE(pe_c_delay_import, 72);
PE_C_SIZE(pe_c_delayed_function, 24);
PE_C_SIZE(pe_c_library_functions, 64);
PE_C_SIZE(pe_c_library_function, 48);

/* Returns the entries of the delay import directory, where a walk starts. PE_C_NOTHING where the directory is absent.
 * Errors: PE_C_UNMAPPED, PE_C_SHORT. */
PE_C_RESULT(1, 2)
static inline uint32_t pe_c_delay_imports(const pe_c_view *view, pe_c_range *out)
{
    return pe_c_directory_table(view, PE_C_DIRECTORY_DELAY_IMPORT, out);
}

/* ---- bound imports
 *
 * DLLs whose addresses the linker, or a tool after it, wrote into the import address table: they are valid as long as each
 * DLL has the time stamp that stands here. Each is followed by the DLLs that it forwards to. The directory stands in the
 * headers, so its RVA is an offset, and the offsets of names count from its start. */

/* A bound import, IMAGE_BOUND_IMPORT_DESCRIPTOR. */
typedef struct {
    pe_c_range name;                /* UTF-8, not NUL-terminated */
    pe_c_range forwarders;          /* 8 bytes each; a walk through the DLLs that this one forwards to */
    uint32_t time_date_stamp;       /* of the DLL */
    uint32_t spare;                 /* 0 */
} pe_c_bound_import;

/* A DLL that another one forwards to, IMAGE_BOUND_FORWARDER_REF. */
typedef struct {
    pe_c_range name;                /* UTF-8, not NUL-terminated */
    uint32_t time_date_stamp;       /* of the DLL */
    uint32_t spare;                 /* 0 */
} pe_c_bound_forwarder;

PE_C_SIZE(pe_c_bound_import, 40);
PE_C_SIZE(pe_c_bound_forwarder, 24);

/* Returns the bytes of the directory: the table that the next two calls take. PE_C_NOTHING where it is absent.
 * Error: PE_C_SHORT. */
uint32_t pe_c_bound_imports(const pe_c_view *view, pe_c_range *out) PE_C_RESULT(1, 2);

/* ---- version information and manifest
 *
 * Resources are a tree of directories: type, name, language. Version information is the first resource of type 16
 * (RT_VERSION), the manifest the first of type 24 (RT_MANIFEST).
 * https://learn.microsoft.com/windows/win32/menurc/vs-versioninfo
 *
 * The calls of an image return PE_C_NOTHING without resources or without one of the type. Damaged version information is no
 * error of the manifest, nor the reverse. They share these errors; the last two items are of version information:
 *   - the root directory: PE_C_UNMAPPED, PE_C_SHORT; PE_C_RESOURCE_BOUNDS where the data that the data directory names ends
 *     past the end of the file, and in strict mode where the root or its entries are not all inside the data;
 *   - the way to the resource: PE_C_SHORT, PE_C_RESOURCE_CYCLE;
 *   - its content: PE_C_SHORT, PE_C_UNMAPPED, PE_C_RESOURCE_BOUNDS;
 *   - the version strings: PE_C_SHORT, PE_C_RESOURCE_STRING;
 *   - the fixed file information: PE_C_SHORT. */

/* The fixed file information, VS_FIXEDFILEINFO. */
typedef struct {
    uint32_t signature;             /* 0xFEEF04BD */
    uint32_t struct_version;        /* of this record: major in the high 16 bits, minor in the low */
    uint32_t file_version_ms, file_version_ls;          /* 1.2.3.4 is 0x00010002 and 0x00030004 */
    uint32_t product_version_ms, product_version_ls;    /* likewise */
    uint32_t file_flags_mask;       /* which bits of file_flags are valid */
    uint32_t file_flags;            /* VS_FF_ flags */
    uint32_t file_os;               /* VOS_ */
    uint32_t file_type;             /* VFT_: 1 application, 2 DLL, 3 driver */
    uint32_t file_subtype;          /* VFT2_ */
    uint32_t file_date_ms, file_date_ls;    /* a FILETIME, mostly 0 */
} pe_c_version;

/* The names of version strings. */
enum {
    PE_C_COMMENTS = 0,
    PE_C_COMPANY_NAME = 1,
    PE_C_FILE_DESCRIPTION = 2,
    PE_C_FILE_VERSION = 3,
    PE_C_INTERNAL_NAME = 4,
    PE_C_LEGAL_COPYRIGHT = 5,
    PE_C_LEGAL_TRADEMARKS = 6,
    PE_C_ORIGINAL_FILENAME = 7,
    PE_C_PRIVATE_BUILD = 8,
    PE_C_PRODUCT_NAME = 9,
    PE_C_PRODUCT_VERSION = 10,
    PE_C_SPECIAL_BUILD = 11
};

PE_C_SIZE(pe_c_version, 52);

/* A block of version information, which is a tree of them. The first block, VS_VERSION_INFO, is all of it; its value is the
 * fixed file information. It contains StringFileInfo, with a string table for each language, whose blocks are strings with
 * any key; and VarFileInfo, with Translation, whose value is a language and a code page, uint16_t each, for each language of
 * the file. */
typedef struct {
    pe_c_range key;                 /* UTF-16 code units, little-endian, without the zero that ends them */
    pe_c_range value;               /* a text in UTF-16, which ends at the first zero, or binary data */
    pe_c_range children;            /* a walk over the blocks that it contains */
    uint32_t value_type;            /* 1 where the value is a text, 0 where it is binary data */
    uint32_t has_language;          /* 1 where the key is eight hexadecimal digits, as that of a string table; else 0 */
    uint32_t language;              /* the language identifier that the first four digits are; else 0 */
    uint32_t code_page;             /* the code page that the last four digits are; else 0 */
} pe_c_version_block;

PE_C_SIZE(pe_c_version_block, 64);

/* Returns version information as a walk over its blocks, of which the first is all of it. Its content is not read yet, so
 * the errors of version strings and of fixed file information are not among its errors. */
uint32_t pe_c_version_blocks(const pe_c_view *view, pe_c_range *out) PE_C_RESULT(1, 2);

/* Returns the range of the manifest, an XML text. */
uint32_t pe_c_manifest(const pe_c_view *view, pe_c_range *out) PE_C_RESULT(1, 2);

/* ---- resources
 *
 * All resources of an image, each in each language: the leaves of the tree. Its three levels are types, names and languages.
 * A hostile tree of n bytes can have (n/8)^3 leaves, since directories may be shared: bound the walk over a file that you do
 * not trust.
 * https://learn.microsoft.com/windows/win32/debug/pe-format#the-rsrc-section */

/* What names a type, a resource or a language: an id, or a name. */
typedef struct {
    pe_c_range name;                /* UTF-16 code units, little-endian, without a final zero; the empty range with an id */
    uint32_t id;                    /* below 2^16; 0 with a name */
    uint32_t has_name;              /* 1 with a name, 0 with an id */
} pe_c_resource_name;

/* A leaf of a resource tree. */
typedef struct {
    pe_c_resource_name resource_type;   /* an id is RT_ of winuser.h */
    pe_c_resource_name name;        /* the resource among those of its type */
    pe_c_resource_name language;    /* an id is a language identifier; 0 for any language */
    pe_c_range content;             /* the empty range where content_result is not PE_C_DONE */
    uint32_t content_result;        /* PE_C_DONE, or why the content is not in the file: PE_C_UNMAPPED,
                                       PE_C_RESOURCE_BOUNDS */
    uint32_t rva;                   /* RVA of the content */
    uint32_t size;                  /* bytes of the content */
    uint32_t code_page;             /* of texts in the content, mostly 0 */
} pe_c_resource_leaf;

/* IMAGE_RESOURCE_DIRECTORY_ENTRY. */
typedef struct {
    uint32_t name_or_id;            /* with bit 31 the offset of a name, else an id */
    uint32_t offset_to_data_or_directory;   /* with bit 31 the offset of a directory, else that of a data entry */
} pe_c_resource_entry;

/* Where a walk over leaves stands. The ranges of entries, 8 bytes each, count from the start of the tree. */
typedef struct {
    pe_c_range tree;                /* the data of the resource directory */
    pe_c_range types;               /* the types that are left */
    pe_c_range names;               /* the names that are left of a type */
    pe_c_range languages;           /* the languages that are left of a name */
    pe_c_resource_entry resource_type;  /* the entry of this type */
    pe_c_resource_entry name;       /* the entry of this name */
} pe_c_resource_walk;

/* A walk over leaves. It starts as PE_C_EMPTY with what pe_c_resource_leaves returns. */
typedef struct {
    pe_c_resource_walk leaves;      /* where it stands */
    pe_c_kept_sections kept;        /* the sections of its last RVAs */
} pe_c_leaf_walk;

/* A directory of the tree, IMAGE_RESOURCE_DIRECTORY. */
typedef struct {
    uint32_t characteristics;       /* reserved */
    uint32_t time_date_stamp;       /* seconds since the start of 1970, mostly 0 */
    uint16_t major_version;         /* of the resources */
    uint16_t minor_version;         /* of the resources */
    uint16_t number_of_named_entries;   /* which come first */
    uint16_t number_of_id_entries;  /* which follow them */
    pe_c_range entries;             /* a walk for pe_c_next_resource_item: of 65,535 entries at most */
} pe_c_resource_directory;

/* An entry of a directory, by its name. */
typedef struct {
    pe_c_resource_name name;        /* what names it */
    uint32_t offset;                /* of the directory to which it leads, or of the data entry, from the start of the
                                       tree */
    uint32_t is_directory;          /* 1 where it leads to a directory, else 0 */
} pe_c_resource_item;

PE_C_SIZE(pe_c_resource_name, 24);
PE_C_SIZE(pe_c_resource_leaf, 104);
PE_C_SIZE(pe_c_resource_entry, 8);
PE_C_SIZE(pe_c_resource_walk, 80);
PE_C_SIZE(pe_c_leaf_walk, 88);
PE_C_SIZE(pe_c_resource_directory, 32);
PE_C_SIZE(pe_c_resource_item, 32);

/* Returns where a walk over leaves starts; they come in the order of the entries of directories. PE_C_NOTHING where the
 * directory is absent, and in permissive mode where its data is too short for a directory.
 * Errors: PE_C_UNMAPPED, PE_C_SHORT of the root directory; PE_C_RESOURCE_BOUNDS where the data that the data directory names
 * ends past the end of the file, and in strict mode where the root or its entries are not all inside the data. */
uint32_t pe_c_resource_leaves(const pe_c_view *view, pe_c_resource_walk *out) PE_C_RESULT(1, 2);

/* Returns the root of the resource tree, the directory whose entries are types; pe_c_resource_directory_at returns the
 * others. PE_C_NOTHING where pe_c_resource_leaves returns it. In permissive mode the `entries` of a root are empty where they
 * are not all inside the data, and its two numbers of entries are as they stand. The tree, which pe_c_next_resource_item
 * takes, is that of pe_c_resource_leaves. Errors: those of pe_c_resource_leaves. */
uint32_t pe_c_resource_root(const pe_c_view *view, pe_c_resource_directory *out) PE_C_RESULT(1, 2);

/* Returns the directory at an offset of a tree, which is that of a walk over leaves: at 0 the root, whose entries are types,
 * else one to which an entry leads. A hostile tree may lead to a directory again, or many times: bound what you follow.
 * Errors: PE_C_SHORT where the tree is not inside the bytes, or the directory or its entries are not inside the tree. */
uint32_t pe_c_resource_directory_at(const uint8_t *bytes, size_t length, const pe_c_range *tree, uint32_t offset,
                                    pe_c_resource_directory *out) PE_C_RESULT(3, 5);

/* Returns the next entry of a directory of a tree: those with a name first.
 * Errors: PE_C_SHORT where the walk is not inside the bytes, or an entry is truncated, after which the walk is over;
 * PE_C_SHORT where the tree is not inside the bytes, or a name is not inside the tree, after which the walk is past its
 * entry. */
uint32_t pe_c_next_resource_item(const uint8_t *bytes, size_t length, const pe_c_range *tree, pe_c_range *walk,
                                 pe_c_resource_item *out) PE_C_RESULT(3, 4, 5);

/* Returns the fixed file information in the content of a leaf of type 16 (RT_VERSION). PE_C_NOTHING where it has none.
 * Errors: PE_C_SHORT where the content is not inside the bytes; PE_C_SHORT, PE_C_RESOURCE_STRING of the version strings;
 * PE_C_SHORT of the fixed file information. */
uint32_t pe_c_fixed_version_in(const uint8_t *bytes, size_t length, const pe_c_range *content, pe_c_version *out)
    PE_C_RESULT(3, 4);

/* Returns the value of a name in the content of such a leaf, as pe_c_version_text does. PE_C_NOTHING without a string of
 * that name, and for another number.
 * Errors: PE_C_SHORT where the content is not inside the bytes; PE_C_SHORT, PE_C_RESOURCE_STRING of the version strings. */
uint32_t pe_c_version_text_in(const uint8_t *bytes, size_t length, const pe_c_range *content, uint32_t name,
                              pe_c_range *out) PE_C_RESULT(3, 5);

/* ---- resources written
 *
 * The resources of an image changed: a caller lists the leaves that are there, changes the list, and passes all of it. The
 * new resources go over the data of the old ones' section, or where they do not fit there to the end of the image. What the
 * headers say of them changes too, and the checksum, which is made good, or stays 0 where it was 0.
 *
 * `bytes` are the whole file, also in mode PE_C_MAPPED. The calls read the headers from them, in the mode of `image`, whose
 * other fields make no difference.
 * https://learn.microsoft.com/windows/win32/debug/pe-format#the-rsrc-section */

/* A resource in one language. Its ranges are those of an array of bytes that is passed beside it. */
typedef struct {
    pe_c_resource_name resource_type;   /* an id is RT_ of winuser.h */
    pe_c_resource_name name;        /* the resource among those of its type; Windows looks names up in upper case */
    pe_c_range content;             /* its bytes */
    uint32_t language;              /* below 2^16 */
    uint32_t code_page;             /* of texts in the content; most linkers write 0 */
} pe_c_resource;

PE_C_SIZE(pe_c_resource, 72);

/* Writes the image with these resources in place of those that it has to the start of the array, and its length, which is
 * that of the file or more, or less without resources, to `written`. The rest of the array is unchanged, and all of it after
 * an error. `data` has the names and the contents, and may be `bytes`. The array overlaps none of the others; it may be
 * NULL if room_length is 0, the resources if resource_count is, and the data if data_length is.
 * The resources are sorted by type, name and language: names before ids, names by their code units, ids and languages by
 * their numbers. No two have the same type, name and language.
 * They go over the data of their section if they fit there, no other section follows it in memory before their end, and no
 * debug data and no base relocation lie in it; then no byte of the file moves. Otherwise they go to the end of the image,
 * into their own section if it is the last or into a new one, and what follows the data of the sections in the file moves
 * by the bytes that are added, a multiple of the file alignment; so do the pointers to COFF symbols and to the data of
 * debug entries there.
 * Without resources the entry of the resource directory becomes one of zeros. The section that they are in goes if it is the
 * last one in the section table, in memory and in the file, and not the only one, the image ends with it, nothing else is in
 * it and no debug data follow it: then what follows its data in the file moves back, and so does the pointer to COFF
 * symbols. Otherwise the section stays, with zeros in the place of its data if nothing else is in them.
 * Errors: those of pe_c_image; PE_C_EDIT_RECORD where a range is not inside the data, or an id or a language is not below
 * 2^16; PE_C_EDIT_NAMES where the names have more than 16 MiB, each counted as often as a resource has it;
 * PE_C_EDIT_CONTENTS where the contents, counted likewise, have more than 16 times the bytes of the data and of 1 MiB,
 * since each is written as often as a resource has it; PE_C_NO_OPTIONAL_HEADER; PE_C_EDIT_NO_DIRECTORY where the image has
 * fewer than three directories; PE_C_EDIT_SIGNED where it has certificates; PE_C_EDIT_TOO_MANY, PE_C_EDIT_NAME,
 * PE_C_EDIT_ORDER, PE_C_EDIT_TABLES_TOO_LARGE, PE_C_EDIT_TOO_LARGE of the resources; PE_C_EDIT_HEADERS where the
 * directories end after the start of the section table; PE_C_SHORT where that is truncated; PE_C_EDIT_ALIGNMENT where that
 * of sections is below 4096, or that of their data below 512 or no power of two; of a new section,
 * PE_C_EDIT_IMAGE_TOO_LARGE where its RVA or the offset of its data is not below 2^32, and PE_C_EDIT_TOO_LARGE of the
 * resources at its RVA; PE_C_EDIT_NO_HEADER_ROOM where no 40 zeros follow the section table in the headers, there are
 * 65,535 sections, or the PE signature lies in the DOS header; PE_C_EDIT_IMAGE_TOO_LARGE where the image ends after 4 GB;
 * PE_C_EDIT_SECTION where the data of the sections do not end in the file, at a multiple of the file alignment;
 * PE_C_EDIT_SHARED_SECTION where the entry point or a directory leads after the image in memory; PE_C_EDIT_SYMBOLS where
 * COFF symbols start before the end of the data and end after it; PE_C_EDIT_OVERLAP where a section ends after the image
 * in memory, or shares bytes with the headers; PE_C_EDIT_DEBUG_DATA where the debug entries do not lie between the section
 * headers and the data of that section, or the data of one neither end before these nor start after those of all sections;
 * PE_C_ROOM. */
uint32_t pe_c_edit(const pe_c_view *view, const pe_c_resource *resources, size_t resource_count, const uint8_t *data,
                   size_t data_length, uint8_t *room, size_t room_length, uint64_t *written) PE_C_RESULT(1, 8);

/* Writes a block of version information to the start of the array, with zeros up to a multiple of four bytes, where the next
 * block starts, and its length with them to `written`. The rest of the array is unchanged, and all of it after an error.
 * `key` is UTF-16 code units, little-endian, without a final zero; `is_text` is 0, or another number where the value is a
 * text, which has a final zero; `children` are the blocks in it, as this call writes them, one after the other. The array
 * overlaps none of the others; each may be NULL if its length is 0.
 * https://learn.microsoft.com/windows/win32/menurc/vs-versioninfo
 * Errors: PE_C_BLOCK_KEY where the key has an odd number of bytes, or a code unit of zero; PE_C_BLOCK_TEXT where the value
 * is a text of an odd number of bytes; PE_C_BLOCK_TOO_LONG where the block has more than 65,535 bytes; PE_C_ROOM. */
uint32_t pe_c_write_block(const uint8_t *key, size_t key_length, uint32_t is_text, const uint8_t *value,
                          size_t value_length, const uint8_t *children, size_t children_length, uint8_t *room,
                          size_t room_length, uint64_t *written) PE_C_RESULT(10);

/* A string of version information. Its ranges are those of an array of bytes that is passed beside it. */
typedef struct {
    pe_c_range name;                /* UTF-16 code units, little-endian, without a final zero */
    pe_c_range text;                /* likewise, with a final zero */
} pe_c_version_string;

PE_C_SIZE(pe_c_version_string, 32);

/* A language and a code page. */
typedef struct {
    uint16_t language;              /* as 0x409 for English (United States) */
    uint16_t code_page;             /* as 1200 for UTF-16 */
} pe_c_version_language;

PE_C_SIZE(pe_c_version_language, 4);

/* The strings of a language and a code page: so many of an array, one after the other. */
typedef struct {
    uint32_t first;                 /* the index of the first */
    uint32_t count;                 /* how many there are */
    pe_c_version_language language; /* in which the key of the table is written */
} pe_c_version_table;

PE_C_SIZE(pe_c_version_table, 12);

/* Writes version information, the content of a resource of type 16 (RT_VERSION), to the start of the array, and its length
 * to `written`. The rest of the array is unchanged, and all of it after an error. `tables` are the tables of strings,
 * `translations` the languages and code pages that the file supports, each in its order; `texts` has the names and the
 * texts. The array overlaps none of the others; each may be NULL if its length is 0.
 * Errors: PE_C_SHORT where a range of a string is not inside the texts, or the strings of a table are not all there;
 * PE_C_BLOCK_TOO_LONG where the tables have more than 65,535 bytes by the lengths of names and texts; PE_C_BLOCK_KEY where
 * a name has an odd number of bytes, or a code unit of zero; PE_C_BLOCK_TEXT where a text has an odd number of bytes;
 * PE_C_BLOCK_TOO_LONG where a string, a table, or a block of these has more than 65,535 bytes: of the blocks the first
 * refusal, each after those that are in it; PE_C_ROOM. */
uint32_t pe_c_write_version(const pe_c_version *fixed, const pe_c_version_table *tables, size_t table_count,
                            const pe_c_version_string *strings, size_t string_count,
                            const pe_c_version_language *translations, size_t translation_count, const uint8_t *texts,
                            size_t texts_length, uint8_t *room, size_t room_length, uint64_t *written) PE_C_RESULT(1, 12);

/* ---- thread-local storage
 *
 * The TLS directory has the data that each thread gets a copy of, and leads to the callbacks: functions that run when a
 * thread starts and ends, for the first thread before the entry point. All its addresses are virtual addresses.
 * https://learn.microsoft.com/windows/win32/debug/pe-format#the-tls-section */

/* The TLS directory, IMAGE_TLS_DIRECTORY. */
typedef struct {
    uint64_t start_address_of_raw_data; /* where the data starts of which each thread gets a copy */
    uint64_t end_address_of_raw_data;   /* where this data ends */
    uint64_t address_of_index;          /* where the loader writes the number of the slot that leads to a copy */
    uint64_t address_of_callbacks;      /* where the table of callbacks is; 0 where there are none */
    uint32_t size_of_zero_fill;         /* how many zeros follow the data in a copy, in bytes */
    uint32_t characteristics;           /* bits 20 to 23: the alignment, 1 to 14 for 1 to 8192 bytes */
} pe_c_tls_directory;

PE_C_SIZE(pe_c_tls_directory, 40);

/* Returns the TLS directory. PE_C_NOTHING where the directory is absent.
 * Errors: PE_C_UNMAPPED, PE_C_SHORT. */
uint32_t pe_c_tls(const pe_c_view *view, pe_c_tls_directory *out) PE_C_RESULT(1, 2);

/* Returns the callbacks of a TLS directory as a walk. PE_C_NOTHING where it has no table of them.
 * Errors: PE_C_DIRECTORY_VA_BELOW_BASE, PE_C_UNMAPPED. */
uint32_t pe_c_tls_callbacks(const pe_c_view *view, const pe_c_tls_directory *tls, pe_c_range *out) PE_C_RESULT(1, 2, 3);

/* Returns the next callback, a virtual address.
 * Error: PE_C_SHORT where the bytes end before the table does. */
uint32_t pe_c_next_tls_callback(const pe_c_view *view, pe_c_range *walk, uint64_t *out) PE_C_RESULT(1, 2, 3);

/* ---- load configuration
 *
 * What guards an image against attacks: the security cookie, the safe exception handlers of x86, the functions that may be
 * called indirectly. Versions of Windows have added fields at its end, so its first field says how many bytes it has.
 * https://learn.microsoft.com/windows/win32/debug/pe-format#the-load-configuration-structure-image-only */

/* IMAGE_LOAD_CONFIG_DIRECTORY32 or IMAGE_LOAD_CONFIG_DIRECTORY64, up to the guard flags. A field that the structure is too
 * short for, or the image, is 0, and so is the field of its name with has_, which else is 1. The addresses are virtual
 * addresses, mostly 0 where there is nothing: less image->base one is an RVA, for pe_c_offset. */
typedef struct {
    uint64_t security_cookie;       /* where the security cookie is */
    uint64_t se_handler_table;      /* x86: where the table of exception handlers is, their RVAs, sorted, 4 bytes each */
    uint64_t se_handler_count;      /* how many entries it has */
    uint64_t guard_cf_check_function_pointer;       /* where the pointer is to what checks the target of an indirect call */
    uint64_t guard_cf_dispatch_function_pointer;    /* where the pointer is to what checks the target and calls it */
    uint64_t guard_cf_function_table;   /* where the table is of the functions that may be called indirectly, sorted: an
                                           RVA each, 4 bytes, then guard_flags >> 28 bytes more */
    uint64_t guard_cf_function_count;   /* how many entries it has */
    uint32_t size;                  /* bytes of the structure, as it says itself */
    uint32_t time_date_stamp;       /* seconds since 1970 */
    uint32_t guard_flags;           /* IMAGE_GUARD_ flags */
    uint16_t major_version;         /* major part of a version */
    uint16_t minor_version;         /* minor part of a version */
    uint16_t dependent_load_flags;  /* where DLLs that the image imports are looked for, flags of LoadLibraryEx */
    uint16_t spare;                 /* 0 */
    uint8_t has_time_date_stamp;    /* 1 or 0, and so all that follow */
    uint8_t has_major_version;      /* 1 or 0 */
    uint8_t has_minor_version;      /* 1 or 0 */
    uint8_t has_dependent_load_flags;  /* 1 or 0 */
    uint8_t has_security_cookie;    /* 1 or 0 */
    uint8_t has_se_handler_table;   /* 1 or 0 */
    uint8_t has_se_handler_count;   /* 1 or 0 */
    uint8_t has_guard_cf_check_function_pointer;  /* 1 or 0 */
    uint8_t has_guard_cf_dispatch_function_pointer;  /* 1 or 0 */
    uint8_t has_guard_cf_function_table;  /* 1 or 0 */
    uint8_t has_guard_cf_function_count;  /* 1 or 0 */
    uint8_t has_guard_flags;        /* 1 or 0 */
} pe_c_load_config_directory;

PE_C_SIZE(pe_c_load_config_directory, 88);

/* Returns the load configuration. PE_C_NOTHING where the directory is absent. The size in the data directory is not used.
 * Errors: PE_C_UNMAPPED; PE_C_SHORT of the 4 bytes of its size. */
uint32_t pe_c_load_config(const pe_c_view *view, pe_c_load_config_directory *out) PE_C_RESULT(1, 2);

/* The fields that the record above does not have, by their numbers in the order of winnt.h. What is named a table or a
 * pointer is a virtual address, but for offsets; pe_c_guard_table walks tables of code. */
enum {
    PE_C_CONFIG_GLOBAL_FLAGS_CLEAR = 0, /* GlobalFlagsClear: flags that are cleared in the process */
    PE_C_CONFIG_GLOBAL_FLAGS_SET = 1, /* GlobalFlagsSet: flags that are set in it */
    PE_C_CONFIG_CRITICAL_SECTION_DEFAULT_TIMEOUT = 2, /* CriticalSectionDefaultTimeout: in milliseconds */
    PE_C_CONFIG_DE_COMMIT_FREE_BLOCK_THRESHOLD = 3, /* DeCommitFreeBlockThreshold: of a free block, in bytes */
    PE_C_CONFIG_DE_COMMIT_TOTAL_FREE_THRESHOLD = 4, /* DeCommitTotalFreeThreshold: of the heap, in bytes */
    PE_C_CONFIG_LOCK_PREFIX_TABLE = 5, /* LockPrefixTable: x86: where the addresses of lock prefixes are */
    PE_C_CONFIG_MAXIMUM_ALLOCATION_SIZE = 6, /* MaximumAllocationSize: of the largest allocation, in bytes */
    PE_C_CONFIG_VIRTUAL_MEMORY_THRESHOLD = 7, /* VirtualMemoryThreshold: in bytes */
    PE_C_CONFIG_PROCESS_AFFINITY_MASK = 8, /* ProcessAffinityMask: the processors that the process runs on */
    PE_C_CONFIG_PROCESS_HEAP_FLAGS = 9, /* ProcessHeapFlags: flags of HeapCreate */
    PE_C_CONFIG_CSD_VERSION = 10, /* CSDVersion: the version of the service pack */
    PE_C_CONFIG_EDIT_LIST = 11, /* EditList: reserved */
    PE_C_CONFIG_CODE_INTEGRITY_FLAGS = 12, /* CodeIntegrity.Flags */
    PE_C_CONFIG_CODE_INTEGRITY_CATALOG = 13, /* CodeIntegrity.Catalog: 0xFFFF for none */
    PE_C_CONFIG_CODE_INTEGRITY_CATALOG_OFFSET = 14, /* CodeIntegrity.CatalogOffset */
    PE_C_CONFIG_CODE_INTEGRITY_RESERVED = 15, /* CodeIntegrity.Reserved */
    PE_C_CONFIG_GUARD_ADDRESS_TAKEN_IAT_ENTRY_TABLE = 16, /* GuardAddressTakenIatEntryTable */
    PE_C_CONFIG_GUARD_ADDRESS_TAKEN_IAT_ENTRY_COUNT = 17, /* GuardAddressTakenIatEntryCount */
    PE_C_CONFIG_GUARD_LONG_JUMP_TARGET_TABLE = 18, /* GuardLongJumpTargetTable */
    PE_C_CONFIG_GUARD_LONG_JUMP_TARGET_COUNT = 19, /* GuardLongJumpTargetCount */
    PE_C_CONFIG_DYNAMIC_VALUE_RELOC_TABLE = 20, /* DynamicValueRelocTable: where the dynamic value relocations are */
    PE_C_CONFIG_CHPE_METADATA_POINTER = 21, /* CHPEMetadataPointer: where the metadata of x86 or x64 code on ARM64 is */
    PE_C_CONFIG_GUARD_RF_FAILURE_ROUTINE = 22, /* GuardRFFailureRoutine */
    PE_C_CONFIG_GUARD_RF_FAILURE_ROUTINE_FUNCTION_POINTER = 23, /* GuardRFFailureRoutineFunctionPointer */
    PE_C_CONFIG_DYNAMIC_VALUE_RELOC_TABLE_OFFSET = 24, /* DynamicValueRelocTableOffset: their offset in a section */
    PE_C_CONFIG_DYNAMIC_VALUE_RELOC_TABLE_SECTION = 25, /* DynamicValueRelocTableSection: its number, from 1 on */
    PE_C_CONFIG_GUARD_RF_VERIFY_STACK_POINTER_FUNCTION_POINTER = 26, /* GuardRFVerifyStackPointerFunctionPointer */
    PE_C_CONFIG_HOT_PATCH_TABLE_OFFSET = 27, /* HotPatchTableOffset: an RVA */
    PE_C_CONFIG_ENCLAVE_CONFIGURATION_POINTER = 28, /* EnclaveConfigurationPointer */
    PE_C_CONFIG_VOLATILE_METADATA_POINTER = 29, /* VolatileMetadataPointer */
    PE_C_CONFIG_GUARD_EH_CONTINUATION_TABLE = 30, /* GuardEHContinuationTable */
    PE_C_CONFIG_GUARD_EH_CONTINUATION_COUNT = 31, /* GuardEHContinuationCount */
    PE_C_CONFIG_GUARD_XFG_CHECK_FUNCTION_POINTER = 32, /* GuardXFGCheckFunctionPointer */
    PE_C_CONFIG_GUARD_XFG_DISPATCH_FUNCTION_POINTER = 33, /* GuardXFGDispatchFunctionPointer */
    PE_C_CONFIG_GUARD_XFG_TABLE_DISPATCH_FUNCTION_POINTER = 34, /* GuardXFGTableDispatchFunctionPointer */
    PE_C_CONFIG_CAST_GUARD_OS_DETERMINED_FAILURE_MODE = 35, /* CastGuardOsDeterminedFailureMode */
    PE_C_CONFIG_GUARD_MEMCPY_FUNCTION_POINTER = 36 /* GuardMemcpyFunctionPointer */
};

/* Returns the field with a number, PE_C_CONFIG_. PE_C_NOTHING where the image has no load configuration or this is too short
 * for the field, and for other numbers.
 * Errors: those of pe_c_load_config. */
uint32_t pe_c_load_config_field(const pe_c_view *view, uint32_t field, uint64_t *out) PE_C_RESULT(1, 3);

/* ---- tables of a load configuration
 *
 * Of code to which control may go: exception handlers of x86, functions that may be called indirectly, entries of the import
 * address table whose address is taken, targets of longjmp, and where execution goes on after exceptions. An entry is an RVA
 * of 4 bytes, and flags. Microsoft's linker sorts entries by RVA; that is not tested.
 * https://learn.microsoft.com/windows/win32/secbp/pe-metadata */

/* The tables, by their numbers. */
enum {
    PE_C_GUARD_SE_HANDLERS = 0,             /* SEHandlerTable */
    PE_C_GUARD_CF_FUNCTIONS = 1,            /* GuardCFFunctionTable */
    PE_C_GUARD_ADDRESS_TAKEN_IAT_ENTRIES = 2,   /* GuardAddressTakenIatEntryTable */
    PE_C_GUARD_LONG_JUMP_TARGETS = 3,       /* GuardLongJumpTargetTable */
    PE_C_GUARD_EH_CONTINUATIONS = 4         /* GuardEHContinuationTable */
};

/* A walk over the entries of a table. */
typedef struct {
    pe_c_range entries;             /* from the next entry to the end of the bytes; of no bytes where the table starts past
                                       it */
    uint64_t count;                 /* how many entries are left */
    uint32_t flag_size;             /* bytes of flags that an entry has after its RVA; of handlers 0 */
    uint32_t spare;                 /* 0 */
} pe_c_guard_entries;

PE_C_SIZE(pe_c_guard_entries, 32);

/* An entry of a table of a load configuration. */
typedef struct {
    pe_c_range flag_bytes;          /* the flags that follow the RVA */
    uint32_t rva;                   /* an RVA */
    uint32_t flags;                 /* their first byte, IMAGE_GUARD_FLAG_ flags; 0 where there is none */
} pe_c_guard_entry;

PE_C_SIZE(pe_c_guard_entry, 24);

/* Returns a walk over the table with a number, PE_C_GUARD_. PE_C_NOTHING where the image has no load configuration or this
 * has no such table, and for other numbers.
 * Errors: those of pe_c_load_config; PE_C_DIRECTORY_VA_BELOW_BASE, PE_C_UNMAPPED. */
uint32_t pe_c_guard_table(const pe_c_view *view, uint32_t table, pe_c_guard_entries *out) PE_C_RESULT(1, 3);

/* ---- base relocations
 *
 * What to change in an image that is not at its preferred base, in blocks of one page each.
 * https://learn.microsoft.com/windows/win32/debug/pe-format#the-reloc-section-image-only */

/* A block of base relocations, IMAGE_BASE_RELOCATION. */
typedef struct {
    pe_c_range entries;             /* 2 bytes each; a walk through the relocations of the block */
    uint32_t page_rva;              /* RVA of the page that they count from */
    uint32_t spare;                 /* 0 */
} pe_c_relocation_block;

PE_C_SIZE(pe_c_relocation_block, 24);

/* A base relocation. */
typedef struct {
    uint64_t rva;                   /* RVA of what to change; in a hostile block it may pass 32 bits */
    uint32_t kind;                  /* IMAGE_REL_BASED_ of winnt.h, below 16 */
    uint32_t argument;              /* low 16 bits of the number that IMAGE_REL_BASED_HIGHADJ (4) changes; else 0 */
} pe_c_relocation;

PE_C_SIZE(pe_c_relocation, 16);

/* Returns the blocks of the base relocations as a walk. PE_C_NOTHING where the directory is absent.
 * Errors: PE_C_UNMAPPED, PE_C_SHORT. */
PE_C_RESULT(1, 2)
static inline uint32_t pe_c_relocation_blocks(const pe_c_view *view, pe_c_range *out)
{
    return pe_c_directory_table(view, PE_C_DIRECTORY_BASERELOC, out);
}

/* ---- CLR header and metadata
 *
 * An image with a CLR header is one for the .NET runtime. The header leads to the metadata: a root with the version of the
 * runtime that the image was made for, and streams by their names, "#~" the tables, "#Strings", "#US", "#GUID", "#Blob".
 * ECMA-335, II.25.3.3 and II.24.2: https://www.ecma-international.org/publications-and-standards/standards/ecma-335/ */

/* The CLR header, IMAGE_COR20_HEADER. */
typedef struct {
    uint32_t cb;                    /* bytes of the header, as it says itself: 72 or more */
    uint16_t major_runtime_version; /* the version of the runtime that is needed */
    uint16_t minor_runtime_version; /* the version of the runtime that is needed, minor part */
    pe_c_directory metadata;        /* the metadata */
    uint32_t flags;                 /* COMIMAGE_FLAGS_ */
    uint32_t entry_point_token;     /* a metadata token; an RVA with COMIMAGE_FLAGS_NATIVE_ENTRYPOINT (0x10) */
    pe_c_directory resources;       /* managed resources */
    pe_c_directory strong_name_signature;  /* the strong name signature */
    pe_c_directory code_manager_table;  /* 0 */
    pe_c_directory vtable_fixups;   /* fixups of tables of virtual functions */
    pe_c_directory export_address_table_jumps;  /* 0 */
    pe_c_directory managed_native_header;   /* of code that was compiled ahead of time (ReadyToRun), else 0 */
} pe_c_cor20_header;

/* A walk over the streams of metadata. */
typedef struct {
    pe_c_range metadata;            /* the metadata, from which the offsets of streams count */
    pe_c_range headers;             /* the stream headers that are left, and the rest of the metadata */
    uint16_t count;                 /* how many streams are left */
    uint16_t spare;                 /* 0 */
    uint32_t spare_too;             /* 0 */
} pe_c_metadata_streams;

/* The root of the metadata. */
typedef struct {
    pe_c_range version;             /* such as "v4.0.30319", up to the first zero, and the zeros after it; UTF-8 is not tested */
    pe_c_metadata_streams streams;  /* a walk for pe_c_next_metadata_stream, at its start */
    uint16_t major_version;         /* of the format of metadata */
    uint16_t minor_version;         /* of the format of metadata */
    uint16_t flags;                 /* reserved */
    uint16_t spare;                 /* 0 */
} pe_c_metadata;

/* A stream of CLR metadata. */
typedef struct {
    pe_c_range name;                /* without its final zero; at most 31 bytes */
    pe_c_range content;             /* the stream's bytes; empty unless has_content */
    uint32_t offset;                /* of the stream, from the start of the metadata */
    uint32_t size;                  /* of the stream in bytes */
    uint32_t has_content;           /* 1 where the stream lies in the metadata, else 0 */
    uint32_t spare;                 /* 0 */
} pe_c_metadata_stream;

PE_C_SIZE(pe_c_cor20_header, 72);
PE_C_SIZE(pe_c_metadata_streams, 40);
PE_C_SIZE(pe_c_metadata, 64);
PE_C_SIZE(pe_c_metadata_stream, 48);

/* Returns the CLR header. PE_C_NOTHING where the directory is absent. The size in the data directory is not used.
 * Errors: PE_C_UNMAPPED, PE_C_SHORT of its 72 bytes; PE_C_DIRECTORY_CLR_HEADER_SIZE. */
uint32_t pe_c_clr_header(const pe_c_view *view, pe_c_cor20_header *out) PE_C_RESULT(1, 2);

/* Returns the root of the metadata of a CLR header.
 * Errors: PE_C_UNMAPPED; PE_C_SHORT of the metadata, then of the root's first 16 bytes; PE_C_BAD_MAGIC; PE_C_SHORT of the
 * rest of the root. */
uint32_t pe_c_clr_metadata(const pe_c_view *view, const pe_c_cor20_header *header, pe_c_metadata *out)
    PE_C_RESULT(1, 2, 3);

/* Returns the next stream of the metadata.
 * Errors: PE_C_SHORT of the stream header's first 8 bytes; PE_C_DIRECTORY_STREAM_NAME where its name does not end in 32
 * bytes; PE_C_SHORT of the zeros after the name, up to a multiple of 4. */
uint32_t pe_c_next_metadata_stream(const uint8_t *bytes, size_t length, pe_c_metadata_streams *walk,
                                   pe_c_metadata_stream *out) PE_C_RESULT(3, 4);

/* ---- texts
 *
 * Names and texts are ranges of the bytes, in UTF-8 or in UTF-16, little-endian. They may hold anything, control characters
 * too. A call that writes a text ends it with a zero, and `written` gets its length without the zero. Where the array has no
 * more bytes than the text the call returns PE_C_ROOM: then the array is unchanged, and `written` is how many bytes it has
 * to have. It may be NULL if room_length is 0, and overlaps no other argument. */

/* How a GUID is written. Other numbers are as PE_C_GUID_DIGITS. */
enum {
    PE_C_GUID_HYPHENS = 0,          /* 497B72F6-390A-44FC-878E-5A2D63B6CC4B, 36 characters */
    PE_C_GUID_DIGITS = 1            /* 497B72F6390A44FC878E5A2D63B6CC4B, 32 characters, as on a symbol server */
};

/* Writes the text of a GUID, the first 16 of these bytes, as those of pe_c_key.
 * Errors: PE_C_SHORT where there are fewer; PE_C_ROOM. */
uint32_t pe_c_guid_text(const uint8_t *guid, size_t guid_length, uint32_t form, char *room, size_t room_length,
                        uint64_t *written) PE_C_RESULT(6);

/* Writes the text of a range in UTF-16 as UTF-8. U+FFFD stands for a surrogate without a partner, zeros in the text are
 * characters, and an odd byte at the end is left out.
 * Errors: PE_C_SHORT where the range is not inside the bytes; PE_C_ROOM. */
uint32_t pe_c_utf16_text(const uint8_t *bytes, size_t length, const pe_c_range *range, char *room, size_t room_length,
                         uint64_t *written) PE_C_RESULT(3, 6);

/* A text in the bytes. */
typedef struct {
    pe_c_range text;                /* what stands before the first zero */
    uint32_t is_terminated;         /* 1 where a zero follows: then bytes + text.offset is a string of C; else 0 */
    uint32_t spare;                 /* 0 */
} pe_c_text_in_bytes;

PE_C_SIZE(pe_c_text_in_bytes, 24);

/* Returns the text in a range up to its first zero, and whether a zero follows it, in the range or right after it.
 * Error: PE_C_SHORT where the range is not inside the bytes. */
uint32_t pe_c_text_in(const uint8_t *bytes, size_t length, const pe_c_range *range,
                      pe_c_text_in_bytes *out) PE_C_RESULT(3, 4);

/* ---- lists in one call
 *
 * Each of these calls fills an array with what the calls of one walk return, one after the other, and leaves the walk after
 * them: the next call goes on there. `written` gets the number of entries; it is 0 at the end of the walk alone. The rest of
 * the array is unchanged.
 *
 *     uint64_t written;
 *     uint32_t result;
 *     while ((result = pe_c_list_exports(&view, &walk, NULL, 0, entries, 64, &written)) == PE_C_DONE && written > 0)
 *         use(entries, written);
 *
 * An error is that of the walk, returned by a call of its own: where entries come before it, a call returns these with
 * PE_C_DONE, and the next one the error. After an error `entries` and `written` are unchanged, and the walk is as that of
 * its call is after an error. PE_C_ROOM, and nothing changes, where number_of_entries is 0. */

/* Lists the functions of a table as pe_c_function_at reads them, from the index `next` on, which moves past them.
 * Errors: PE_C_ROOM; PE_C_SHORT where the table is not inside the bytes. */
uint32_t pe_c_list_functions(const uint8_t *bytes, size_t length, const pe_c_range *table, uint64_t *next,
                             pe_c_function *entries, size_t number_of_entries, uint64_t *written) PE_C_RESULT(3, 4, 7);

/* Lists the unwind codes of a walk. Errors: PE_C_ROOM; those of pe_c_next_code. */
uint32_t pe_c_list_codes(const uint8_t *bytes, size_t length, pe_c_walk *walk, pe_c_code *entries, size_t number_of_entries,
                         uint64_t *written) PE_C_RESULT(3, 6);

/* Lists all codes of a record, of which these are the bytes of its codes alone. It keeps no walk: `written` is set after an
 * error and after PE_C_ROOM too, to the number of codes before it, which are written. A record has at most 255 codes.
 * Errors: PE_C_ROOM where bytes are left after number_of_entries codes, whatever they start with; those of
 * pe_c_next_code. */
uint32_t pe_c_all_codes(const uint8_t *bytes, size_t length, const pe_c_code_form *form, pe_c_code *entries,
                        size_t number_of_entries, uint64_t *written) PE_C_RESULT(3, 6);

/* Lists the functions of an ARM64 table as pe_c_arm64_function_at reads them, from the index `next` on, which moves past
 * them.
 * Errors: PE_C_ROOM; PE_C_SHORT where the table is not inside the bytes. */
uint32_t pe_c_list_arm64_functions(const uint8_t *bytes, size_t length, const pe_c_range *table, uint64_t *next,
                                   pe_c_arm64_function *entries, size_t number_of_entries, uint64_t *written)
    PE_C_RESULT(3, 4, 7);

/* Lists the ARM64 unwind codes of a walk. Errors: PE_C_ROOM; those of pe_c_next_arm64_code. */
uint32_t pe_c_list_arm64_codes(const uint8_t *bytes, size_t length, pe_c_arm64_walk *walk, pe_c_arm64_code *entries,
                               size_t number_of_entries, uint64_t *written) PE_C_RESULT(3, 6);

/* Room for what the calls that take runs find out of names and lists; what is in it has no meaning to callers, and what is in
 * it after a call is left open. Names that share a text are read together as far as there are runs: a hostile file may let all
 * of them start in one long text. Others are read to their end each, so NULL and 0 do where a caller has no such files. */
typedef struct {
    uint64_t start;                 /* the offset of a name */
    uint64_t end;                   /* the offset of the zero after it */
    uint64_t text;                  /* where the longest text starts that ends there */
} pe_c_run;

PE_C_SIZE(pe_c_run, 24);

/* Lists the exports that have a name, and reads names and forwarders' texts together where they share much. With two runs for
 * each entry that the name table has left, or more, a call takes about as long as to sort these and to read each byte a few
 * times, however many of the texts overlap. A call looks at no more entries for that than there are runs.
 * Errors: PE_C_ROOM; PE_C_SHORT where the tables are not inside the bytes. */
uint32_t pe_c_list_exports(const pe_c_view *view, pe_c_export_walk *walk, pe_c_run *runs, size_t number_of_runs,
                           pe_c_export *entries, size_t number_of_entries, uint64_t *written) PE_C_RESULT(1, 2, 7);

/* Lists the libraries of an import directory, and reads the names together, and looks for the ends of the lists of imports
 * together. With two runs for each library that is left, or more, this takes about as long as to sort these and to read each
 * byte a few times, at most ten, however many share a text or a list. Errors: PE_C_ROOM; those of pe_c_next_library. */
uint32_t pe_c_list_libraries(const pe_c_view *view, pe_c_library_walk *walk, pe_c_run *runs, size_t number_of_runs,
                             pe_c_library *entries, size_t number_of_entries, uint64_t *written) PE_C_RESULT(1, 2, 7);

/* Lists the imports of a library, and reads the names together, with a run for each import that is left, or more.
 * Errors: PE_C_ROOM; those of pe_c_next_import. */
uint32_t pe_c_list_imports(const pe_c_view *view, pe_c_import_walk *walk, pe_c_run *runs, size_t number_of_runs,
                           pe_c_import *entries, size_t number_of_entries, uint64_t *written) PE_C_RESULT(1, 2, 7);

/* Lists the imports of all libraries, one library after the other, and reads the names of the libraries and of the imports
 * together. With a run for each of the entries and one for each library that is left, or more, a call takes about as long as
 * to sort these and to read each byte a few times, however many names share a text. With fewer, as with none, further names
 * are read to their end each, also those of libraries without an import. Libraries may share a list, whose imports are
 * listed for each of them: `number_of_entries` bounds what a call takes.
 * Errors: PE_C_ROOM; those of pe_c_next_library and pe_c_next_import, in the order of the walk. */
uint32_t pe_c_list_all_imports(const pe_c_view *view, pe_c_library_imports *walk, pe_c_run *runs, size_t number_of_runs,
                               pe_c_library_import *entries, size_t number_of_entries,
                               uint64_t *written) PE_C_RESULT(1, 2, 7);

/* Lists all exports as pe_c_export_at reads them, from the index `next` on, which moves past them, and reads the texts of
 * forwarders together, with a run for each of the entries, or more.
 * Errors: PE_C_ROOM; PE_C_SHORT where the table is not inside the bytes. */
uint32_t pe_c_list_export_addresses(const pe_c_view *view, const pe_c_address_table *table, uint64_t *next, pe_c_run *runs,
                                    size_t number_of_runs, pe_c_exported *entries, size_t number_of_entries,
                                    uint64_t *written) PE_C_RESULT(1, 2, 3, 8);

/* Lists the long names of the sections of an image, from the index `next` on, which moves past them: what
 * pe_c_long_section_name returns of each, and an empty range where that returns PE_C_NOTHING. `table` is the string table.
 * Names are read together, with a run for each of the entries, or more: an image may have 65,535 sections, and one string
 * for all of them. Of an image the call reads the bytes and the sections alone, so with those of an object, and any record
 * as `image`, it lists the names of that.
 * Errors: PE_C_ROOM; PE_C_SHORT where a section is left, and `table` is not inside the bytes. */
uint32_t pe_c_list_long_section_names(const pe_c_view *view, const pe_c_range *table, uint64_t *next, pe_c_run *runs,
                                      size_t number_of_runs, pe_c_range *entries, size_t number_of_entries,
                                      uint64_t *written) PE_C_RESULT(1, 2, 3, 8);

/* A COFF symbol with its name. */
typedef struct {
    pe_c_symbol_entry symbol;       /* the symbol */
    pe_c_range name;                /* UTF-8, not NUL-terminated; empty after an error */
    uint32_t name_result;           /* what pe_c_symbol_name returns: PE_C_DONE, or the error of this name alone */
    uint32_t spare;                 /* 0 */
} pe_c_named_symbol;

/* A walk over COFF symbols with their names: of an object what pe_c_coff_symbols and pe_c_coff_strings return. Without a
 * string table the range is empty. */
typedef struct {
    pe_c_symbol_walk symbols;       /* what pe_c_coff_symbols returns */
    pe_c_range strings;             /* what pe_c_coff_strings returns */
} pe_c_named_symbol_walk;

PE_C_SIZE(pe_c_named_symbol, 72);
PE_C_SIZE(pe_c_named_symbol_walk, 40);

/* Lists the symbols of a walk as pe_c_next_symbol returns them, each with what pe_c_symbol_name returns of it. Names are
 * read together where they share much, as by pe_c_list_exports, here with one run for each entry that the symbol table has
 * left, or more; the string table stays as it is.
 * Errors: PE_C_ROOM; PE_C_SHORT where the symbol table is not inside the bytes. */
uint32_t pe_c_list_symbols(const uint8_t *bytes, size_t length, pe_c_named_symbol_walk *walk, pe_c_run *runs,
                           size_t number_of_runs, pe_c_named_symbol *entries, size_t number_of_entries,
                           uint64_t *written) PE_C_RESULT(3, 8);

/* Lists the leaves of a resource tree. Errors: PE_C_ROOM; those of pe_c_next_resource_leaf. */
uint32_t pe_c_list_resource_leaves(const pe_c_view *view, pe_c_leaf_walk *walk, pe_c_resource_leaf *entries,
                                   size_t number_of_entries, uint64_t *written) PE_C_RESULT(1, 2, 5);

/* Lists blocks of version information. Errors: PE_C_ROOM; those of pe_c_next_version_block. */
uint32_t pe_c_list_version_blocks(const uint8_t *bytes, size_t length, pe_c_range *walk, pe_c_version_block *entries,
                                  size_t number_of_entries, uint64_t *written) PE_C_RESULT(3, 6);

/* Lists the blocks of base relocations. Errors: PE_C_ROOM; those of pe_c_next_relocation_block. */
uint32_t pe_c_list_relocation_blocks(const uint8_t *bytes, size_t length, pe_c_range *walk, pe_c_relocation_block *entries,
                                     size_t number_of_entries, uint64_t *written) PE_C_RESULT(3, 6);

/* Lists the relocations of a block, whose page RVA is page_rva. Errors: PE_C_ROOM; those of pe_c_next_relocation. */
uint32_t pe_c_list_relocations(const uint8_t *bytes, size_t length, uint32_t page_rva, pe_c_range *walk,
                               pe_c_relocation *entries, size_t number_of_entries, uint64_t *written) PE_C_RESULT(4, 7);

/* Lists the DLLs of a delay import directory, and reads the names together, with a run for each of the entries, or more.
 * Errors: PE_C_ROOM; those of pe_c_next_delay_import. */
uint32_t pe_c_list_delay_imports(const pe_c_view *view, pe_c_delay_import_walk *walk, pe_c_run *runs,
                                 size_t number_of_runs, pe_c_delay_import *entries, size_t number_of_entries,
                                 uint64_t *written) PE_C_RESULT(1, 2, 7);

/* Lists what is imported of a DLL that is loaded later, and reads the names together, with a run for each of the entries, or
 * more. Errors: PE_C_ROOM; those of pe_c_next_delayed_function. */
uint32_t pe_c_list_delayed_functions(const pe_c_view *view, pe_c_delayed_function_walk *walk, pe_c_run *runs,
                                     size_t number_of_runs, pe_c_delayed_function *entries, size_t number_of_entries,
                                     uint64_t *written) PE_C_RESULT(1, 2, 7);

/* Lists the functions of all delay-loaded DLLs, one DLL after the other, and reads the names of the DLLs and of their
 * functions together. With a run for each of the entries and one for each DLL that is left, or more, a call takes about as
 * long as to sort these and to read each byte a few times, however many names share a text; and without an index in the
 * view it tests the sections in turn for each address. With fewer runs, as with none, further names are read to their end
 * each, also those of DLLs without a function. DLLs may share a table, whose functions are listed for each of them:
 * `number_of_entries` bounds what a call takes.
 * Errors: PE_C_ROOM; those of pe_c_next_delay_import and pe_c_next_delayed_function, in the order of the walk. */
uint32_t pe_c_list_all_delayed_functions(const pe_c_view *view, pe_c_library_functions *walk, pe_c_run *runs,
                                         size_t number_of_runs, pe_c_library_function *entries, size_t number_of_entries,
                                         uint64_t *written) PE_C_RESULT(1, 2, 7);

/* Lists bound imports as pe_c_next_bound_import returns them, and reads the names together, with a run for each of the
 * entries, or more. `table` is the range of the directory. Errors: PE_C_ROOM; those of pe_c_next_bound_import. */
uint32_t pe_c_list_bound_imports(const uint8_t *bytes, size_t length, const pe_c_range *table, pe_c_range *walk,
                                 pe_c_run *runs, size_t number_of_runs, pe_c_bound_import *entries,
                                 size_t number_of_entries, uint64_t *written) PE_C_RESULT(3, 4, 9);

/* Lists the same of the DLLs that a DLL forwards to, as pe_c_next_bound_forwarder returns them. The 8 bytes of a DLL are
 * read as those of a forwarder are: a walk through the whole directory, at first a copy of `table`, lists the names and time
 * stamps of all DLLs and their forwarders, in their order, where to list the forwarders of each would cost a text that they
 * share for each. Errors: PE_C_ROOM; those of pe_c_next_bound_forwarder. */
uint32_t pe_c_list_bound_forwarders(const uint8_t *bytes, size_t length, const pe_c_range *table, pe_c_range *walk,
                                    pe_c_run *runs, size_t number_of_runs, pe_c_bound_forwarder *entries,
                                    size_t number_of_entries, uint64_t *written) PE_C_RESULT(3, 4, 9);

/* Lists the entries of a POGO record. Errors: PE_C_ROOM; those of pe_c_next_pogo_entry. */
uint32_t pe_c_list_pogo_entries(const uint8_t *bytes, size_t length, pe_c_range *walk, pe_c_pogo_entry *entries,
                                size_t number_of_entries, uint64_t *written) PE_C_RESULT(3, 6);

/* Lists the entries of a table of a load configuration. Errors: PE_C_ROOM; those of pe_c_next_guard_entry. */
uint32_t pe_c_list_guard_entries(const uint8_t *bytes, size_t length, pe_c_guard_entries *walk, pe_c_guard_entry *entries,
                                 size_t number_of_entries, uint64_t *written) PE_C_RESULT(3, 6);

/* ---- the next item
 *
 * The items of a walk come one by one, and texts that overlap are read once each. A list of many entries takes less for each of
 * them. But for four calls, of which a list with room for one takes much more, these functions are defined here, and are no calls
 * of the library: each is a list with room for one entry, and returns PE_C_NOTHING where the list writes none. */

/* Returns the next code of a record, in the order in which they are undone: the last instruction of the prolog first.
 * Errors: PE_C_SHORT where the walk is not inside the bytes, or a code is truncated; PE_C_UNWIND_CODE for an invalid
 * code. */
PE_C_RESULT(3, 4)
static inline uint32_t pe_c_next_code(const uint8_t *bytes, size_t length, pe_c_walk *walk, pe_c_code *out)
{
    uint64_t written = 0;
    uint32_t result = pe_c_list_codes(bytes, length, walk, out, 1, &written);
    return result == PE_C_DONE && written == 0 ? (uint32_t)PE_C_NOTHING : result;
}

/* Returns the next code. The walk does not stop at PE_C_ARM64_END and PE_C_ARM64_END_C, since the codes of epilogs
 * follow; the caller stops there.
 * Errors: PE_C_SHORT where the walk is not inside the bytes; PE_C_ARM64_STREAM where its offset plus the bytes left is not a
 * multiple of 4 or is above 4,294,967,292, as in no walk of pe_c_arm64_codes; PE_C_ARM64_CUT for a truncated code. */
PE_C_RESULT(3, 4)
static inline uint32_t pe_c_next_arm64_code(const uint8_t *bytes, size_t length, pe_c_arm64_walk *walk, pe_c_arm64_code *out)
{
    uint64_t written = 0;
    uint32_t result = pe_c_list_arm64_codes(bytes, length, walk, out, 1, &written);
    return result == PE_C_DONE && written == 0 ? (uint32_t)PE_C_NOTHING : result;
}

/* Returns the next export. Entries are skipped whose name is unmapped, not NUL-terminated or not UTF-8, or whose index is
 * past the table of RVAs. Each name and each forwarder's text is read to its end, so texts that overlap are read once each.
 * Errors: PE_C_SHORT where the tables are not inside the bytes. */
PE_C_RESULT(1, 2, 3)
static inline uint32_t pe_c_next_export(const pe_c_view *view, pe_c_export_walk *walk, pe_c_export *out)
{
    uint64_t written = 0;
    uint32_t result = pe_c_list_exports(view, walk, NULL, 0, out, 1, &written);
    return result == PE_C_DONE && written == 0 ? (uint32_t)PE_C_NOTHING : result;
}

/* Returns the next library. The directory ends at a record whose name or address table has the RVA 0. A list whose RVA is
 * unmapped is empty. Names and lists that overlap are read once each.
 * Errors: PE_C_SHORT where the record is truncated; PE_C_UNMAPPED, PE_C_IMPORT_NAME of the name; PE_C_SHORT where no zero
 * entry ends the list. */
uint32_t pe_c_next_library(const pe_c_view *view, pe_c_library_walk *walk, pe_c_library *out) PE_C_RESULT(1, 2, 3);

/* Returns the next import of a library.
 * Errors: PE_C_SHORT where the walk is not inside the bytes, or its last entry is truncated; PE_C_UNMAPPED of the RVA in
 * the entry; PE_C_SHORT of the hint there; PE_C_IMPORT_NAME of the name. */
uint32_t pe_c_next_import(const pe_c_view *view, pe_c_import_walk *walk, pe_c_import *out) PE_C_RESULT(1, 2, 3);

/* Returns the next DLL. The directory ends with its bytes, or at an entry without the address of a name.
 * Errors: PE_C_SHORT of the entry; PE_C_DIRECTORY_VA_BELOW_BASE, PE_C_UNMAPPED, PE_C_DIRECTORY_DELAY_IMPORT_NAME of the
 * name; PE_C_DIRECTORY_VA_BELOW_BASE, PE_C_UNMAPPED of the table of functions. */
PE_C_RESULT(1, 2, 3)
static inline uint32_t pe_c_next_delay_import(const pe_c_view *view, pe_c_delay_import_walk *walk,
                                              pe_c_delay_import *out)
{
    uint64_t written = 0;
    uint32_t result = pe_c_list_delay_imports(view, walk, NULL, 0, out, 1, &written);
    return result == PE_C_DONE && written == 0 ? (uint32_t)PE_C_NOTHING : result;
}

/* Returns the next function of a DLL.
 * Errors: PE_C_SHORT where the bytes end before the table does; of an import by name PE_C_DIRECTORY_VA_BELOW_BASE,
 * PE_C_UNMAPPED of its address, PE_C_SHORT of the hint there, PE_C_DIRECTORY_DELAY_IMPORT_NAME. */
PE_C_RESULT(1, 2, 3)
static inline uint32_t pe_c_next_delayed_function(const pe_c_view *view, pe_c_delayed_function_walk *walk,
                                                  pe_c_delayed_function *out)
{
    uint64_t written = 0;
    uint32_t result = pe_c_list_delayed_functions(view, walk, NULL, 0, out, 1, &written);
    return result == PE_C_DONE && written == 0 ? (uint32_t)PE_C_NOTHING : result;
}

/* Returns the next DLL. The walk starts as a copy of the table. The list ends with the table, or at an entry without a name.
 * Errors: PE_C_SHORT of the entry and its forwarders; PE_C_SHORT where the table is not inside the bytes;
 * PE_C_DIRECTORY_BOUND_IMPORT_NAME. */
PE_C_RESULT(3, 4, 5)
static inline uint32_t pe_c_next_bound_import(const uint8_t *bytes, size_t length, const pe_c_range *table, pe_c_range *walk,
                                              pe_c_bound_import *out)
{
    uint64_t written = 0;
    uint32_t result = pe_c_list_bound_imports(bytes, length, table, walk, NULL, 0, out, 1, &written);
    return result == PE_C_DONE && written == 0 ? (uint32_t)PE_C_NOTHING : result;
}

/* Returns the next DLL that a DLL forwards to. The walk starts as the `forwarders` of that.
 * Errors: PE_C_SHORT of the entry; PE_C_SHORT where the table is not inside the bytes; PE_C_DIRECTORY_BOUND_IMPORT_NAME. */
PE_C_RESULT(3, 4, 5)
static inline uint32_t pe_c_next_bound_forwarder(const uint8_t *bytes, size_t length, const pe_c_range *table,
                                                 pe_c_range *walk, pe_c_bound_forwarder *out)
{
    uint64_t written = 0;
    uint32_t result = pe_c_list_bound_forwarders(bytes, length, table, walk, NULL, 0, out, 1, &written);
    return result == PE_C_DONE && written == 0 ? (uint32_t)PE_C_NOTHING : result;
}

/* Returns the next block. A walk ends with its bytes, or at a block of length 0. Unlike other walks this one may go on after
 * an error, with the block after that which has the error; it is over where a call returns PE_C_NOTHING.
 * Errors: PE_C_SHORT where the block is truncated, which ends the walk; PE_C_RESOURCE_STRING where its length is below 6,
 * which ends the walk, or its key has no zero code unit in it, after which the walk goes on. */
PE_C_RESULT(3, 4)
static inline uint32_t pe_c_next_version_block(const uint8_t *bytes, size_t length, pe_c_range *walk, pe_c_version_block *out)
{
    uint64_t written = 0;
    uint32_t result = pe_c_list_version_blocks(bytes, length, walk, out, 1, &written);
    return result == PE_C_DONE && written == 0 ? (uint32_t)PE_C_NOTHING : result;
}

/* Returns the next leaf. A content that is not in the file is no error of its leaf.
 * Errors: PE_C_SHORT where the walk is not inside the bytes, or its entries are not inside its tree; of the entry of a type
 * or a name PE_C_TREE_NOT_DIRECTORY, PE_C_SHORT of its directory and of the entries there, PE_C_TREE_NO_ENTRIES; of the
 * entry of a language PE_C_TREE_NOT_DATA, PE_C_SHORT of its data entry; PE_C_SHORT of a name. */
PE_C_RESULT(1, 2, 3)
static inline uint32_t pe_c_next_resource_leaf(const pe_c_view *view, pe_c_leaf_walk *walk, pe_c_resource_leaf *out)
{
    uint64_t written = 0;
    uint32_t result = pe_c_list_resource_leaves(view, walk, out, 1, &written);
    return result == PE_C_DONE && written == 0 ? (uint32_t)PE_C_NOTHING : result;
}

/* Returns the next block. PE_C_NOTHING also where a block of zeros, page and size, ends the list.
 * Errors: PE_C_SHORT of the header; PE_C_DIRECTORY_BLOCK_SIZE; PE_C_DIRECTORY_BLOCK_TRUNCATED. */
PE_C_RESULT(3, 4)
static inline uint32_t pe_c_next_relocation_block(const uint8_t *bytes, size_t length, pe_c_range *walk,
                                                  pe_c_relocation_block *out)
{
    uint64_t written = 0;
    uint32_t result = pe_c_list_relocation_blocks(bytes, length, walk, out, 1, &written);
    return result == PE_C_DONE && written == 0 ? (uint32_t)PE_C_NOTHING : result;
}

/* Returns the next relocation of a block. `page_rva` is that of the block, and the walk starts as its entries. Those of kind
 * IMAGE_REL_BASED_ABSOLUTE (0), which fill up a block, are returned too.
 * Errors: PE_C_SHORT of the entry; PE_C_DIRECTORY_NO_ARGUMENT. */
PE_C_RESULT(4, 5)
static inline uint32_t pe_c_next_relocation(const uint8_t *bytes, size_t length, uint32_t page_rva, pe_c_range *walk,
                                            pe_c_relocation *out)
{
    uint64_t written = 0;
    uint32_t result = pe_c_list_relocations(bytes, length, page_rva, walk, out, 1, &written);
    return result == PE_C_DONE && written == 0 ? (uint32_t)PE_C_NOTHING : result;
}

/* Returns the next entry of a table. Error: PE_C_SHORT where the bytes end before the table does, or the walk is not inside
 * them. */
PE_C_RESULT(3, 4)
static inline uint32_t pe_c_next_guard_entry(const uint8_t *bytes, size_t length, pe_c_guard_entries *walk,
                                             pe_c_guard_entry *out)
{
    uint64_t written = 0;
    uint32_t result = pe_c_list_guard_entries(bytes, length, walk, out, 1, &written);
    return result == PE_C_DONE && written == 0 ? (uint32_t)PE_C_NOTHING : result;
}

/* Returns the next entry of a POGO record.
 * Errors: PE_C_SHORT where the walk is not inside the bytes, or fewer than 8 bytes are left; PE_C_POGO_NAME where the name
 * is not NUL-terminated, or its padding to a multiple of 4 bytes is truncated. */
PE_C_RESULT(3, 4)
static inline uint32_t pe_c_next_pogo_entry(const uint8_t *bytes, size_t length, pe_c_range *walk, pe_c_pogo_entry *out)
{
    uint64_t written = 0;
    uint32_t result = pe_c_list_pogo_entries(bytes, length, walk, out, 1, &written);
    return result == PE_C_DONE && written == 0 ? (uint32_t)PE_C_NOTHING : result;
}

/* Returns the next frame of a stack walk on x64, in the walk: what pe_c_next_frames returns of one, which tests the modules in each
 * call.
 * Errors, which change nothing: those of pe_c_next_frames. */
PE_C_RESULT(7)
static inline uint32_t pe_c_next_frame(const pe_c_module *modules, size_t module_count, const uint8_t *memory,
                                       size_t memory_length, const pe_c_memory_piece *pieces, size_t piece_count,
                                       pe_c_stack_walk *walk)
{
    pe_c_stack_walk found = PE_C_EMPTY;
    uint64_t written = 0;
    return pe_c_next_frames(modules, module_count, memory, memory_length, pieces, piece_count, walk, &found, 1, &written);
}

/* The same on ARM64.
 * Errors, which change nothing: those of pe_c_next_frames. */
PE_C_RESULT(7)
static inline uint32_t pe_c_next_arm64_frame(const pe_c_module *modules, size_t module_count, const uint8_t *memory,
                                             size_t memory_length, const pe_c_memory_piece *pieces, size_t piece_count,
                                             pe_c_arm64_stack_walk *walk)
{
    pe_c_arm64_stack_walk found = PE_C_EMPTY;
    uint64_t written = 0;
    return pe_c_next_arm64_frames(modules, module_count, memory, memory_length, pieces, piece_count, walk, &found, 1, &written);
}

/* Returns the function with an index, from 0.
 * Errors: PE_C_SHORT where the table is not inside the bytes; PE_C_FUNCTION_INDEX where it has no such entry. */
uint32_t pe_c_function_at(const uint8_t *bytes, size_t length, const pe_c_range *table, uint64_t index,
                          pe_c_function *out) PE_C_RESULT(3, 5);

/* Returns the function with an index, from 0.
 * Errors: PE_C_SHORT where the table is not inside the bytes; PE_C_FUNCTION_INDEX where it has no such entry. */
PE_C_RESULT(3, 5)
static inline uint32_t pe_c_arm64_function_at(const uint8_t *bytes, size_t length, const pe_c_range *table, uint64_t index,
                                              pe_c_arm64_function *out)
{
    uint64_t written = 0;
    uint32_t result = pe_c_list_arm64_functions(bytes, length, table, &index, out, 1, &written);
    return result == PE_C_DONE && written == 0 ? (uint32_t)PE_C_FUNCTION_INDEX : result;
}

/* Returns the export with an index, from 0. PE_C_NOTHING where the table has no such entry.
 * Errors: PE_C_SHORT where the table is not inside the bytes. */
uint32_t pe_c_export_at(const pe_c_view *view, const pe_c_address_table *table, uint64_t index,
                        pe_c_exported *out) PE_C_RESULT(1, 2, 4);

/* Reads the symbol in an entry of a symbol table. PE_C_NOTHING past the last entry. Auxiliary records have entries of their
 * own, and nothing in these says that they are no symbols.
 * Error: PE_C_SHORT where the table is not inside the bytes. */
PE_C_RESULT(3, 5)
static inline uint32_t pe_c_symbol(const uint8_t *bytes, size_t length, const pe_c_range *table, uint64_t index,
                                   pe_c_symbol_entry *out)
{
    pe_c_symbol_walk walk = {*table, index};
    return pe_c_next_symbol(bytes, length, &walk, out);
}

/* ---- two calls
 *
 * These functions are defined here too. Each makes a call, and where that is done another over what it wrote. */

/* Returns the fixed file information. PE_C_NOTHING also where version information has none. A damaged string is an error too:
 * without the strings the same is read by pe_c_fixed_version_in, of the first 92 bytes of what pe_c_version_blocks returns.
 * Errors: those of pe_c_version_blocks, then those of pe_c_fixed_version_in. */
PE_C_RESULT(1, 2)
static inline uint32_t pe_c_fixed_version(const pe_c_view *view, pe_c_version *out)
{
    pe_c_range found = PE_C_EMPTY;
    uint32_t result = pe_c_version_blocks(view, &found);
    return result == PE_C_DONE ? pe_c_fixed_version_in(view->bytes, view->length, &found, out) : result;
}

/* Returns the value of a name, PE_C_COMMENTS .. PE_C_SPECIAL_BUILD: UTF-16 code units, little-endian, with the zeros after
 * the text, which ends at the first zero. PE_C_NOTHING also without a string of that name, and for another number.
 * Errors: those of pe_c_version_blocks, then those of pe_c_version_text_in. */
PE_C_RESULT(1, 3)
static inline uint32_t pe_c_version_text(const pe_c_view *view, uint32_t name, pe_c_range *out)
{
    if (name > PE_C_SPECIAL_BUILD)
        return PE_C_NOTHING;
    pe_c_range found = PE_C_EMPTY;
    uint32_t result = pe_c_version_blocks(view, &found);
    return result == PE_C_DONE ? pe_c_version_text_in(view->bytes, view->length, &found, name, out) : result;
}

/* ---- why headers, a directory or a step are refused
 *
 * A walk is over after an error. Keep a copy of it from before each step, or of where it stands: these calls read the same
 * item again, by the copy, which does not move, and return the result of the step and the numbers of its error. PE_C_NOTHING
 * where the step returns no error. They never return an error.
 *
 *     pe_c_libraries before = walk.libraries;
 *     if (pe_c_next_library(&view, &walk, &library) == PE_C_UNMAPPED
 *         && pe_c_library_failure(&view, &before, &failure) == PE_C_DONE)
 *         printf("no section maps the RVA %#llx\n", (unsigned long long)failure.value);
 *
 * The numbers: of PE_C_SHORT `offset` and `needed`; of PE_C_UNMAPPED `value`, the RVA; of others those that each call
 * names; each that an error does not have is 0. All of them are proved. */

/* Kinds of items that these two calls read, each also by a function of its name. */
enum {
    PE_C_FAILED_CERTIFICATE = 1,    /* by pe_c_certificate_failure */
    PE_C_FAILED_RELOCATION_BLOCK = 2, /* by pe_c_relocation_block_failure */
    PE_C_FAILED_RELOCATION = 3,     /* by pe_c_relocation_failure */
    PE_C_FAILED_BOUND_IMPORT = 4,   /* by pe_c_bound_import_failure */
    PE_C_FAILED_SYMBOL_NAME = 5,    /* by pe_c_symbol_name_failure */
    PE_C_FAILED_LIBRARY = 6,        /* by pe_c_library_failure */
    PE_C_FAILED_IMPORT = 7,         /* by pe_c_import_failure */
    PE_C_FAILED_RESOURCE_LEAF = 8,  /* by pe_c_resource_leaf_failure */
    PE_C_FAILED_ARM64_RECORD = 9,   /* by pe_c_arm64_record_failure */
    PE_C_FAILED_DELAY_IMPORT = 10,  /* by pe_c_delay_import_failure */
    PE_C_FAILED_DELAYED_FUNCTION = 11, /* by pe_c_delayed_function_failure */
    PE_C_FAILED_DIRECTORY = 12,     /* by pe_c_directory_failure */
    PE_C_FAILED_IMAGE = 13,         /* by pe_c_image_failure */
    PE_C_FAILED_TE = 14,            /* by pe_c_te_failure */
    PE_C_FAILED_DEBUG_RECORD = 15,  /* by pe_c_debug_failure */
    PE_C_FAILED_SECTIONS = 16       /* by pe_c_sections_failure */
};

/* What is read of an item: the fields of its kind alone. */
typedef struct {
    pe_c_range range;               /* a walk that is a range */
    pe_c_range table;               /* of a walk over bound imports, or of symbols */
    pe_c_range strings;             /* of symbols */
    uint64_t index;                 /* of a symbol, or the offset of section headers */
    pe_c_libraries libraries;       /* a walk over libraries */
    pe_c_imports imports;           /* a walk over imports */
    pe_c_resource_walk leaves;      /* a walk over leaves */
    pe_c_delayed_functions functions; /* a walk over the functions of a DLL that is loaded later */
    pe_c_arm64_function function;   /* a function on ARM64 */
    uint32_t number;                /* the RVA of the page of a block, the index of a directory, or a mode */
    uint32_t record;                /* as which record that of an entry is read, as of pe_c_debug_failure */
    pe_c_debug_entry entry;         /* of the debug directory */
    uint16_t number_of_sections;    /* how many section headers there are */
    uint16_t spare;                 /* is never read */
} pe_c_failed_item;

PE_C_SIZE(pe_c_failed_item, 248);

/* Returns why an item of a kind is refused that bytes alone have: PE_C_FAILED_CERTIFICATE, _RELOCATION_BLOCK, _RELOCATION,
 * _BOUND_IMPORT, _SYMBOL_NAME, _IMAGE, _TE, _DEBUG_RECORD, _SECTIONS. PE_C_NOTHING of another
 * kind. */
uint32_t pe_c_item_failure(const uint8_t *bytes, size_t length, uint32_t kind, const pe_c_failed_item *item,
                           pe_c_failure *out) PE_C_RESULT(4, 5);

/* Returns why an item of another of these kinds is refused. PE_C_NOTHING of any else. */
uint32_t pe_c_image_item_failure(const pe_c_view *view, uint32_t kind, const pe_c_failed_item *item,
                                 pe_c_failure *out) PE_C_RESULT(1, 3, 4);

/* Returns why pe_c_image refuses the bytes in this mode. PE_C_NOTHING where it does not. It never returns an error.
 *
 * A number that is refused has its offset, and `needed` is how many bytes it has. PE_C_SHORT has `offset` and `needed`. */
PE_C_RESULT(4)
static inline uint32_t pe_c_image_failure(const uint8_t *bytes, size_t length, uint32_t mode, pe_c_failure *out)
{
    pe_c_failed_item item = PE_C_EMPTY;
    item.number = mode;
    return pe_c_item_failure(bytes, length, PE_C_FAILED_IMAGE, &item, out);
}

/* Returns what is wrong with a directory, PE_C_DIRECTORY_EXPORT and so on: the result of the call that reads it, and the
 * numbers of that error. PE_C_NOTHING where that call returns no error, and of a directory that no call reads. It never
 * returns an error.
 *
 * The calls: pe_c_export_tables, pe_c_import_libraries, pe_c_resource_leaves; pe_c_function_table, of ARM64
 * pe_c_arm64_table; pe_c_next_certificate of the first certificate, in an image as loaded of what is at that offset;
 * pe_c_relocation_blocks, pe_c_debug_entries, pe_c_tls, pe_c_load_config, pe_c_bound_imports, pe_c_delay_imports,
 * pe_c_clr_header.
 *
 * The numbers: of PE_C_SHORT `offset` and `needed`; of PE_C_CERTIFICATE_SIZE `needed`; of PE_C_UNMAPPED `value`, the RVA; of
 * PE_C_EXCEPTION_SIZE, PE_C_CERTIFICATE_REVISION, PE_C_CERTIFICATE_TYPE and PE_C_DIRECTORY_CLR_HEADER_SIZE `value`; of
 * PE_C_EXCEPTION_OFFSET `offset`; of PE_C_EXCEPTION_BOUNDS, PE_C_DEBUG_BOUNDS, PE_C_RESOURCE_BOUNDS and
 * PE_C_CERTIFICATE_TABLE `offset`, where the table ends. */
PE_C_RESULT(1, 3)
static inline uint32_t pe_c_directory_failure(const pe_c_view *view, uint32_t index, pe_c_failure *out)
{
    pe_c_failed_item item = PE_C_EMPTY;
    item.number = index;
    return pe_c_image_item_failure(view, PE_C_FAILED_DIRECTORY, &item, out);
}

/* Returns why pe_c_sections refuses the section headers of an image, whatever room it is given. PE_C_NOTHING where it does
 * not. It never returns an error. The failure is PE_C_SHORT, with the offset of the headers and the bytes that they need. Of
 * pe_c_te_sections it is what this call returns with the sections_offset 40. */
PE_C_RESULT(3, 4)
static inline uint32_t pe_c_sections_failure(const uint8_t *bytes, size_t length, const pe_c_image_info *image,
                                             pe_c_failure *out)
{
    pe_c_failed_item item = PE_C_EMPTY;
    item.index = image->sections_offset;
    item.number_of_sections = image->number_of_sections;
    return pe_c_item_failure(bytes, length, PE_C_FAILED_SECTIONS, &item, out);
}

/* Returns why pe_c_te refuses the bytes. PE_C_NOTHING where it does not. It never returns an error. */
PE_C_RESULT(3)
static inline uint32_t pe_c_te_failure(const uint8_t *bytes, size_t length, pe_c_failure *out)
{
    pe_c_failed_item item = PE_C_EMPTY;
    item.number = 0;
    return pe_c_item_failure(bytes, length, PE_C_FAILED_TE, &item, out);
}

/* Returns what is wrong with the record of an entry of the debug directory that is read as one of these, whatever the entry's type
 * is: its result by pe_c_debug_record, and the numbers of that error. PE_C_NOTHING where that is no error, and of a kind that is
 * none of these. It never returns an error.
 *
 * The numbers: of PE_C_SHORT `offset` and `needed`; of PE_C_DEBUG_DATA `needed`; of PE_C_DEBUG_SIZE and PE_C_POGO_SIZE
 * `value`, the size that the entry says; of PE_C_BAD_MAGIC `value`. */
PE_C_RESULT(4, 6)
static inline uint32_t pe_c_debug_failure(const uint8_t *bytes, size_t length, uint32_t mode,
                                          const pe_c_debug_entry *entry, uint32_t kind, pe_c_failure *out)
{
    pe_c_failed_item item = PE_C_EMPTY;
    item.entry = *entry;
    item.number = mode;
    item.record = kind;
    return pe_c_item_failure(bytes, length, PE_C_FAILED_DEBUG_RECORD, &item, out);
}

/* Of pe_c_next_library. PE_C_UNMAPPED, PE_C_IMPORT_NAME: `value`, the RVA of the library's name. */
PE_C_RESULT(1, 2, 3)
static inline uint32_t pe_c_library_failure(const pe_c_view *view, const pe_c_libraries *walk, pe_c_failure *out)
{
    pe_c_failed_item item = PE_C_EMPTY;
    item.libraries = *walk;
    return pe_c_image_item_failure(view, PE_C_FAILED_LIBRARY, &item, out);
}

/* Of pe_c_next_import. PE_C_UNMAPPED, PE_C_IMPORT_NAME: `value`, the RVA of the hint before the name. */
PE_C_RESULT(1, 2, 3)
static inline uint32_t pe_c_import_failure(const pe_c_view *view, const pe_c_imports *walk, pe_c_failure *out)
{
    pe_c_failed_item item = PE_C_EMPTY;
    item.imports = *walk;
    return pe_c_image_item_failure(view, PE_C_FAILED_IMPORT, &item, out);
}

/* Of pe_c_unwind_record, which takes the same. PE_C_FUNCTION_LINK: `value`, the link, which is odd: the RVA of no entry,
 * plus 1; PE_C_FUNCTION_CYCLE: `value`, the unwind RVA from which links never end; PE_C_UNWIND_VERSION: `value`. */
uint32_t pe_c_unwind_record_failure(const pe_c_view *view, const pe_c_range *table, uint32_t unwind,
                                    pe_c_failure *out) PE_C_RESULT(1, 2, 4);

/* Of pe_c_next_code. PE_C_UNWIND_CODE: `value`, the second byte of the code: its operation, and what that takes above. */
uint32_t pe_c_code_failure(const uint8_t *bytes, size_t length, const pe_c_walk *walk,
                           pe_c_failure *out) PE_C_RESULT(3, 4);

/* Of pe_c_next_resource_leaf. PE_C_TREE_NOT_DIRECTORY, PE_C_TREE_NOT_DATA, PE_C_TREE_NO_ENTRIES: `offset`, of what the entry
 * leads to, from the first directory. */
PE_C_RESULT(1, 2, 3)
static inline uint32_t pe_c_resource_leaf_failure(const pe_c_view *view, const pe_c_resource_walk *walk,
                                                  pe_c_failure *out)
{
    pe_c_failed_item item = PE_C_EMPTY;
    item.leaves = *walk;
    return pe_c_image_item_failure(view, PE_C_FAILED_RESOURCE_LEAF, &item, out);
}

/* Of pe_c_next_certificate. PE_C_CERTIFICATE_TABLE: `offset`, where the walk ends; PE_C_CERTIFICATE_SIZE: `needed`, the
 * length that the certificate states; PE_C_CERTIFICATE_REVISION, PE_C_CERTIFICATE_TYPE: `value`. */
PE_C_RESULT(3, 4)
static inline uint32_t pe_c_certificate_failure(const uint8_t *bytes, size_t length, const pe_c_range *walk,
                                                pe_c_failure *out)
{
    pe_c_failed_item item = PE_C_EMPTY;
    item.range = *walk;
    return pe_c_item_failure(bytes, length, PE_C_FAILED_CERTIFICATE, &item, out);
}

/* Of pe_c_next_relocation_block. PE_C_DIRECTORY_BLOCK_SIZE: `value`, the size; PE_C_DIRECTORY_BLOCK_TRUNCATED: `needed`, the
 * size, and `value`, how many bytes are left. */
PE_C_RESULT(3, 4)
static inline uint32_t pe_c_relocation_block_failure(const uint8_t *bytes, size_t length, const pe_c_range *walk,
                                                     pe_c_failure *out)
{
    pe_c_failed_item item = PE_C_EMPTY;
    item.range = *walk;
    return pe_c_item_failure(bytes, length, PE_C_FAILED_RELOCATION_BLOCK, &item, out);
}

/* Of pe_c_next_relocation, which takes the same `page_rva`. PE_C_DIRECTORY_NO_ARGUMENT: `value`, the RVA of the
 * relocation. */
PE_C_RESULT(4, 5)
static inline uint32_t pe_c_relocation_failure(const uint8_t *bytes, size_t length, uint32_t page_rva,
                                               const pe_c_range *walk, pe_c_failure *out)
{
    pe_c_failed_item item = PE_C_EMPTY;
    item.range = *walk;
    item.number = page_rva;
    return pe_c_item_failure(bytes, length, PE_C_FAILED_RELOCATION, &item, out);
}

/* Of pe_c_arm64_unwind_record. PE_C_ARM64_VERSION: `value`; those of the table as in pe_c_directory_failure. */
PE_C_RESULT(1, 2, 3)
static inline uint32_t pe_c_arm64_record_failure(const pe_c_view *view, const pe_c_arm64_function *function,
                                                 pe_c_failure *out)
{
    pe_c_failed_item item = PE_C_EMPTY;
    item.function = *function;
    return pe_c_image_item_failure(view, PE_C_FAILED_ARM64_RECORD, &item, out);
}

/* Of pe_c_next_arm64_code. PE_C_ARM64_CUT: `offset`, of the code, from the start of the stream; PE_C_ARM64_STREAM: `value`,
 * how many bytes are left. */
uint32_t pe_c_arm64_code_failure(const uint8_t *bytes, size_t length, const pe_c_arm64_walk *walk,
                                 pe_c_failure *out) PE_C_RESULT(3, 4);

/* Of pe_c_next_delay_import. PE_C_DIRECTORY_VA_BELOW_BASE: `value`, the address; PE_C_DIRECTORY_DELAY_IMPORT_NAME:
 * `offset`. */
PE_C_RESULT(1, 2, 3)
static inline uint32_t pe_c_delay_import_failure(const pe_c_view *view, const pe_c_range *walk, pe_c_failure *out)
{
    pe_c_failed_item item = PE_C_EMPTY;
    item.range = *walk;
    return pe_c_image_item_failure(view, PE_C_FAILED_DELAY_IMPORT, &item, out);
}

/* Of pe_c_next_delayed_function. The same numbers. */
PE_C_RESULT(1, 2, 3)
static inline uint32_t pe_c_delayed_function_failure(const pe_c_view *view, const pe_c_delayed_functions *walk,
                                                     pe_c_failure *out)
{
    pe_c_failed_item item = PE_C_EMPTY;
    item.functions = *walk;
    return pe_c_image_item_failure(view, PE_C_FAILED_DELAYED_FUNCTION, &item, out);
}

/* Of pe_c_next_bound_import, which takes the same `table`. PE_C_DIRECTORY_BOUND_IMPORT_NAME: `offset`, from the start of
 * `table`. */
PE_C_RESULT(3, 4, 5)
static inline uint32_t pe_c_bound_import_failure(const uint8_t *bytes, size_t length, const pe_c_range *table,
                                                 const pe_c_range *walk, pe_c_failure *out)
{
    pe_c_failed_item item = PE_C_EMPTY;
    item.range = *walk;
    item.table = *table;
    return pe_c_item_failure(bytes, length, PE_C_FAILED_BOUND_IMPORT, &item, out);
}

/* Of pe_c_symbol_name, which takes the same. PE_C_STRING_TABLE: `offset`, from the start of `strings`, unless the name is in
 * the entry itself. */
PE_C_RESULT(3, 4, 6)
static inline uint32_t pe_c_symbol_name_failure(const uint8_t *bytes, size_t length, const pe_c_range *table,
                                                const pe_c_range *strings, uint64_t index, pe_c_failure *out)
{
    pe_c_failed_item item = PE_C_EMPTY;
    item.table = *table;
    item.strings = *strings;
    item.index = index;
    return pe_c_item_failure(bytes, length, PE_C_FAILED_SYMBOL_NAME, &item, out);
}

/* ---- minidumps
 *
 * A minidump is a file of its own kind: `bytes` are those of the dump, and offsets count from its start. Its directory says
 * where each stream is, one of each kind. A caller takes the range of a stream once, and reads its records by index, until
 * PE_C_NOTHING. A stream that is damaged costs that stream alone.
 *
 * The stack of a thread: pe_c_dump_thread_context reads the registers that count, those of the exception first. The images
 * of the modules make pe_c_module records: pe_c_is_image_of says which image is a module's. pe_c_dump_memory_at and
 * pe_c_next_memory64 return the pieces of memory, which pe_c_next_frame takes with the bytes of the dump as its memory. The
 * stacks that the records of threads name are pieces after these: a dump without a list of memory has them alone.
 * pe_c_memory_runs puts them in order, for walks over many pieces, and by pe_c_memory_ranges the dump's own memory has
 * images.
 *
 * A location is what a record says, and may be anywhere: the calls that take one test it.
 * https://learn.microsoft.com/windows/win32/api/minidumpapiset/ */

/* Kinds of streams, MINIDUMP_STREAM_TYPE. Others are bytes. */
enum {
    PE_C_THREAD_LIST_STREAM = 3,    /* threads */
    PE_C_MODULE_LIST_STREAM = 4,    /* modules */
    PE_C_MEMORY_LIST_STREAM = 5,    /* pieces of memory */
    PE_C_EXCEPTION_STREAM = 6,      /* the exception */
    PE_C_SYSTEM_INFO_STREAM = 7,    /* the system */
    PE_C_MEMORY64_LIST_STREAM = 9,  /* pieces of memory of a full dump */
    PE_C_HANDLE_DATA_STREAM = 12,   /* handles */
    PE_C_FUNCTION_TABLE_STREAM = 13, /* function tables of code that was made as the process ran, as bytes */
    PE_C_UNLOADED_MODULE_LIST_STREAM = 14, /* modules that were unloaded */
    PE_C_MISC_INFO_STREAM = 15,     /* the process */
    PE_C_MEMORY_INFO_LIST_STREAM = 16, /* regions of memory */
    PE_C_THREAD_INFO_LIST_STREAM = 17, /* more on threads */
    PE_C_THREAD_NAMES_STREAM = 24,  /* names of threads */
    PE_C_DUMP_ENTRIES = 0           /* no stream: what pe_c_dump_record takes for the entries of the directory */
};

/* The header, MINIDUMP_HEADER. */
typedef struct {
    pe_c_range directory;           /* entries of 12 bytes */
    uint64_t flags;                 /* what the writer was asked for, MINIDUMP_TYPE */
    uint32_t version;               /* A793h in the low 16 bits; the others are the writer's own */
    uint32_t number_of_streams;     /* the number of entries of the directory */
    uint32_t check_sum;             /* mostly 0 */
    uint32_t time_date_stamp;       /* when the dump was written, in seconds since 1970 */
} pe_c_dump_info;

/* Where bytes are, MINIDUMP_LOCATION_DESCRIPTOR. One of no bytes says that there are none. */
typedef struct {
    uint32_t size;                  /* in bytes */
    uint32_t rva;                   /* offset in the dump */
} pe_c_dump_location;

/* An entry of the directory, MINIDUMP_DIRECTORY. */
typedef struct {
    uint32_t stream_type;           /* PE_C_*_STREAM; 0 is none */
    pe_c_dump_location location;    /* where the stream is */
} pe_c_dump_entry;

/* The memory of a stack, MINIDUMP_MEMORY_DESCRIPTOR. It may be empty: the pieces of memory have what there is of it. */
typedef struct {
    uint64_t start_of_memory_range; /* address of the first byte */
    pe_c_dump_location memory;      /* where its bytes are: nowhere at offset 0, which full dumps say, where the header is */
} pe_c_dump_stack;

/* A thread, MINIDUMP_THREAD. */
typedef struct {
    uint32_t thread_id;             /* the ID of the thread */
    uint32_t suspend_count;         /* 0 if it runs */
    uint32_t priority_class;        /* the priority class of the process */
    uint32_t priority;              /* the priority of the thread */
    uint64_t teb;                   /* address of its environment block */
    pe_c_dump_stack stack;          /* the memory of its stack */
    pe_c_dump_location thread_context; /* no bytes where it has none */
} pe_c_dump_thread;

/* The version of a module, VS_FIXEDFILEINFO. A signature of 0 says that there is none. */
typedef struct {
    uint32_t signature;             /* FEEF04BDh */
    uint32_t struc_version;         /* the version of this structure */
    uint32_t file_version_ms;       /* major part in the upper 16 bits, minor part in the lower */
    uint32_t file_version_ls;       /* build and revision */
    uint32_t product_version_ms;    /* of the product: major and minor part */
    uint32_t product_version_ls;    /* build and revision */
    uint32_t file_flags_mask;       /* which bits of the flags are valid */
    uint32_t file_flags;            /* `VS_FF_*` */
    uint32_t file_os;               /* `VOS_*` */
    uint32_t file_type;             /* `VFT_*` */
    uint32_t file_subtype;          /* `VFT2_*` */
    uint32_t file_date_ms;          /* the date of the file, upper half */
    uint32_t file_date_ls;          /* lower half */
} pe_c_dump_version;

/* A module, MINIDUMP_MODULE. */
typedef struct {
    uint64_t base_of_image;         /* address where it is loaded */
    uint32_t size_of_image;         /* SizeOfImage of its image */
    uint32_t check_sum;             /* CheckSum of its image */
    uint32_t time_date_stamp;       /* TimeDateStamp of its image */
    uint32_t module_name_rva;       /* its path, for pe_c_dump_text */
    pe_c_dump_version version_info; /* its version */
    pe_c_dump_location cv_record;   /* its CodeView record, which pe_c_codeview reads as a range. No bytes where there is
                                       none */
    pe_c_dump_location misc_record; /* its IMAGE_DEBUG_MISC */
    uint32_t spare;                 /* 0 */
} pe_c_dump_module;

/* The name of a thread, MINIDUMP_THREAD_NAME. */
typedef struct {
    uint64_t rva_of_thread_name;    /* for pe_c_dump_text */
    uint32_t thread_id;             /* the ID of the thread */
    uint32_t spare;                 /* 0 */
} pe_c_dump_thread_name;

/* A module that was unloaded, MINIDUMP_UNLOADED_MODULE. */
typedef struct {
    uint64_t base_of_image;         /* address where it was loaded */
    uint32_t size_of_image;         /* in bytes */
    uint32_t check_sum;             /* `CheckSum` of its image */
    uint32_t time_date_stamp;       /* `TimeDateStamp` of its image */
    uint32_t module_name_rva;       /* for pe_c_dump_text */
} pe_c_dump_unloaded;

/* More on a thread, MINIDUMP_THREAD_INFO. */
typedef struct {
    uint32_t thread_id;             /* the ID of the thread */
    uint32_t dump_flags;            /* MINIDUMP_THREAD_INFO_*: 2 is the thread that wrote the dump */
    uint32_t dump_error;            /* an HRESULT of the writer */
    uint32_t exit_status;           /* 259 while it runs */
    uint64_t create_time;           /* in 100 ns since 1601 */
    uint64_t exit_time;             /* when it ended, likewise */
    uint64_t kernel_time;           /* in 100 ns */
    uint64_t user_time;             /* likewise */
    uint64_t start_address;         /* of its function */
    uint64_t affinity;              /* the processors on which it may run */
} pe_c_dump_thread_info;

/* A handle, MINIDUMP_HANDLE_DESCRIPTOR. */
typedef struct {
    uint64_t handle;                /* the value of the handle */
    uint32_t type_name_rva;         /* for pe_c_dump_text; 0 if there is none */
    uint32_t object_name_rva;       /* likewise */
    uint32_t attributes;            /* its attributes */
    uint32_t granted_access;        /* what its holder may do */
    uint32_t handle_count;          /* how many handles its object has */
    uint32_t pointer_count;         /* how many references its object has */
} pe_c_dump_handle;

/* A region of memory, MINIDUMP_MEMORY_INFO. */
typedef struct {
    uint64_t base_address;          /* address of the first byte */
    uint64_t allocation_base;       /* address of the allocation that it is part of */
    uint64_t region_size;           /* in bytes */
    uint32_t allocation_protect;    /* PAGE_* */
    uint32_t state;                 /* MEM_COMMIT, MEM_RESERVE or MEM_FREE */
    uint32_t protect;               /* PAGE_* */
    uint32_t memory_type;           /* MEM_IMAGE, MEM_MAPPED or MEM_PRIVATE */
} pe_c_dump_region;

/* The exception that a dump was written for, MINIDUMP_EXCEPTION_STREAM. */
typedef struct {
    uint32_t thread_id;             /* the ID of the thread */
    uint32_t exception_code;        /* the code, as C0000005h */
    uint32_t exception_flags;       /* 1 if the thread cannot go on, or 0 */
    uint32_t number_parameters;     /* as the file says, so it may be above 15 */
    uint64_t exception_record;      /* address, in the process, of another exception that it belongs to, or 0 */
    uint64_t exception_address;     /* of the instruction */
    uint64_t exception_information[15]; /* parameters: of an access violation 0 for a read, 1 for a write, 8 for execution, and
                                           the address */
    pe_c_dump_location thread_context; /* of the thread as it crashed */
} pe_c_dump_raised;

/* The system, MINIDUMP_SYSTEM_INFO. */
typedef struct {
    uint16_t processor_architecture; /* 9 x64, 12 ARM64, 0 x86: of which machine the contexts are */
    uint16_t processor_level;       /* the family of the processor */
    uint16_t processor_revision;    /* its model and stepping */
    uint8_t number_of_processors;   /* the number of processors */
    uint8_t product_type;           /* VER_NT_* */
    uint32_t major_version;         /* the version of the system, major part */
    uint32_t minor_version;         /* minor part */
    uint32_t build_number;          /* the build of the system */
    uint32_t platform_id;           /* VER_PLATFORM_* */
    uint32_t csd_version_rva;       /* the name of the service pack, for pe_c_dump_text */
    uint16_t suite_mask;            /* VER_SUITE_* */
    uint16_t spare;                 /* 0 */
} pe_c_dump_system_info;

/* How long a process ran. */
typedef struct {
    uint32_t process_create_time;   /* in seconds since 1970 */
    uint32_t process_user_time;     /* in seconds */
    uint32_t process_kernel_time;   /* in seconds, in the kernel */
} pe_c_dump_times;

/* The speed of the processor. */
typedef struct {
    uint32_t processor_max_mhz;     /* the most that it may have, in MHz */
    uint32_t processor_current_mhz; /* what it had, in MHz */
    uint32_t processor_mhz_limit;   /* the limit that was set, in MHz */
    uint32_t processor_max_idle_state;  /* the deepest idle state that it may have */
    uint32_t processor_current_idle_state;  /* the idle state that it had */
} pe_c_dump_power;

/* What is known of a process, MINIDUMP_MISC_INFO and _2. What is not there is 0. */
typedef struct {
    uint32_t size_of_info;          /* as the writer says it */
    uint32_t flags1;                /* MINIDUMP_MISC1_* */
    uint32_t process_id;            /* with bit 0 of the flags */
    pe_c_dump_times process_times;  /* with bit 1 */
    uint32_t has_processor_power;   /* 1 with bit 2 in a stream of 44 bytes or more, else 0 */
    pe_c_dump_power processor_power;  /* the speed of the processor */
} pe_c_dump_process_info;

/* A piece of memory, as pe_c_next_frame takes it with the bytes of the dump as its memory. */
typedef struct {
    pe_c_memory_piece memory;       /* where its bytes are */
    uint64_t lost;                  /* how many more bytes the dump says it has, which a truncated file does not have */
} pe_c_dump_piece;

/* A walk over the pieces of a full dump. */
typedef struct {
    pe_c_range entries;             /* those that are left, 16 bytes each */
    uint64_t next;                  /* offset of the bytes of the next piece */
} pe_c_memory64_walk;

/* A record of any kind: pe_c_dump_record writes the field of one kind. */
typedef struct {
    pe_c_dump_thread thread;        /* PE_C_THREAD_LIST_STREAM */
    pe_c_dump_module loaded;        /* PE_C_MODULE_LIST_STREAM */
    pe_c_dump_piece memory;         /* PE_C_MEMORY_LIST_STREAM */
    pe_c_dump_raised exception;     /* PE_C_EXCEPTION_STREAM */
    pe_c_memory64_walk memory64;    /* PE_C_MEMORY64_LIST_STREAM */
    pe_c_dump_handle handle;        /* PE_C_HANDLE_DATA_STREAM */
    pe_c_dump_unloaded unloaded;    /* PE_C_UNLOADED_MODULE_LIST_STREAM */
    pe_c_dump_region region;        /* PE_C_MEMORY_INFO_LIST_STREAM */
    pe_c_dump_thread_info thread_info; /* PE_C_THREAD_INFO_LIST_STREAM */
    pe_c_dump_thread_name thread_name; /* PE_C_THREAD_NAMES_STREAM */
    pe_c_dump_system_info system;   /* PE_C_SYSTEM_INFO_STREAM */
    pe_c_dump_process_info process; /* PE_C_MISC_INFO_STREAM */
    pe_c_dump_entry entry;          /* PE_C_DUMP_ENTRIES */
    uint32_t spare;                 /* is never written */
} pe_c_dump_any_record;

/* The registers of a thread on x64, CONTEXT. */
typedef struct {
    pe_c_registers registers;       /* `xmm` is 0 where it was not saved */
    uint32_t context_flags;         /* CONTEXT_*: bit 3 says that xmm was saved */
    uint32_t eflags;                /* the flags of the processor */
} pe_c_context;

/* The registers of a thread on ARM64, ARM64_NT_CONTEXT. */
typedef struct {
    pe_c_arm64_registers registers; /* d8 to d15 are 0 where they were not saved */
    uint32_t context_flags;         /* CONTEXT_ARM64_*: bit 2 says that they were */
    uint32_t cpsr;                  /* the flags of the processor */
} pe_c_arm64_context;

/* The registers of a thread on any machine: pe_c_read_dump_context writes those of one. */
typedef struct {
    pe_c_context x64;               /* on x64 */
    pe_c_arm64_context arm64;       /* on ARM64 */
} pe_c_dump_any_context;

PE_C_SIZE(pe_c_dump_info, 40);
PE_C_SIZE(pe_c_dump_location, 8);
PE_C_SIZE(pe_c_dump_entry, 12);
PE_C_SIZE(pe_c_dump_stack, 16);
PE_C_SIZE(pe_c_dump_thread, 48);
PE_C_SIZE(pe_c_dump_version, 52);
PE_C_SIZE(pe_c_dump_module, 96);
PE_C_SIZE(pe_c_dump_thread_name, 16);
PE_C_SIZE(pe_c_dump_unloaded, 24);
PE_C_SIZE(pe_c_dump_thread_info, 64);
PE_C_SIZE(pe_c_dump_handle, 32);
PE_C_SIZE(pe_c_dump_region, 40);
PE_C_SIZE(pe_c_dump_raised, 160);
PE_C_SIZE(pe_c_dump_system_info, 32);
PE_C_SIZE(pe_c_dump_times, 12);
PE_C_SIZE(pe_c_dump_power, 20);
PE_C_SIZE(pe_c_dump_process_info, 48);
PE_C_SIZE(pe_c_dump_piece, 32);
PE_C_SIZE(pe_c_memory64_walk, 24);
PE_C_SIZE(pe_c_dump_any_record, 632);
PE_C_SIZE(pe_c_context, 400);
PE_C_SIZE(pe_c_arm64_context, 336);
PE_C_SIZE(pe_c_dump_any_context, 736);

/* Reads the header of a minidump, and tests that its directory is inside the bytes.
 * Errors: PE_C_SHORT where there are fewer than 32 bytes; PE_C_DUMP_SIGNATURE; PE_C_DUMP_VERSION; PE_C_DUMP_DIRECTORY. */
uint32_t pe_c_dump(const uint8_t *bytes, size_t length, pe_c_dump_info *out) PE_C_RESULT(3);

/* Returns the range of the stream of a kind, that of the first entry of the kind, or PE_C_NOTHING.
 * Errors: PE_C_DUMP_LOCATION where the directory or the stream is not inside the bytes. */
uint32_t pe_c_dump_stream(const uint8_t *bytes, size_t length, const pe_c_range *directory, uint32_t stream_type,
                          pe_c_range *out) PE_C_RESULT(3, 5);

/* Returns the range of a string, in UTF-16LE without its final zero. `rva` is what a record says.
 * Errors: PE_C_DUMP_LOCATION where its length is not inside the bytes; PE_C_DUMP_TEXT where that is odd; PE_C_DUMP_LOCATION
 * where the string is not inside the bytes. */
uint32_t pe_c_dump_text(const uint8_t *bytes, size_t length, uint64_t rva, pe_c_range *out) PE_C_RESULT(4);

/* Reads the record with an index of the stream of a kind, PE_C_THREAD_LIST_STREAM and others, into the field of that kind; with
 * PE_C_DUMP_ENTRIES of the directory. The other fields are unchanged, and none need be initialised. PE_C_NOTHING past the last
 * record, and of another kind. What a stream says in one record has index 0: the exception, the system, the process, the walk
 * over the memory of a full dump. The functions below return the field of one kind each.
 * Errors: those of the function of the kind. */
uint32_t pe_c_dump_record(const uint8_t *bytes, size_t length, const pe_c_range *stream, uint32_t kind, uint64_t index,
                          pe_c_dump_any_record *out) PE_C_RESULT(3, 6);

/* Returns the entry of the directory with an index, or PE_C_NOTHING.
 * Errors: PE_C_DUMP_LOCATION where the directory is not inside the bytes. */
PE_C_RESULT(3, 5)
static inline uint32_t pe_c_dump_entry_at(const uint8_t *bytes, size_t length, const pe_c_range *directory, uint64_t index,
                                          pe_c_dump_entry *out)
{
    pe_c_dump_any_record found;
    uint32_t result = pe_c_dump_record(bytes, length, directory, PE_C_DUMP_ENTRIES, index, &found);
    if (result == PE_C_DONE)
        *out = found.entry;
    return result;
}

/* Returns the thread with an index in the stream of threads, or PE_C_NOTHING.
 * Errors: PE_C_DUMP_LOCATION where the stream is not inside the bytes; PE_C_SHORT where it has fewer than 4 bytes;
 * PE_C_DUMP_LIST_SIZE where it has another size than the number of threads and so many threads. */
PE_C_RESULT(3, 5)
static inline uint32_t pe_c_dump_thread_at(const uint8_t *bytes, size_t length, const pe_c_range *stream, uint64_t index,
                                           pe_c_dump_thread *out)
{
    pe_c_dump_any_record found;
    uint32_t result = pe_c_dump_record(bytes, length, stream, PE_C_THREAD_LIST_STREAM, index, &found);
    if (result == PE_C_DONE)
        *out = found.thread;
    return result;
}

/* The same of modules, which stand in no order. Errors: those of pe_c_dump_thread_at. */
PE_C_RESULT(3, 5)
static inline uint32_t pe_c_dump_module_at(const uint8_t *bytes, size_t length, const pe_c_range *stream, uint64_t index,
                                           pe_c_dump_module *out)
{
    pe_c_dump_any_record found;
    uint32_t result = pe_c_dump_record(bytes, length, stream, PE_C_MODULE_LIST_STREAM, index, &found);
    if (result == PE_C_DONE)
        *out = found.loaded;
    return result;
}

/* The same of names of threads. Errors: those of pe_c_dump_thread_at. */
PE_C_RESULT(3, 5)
static inline uint32_t pe_c_dump_thread_name_at(const uint8_t *bytes, size_t length, const pe_c_range *stream, uint64_t index,
                                                pe_c_dump_thread_name *out)
{
    pe_c_dump_any_record found;
    uint32_t result = pe_c_dump_record(bytes, length, stream, PE_C_THREAD_NAMES_STREAM, index, &found);
    if (result == PE_C_DONE)
        *out = found.thread_name;
    return result;
}

/* Returns the unloaded module with an index in their stream, or PE_C_NOTHING.
 * Errors: PE_C_DUMP_LOCATION where the stream is not inside the bytes; PE_C_SHORT where its header is truncated;
 * PE_C_DUMP_ENTRY_SIZE where its records are smaller than their fields; PE_C_DUMP_LIST_SIZE where they start in the header,
 * or end past the stream. */
PE_C_RESULT(3, 5)
static inline uint32_t pe_c_dump_unloaded_at(const uint8_t *bytes, size_t length, const pe_c_range *stream, uint64_t index,
                                             pe_c_dump_unloaded *out)
{
    pe_c_dump_any_record found;
    uint32_t result = pe_c_dump_record(bytes, length, stream, PE_C_UNLOADED_MODULE_LIST_STREAM, index, &found);
    if (result == PE_C_DONE)
        *out = found.unloaded;
    return result;
}

/* The same of thread information. Errors: those of pe_c_dump_unloaded_at. */
PE_C_RESULT(3, 5)
static inline uint32_t pe_c_dump_thread_info_at(const uint8_t *bytes, size_t length, const pe_c_range *stream, uint64_t index,
                                                pe_c_dump_thread_info *out)
{
    pe_c_dump_any_record found;
    uint32_t result = pe_c_dump_record(bytes, length, stream, PE_C_THREAD_INFO_LIST_STREAM, index, &found);
    if (result == PE_C_DONE)
        *out = found.thread_info;
    return result;
}

/* The same of handles. Errors: those of pe_c_dump_unloaded_at. */
PE_C_RESULT(3, 5)
static inline uint32_t pe_c_dump_handle_at(const uint8_t *bytes, size_t length, const pe_c_range *stream, uint64_t index,
                                           pe_c_dump_handle *out)
{
    pe_c_dump_any_record found;
    uint32_t result = pe_c_dump_record(bytes, length, stream, PE_C_HANDLE_DATA_STREAM, index, &found);
    if (result == PE_C_DONE)
        *out = found.handle;
    return result;
}

/* The same of regions of memory. Errors: those of pe_c_dump_unloaded_at. */
PE_C_RESULT(3, 5)
static inline uint32_t pe_c_dump_region_at(const uint8_t *bytes, size_t length, const pe_c_range *stream, uint64_t index,
                                           pe_c_dump_region *out)
{
    pe_c_dump_any_record found;
    uint32_t result = pe_c_dump_record(bytes, length, stream, PE_C_MEMORY_INFO_LIST_STREAM, index, &found);
    if (result == PE_C_DONE)
        *out = found.region;
    return result;
}

/* Returns the piece of memory with an index in PE_C_MEMORY_LIST_STREAM, or PE_C_NOTHING. Errors: those of
 * pe_c_dump_thread_at. */
PE_C_RESULT(3, 5)
static inline uint32_t pe_c_dump_memory_at(const uint8_t *bytes, size_t length, const pe_c_range *stream, uint64_t index,
                                           pe_c_dump_piece *out)
{
    pe_c_dump_any_record found;
    uint32_t result = pe_c_dump_record(bytes, length, stream, PE_C_MEMORY_LIST_STREAM, index, &found);
    if (result == PE_C_DONE)
        *out = found.memory;
    return result;
}

/* Reads the exception, by its stream.
 * Errors: PE_C_DUMP_LOCATION where the stream is not inside the bytes; PE_C_SHORT where it has fewer than 168 bytes. */
PE_C_RESULT(3, 4)
static inline uint32_t pe_c_dump_exception(const uint8_t *bytes, size_t length, const pe_c_range *stream,
                                           pe_c_dump_raised *out)
{
    pe_c_dump_any_record found;
    uint32_t result = pe_c_dump_record(bytes, length, stream, PE_C_EXCEPTION_STREAM, 0, &found);
    if (result == PE_C_DONE)
        *out = found.exception;
    return result;
}

/* Reads the system, by its stream.
 * Errors: PE_C_DUMP_LOCATION where the stream is not inside the bytes; PE_C_SHORT where it has fewer than 56 bytes. */
PE_C_RESULT(3, 4)
static inline uint32_t pe_c_dump_system(const uint8_t *bytes, size_t length, const pe_c_range *stream,
                                        pe_c_dump_system_info *out)
{
    pe_c_dump_any_record found;
    uint32_t result = pe_c_dump_record(bytes, length, stream, PE_C_SYSTEM_INFO_STREAM, 0, &found);
    if (result == PE_C_DONE)
        *out = found.system;
    return result;
}

/* Reads what is known of the process, by its stream.
 * Errors: PE_C_DUMP_LOCATION where the stream is not inside the bytes; PE_C_SHORT where it has fewer than 24 bytes. */
PE_C_RESULT(3, 4)
static inline uint32_t pe_c_dump_process(const uint8_t *bytes, size_t length, const pe_c_range *stream,
                                         pe_c_dump_process_info *out)
{
    pe_c_dump_any_record found;
    uint32_t result = pe_c_dump_record(bytes, length, stream, PE_C_MISC_INFO_STREAM, 0, &found);
    if (result == PE_C_DONE)
        *out = found.process;
    return result;
}

/* Returns a walk over the pieces of memory of a full dump, by PE_C_MEMORY64_LIST_STREAM. It reads each size once.
 * Errors: PE_C_DUMP_LOCATION where the stream is not inside the bytes; PE_C_SHORT where it has fewer than 16 bytes;
 * PE_C_DUMP_LIST_SIZE where it has another size than so many entries; PE_C_DUMP_LOCATION where the bytes of the pieces end
 * past offset 2^64 - 1. */
PE_C_RESULT(3, 4)
static inline uint32_t pe_c_dump_memory64(const uint8_t *bytes, size_t length, const pe_c_range *stream,
                                          pe_c_memory64_walk *out)
{
    pe_c_dump_any_record found;
    uint32_t result = pe_c_dump_record(bytes, length, stream, PE_C_MEMORY64_LIST_STREAM, 0, &found);
    if (result == PE_C_DONE)
        *out = found.memory64;
    return result;
}

/* Returns the next piece of memory of a full dump.
 * Errors: PE_C_SHORT where the entries are not inside the bytes, or the last one is truncated. */
uint32_t pe_c_next_memory64(const uint8_t *bytes, size_t length, pe_c_memory64_walk *walk, pe_c_dump_piece *out)
    PE_C_RESULT(3, 4);

/* Reads a context of a machine, 9 for x64 or 12 for ARM64, PROCESSOR_ARCHITECTURE_*, into the field of that machine: that of the
 * exception, or of a thread. The other field is unchanged, and none need be initialised. The functions below return the field of
 * one machine each.
 * Errors: PE_C_DUMP_MACHINE of another machine; those of the function of the machine. */
uint32_t pe_c_read_dump_context(const uint8_t *bytes, size_t length, const pe_c_dump_location *location, uint32_t machine,
                                pe_c_dump_any_context *out) PE_C_RESULT(3, 5);

/* Reads a context of x64: that of the exception, or of a thread.
 * Errors: PE_C_DUMP_LOCATION where it is not inside the bytes; PE_C_DUMP_CONTEXT_SIZE where it has fewer than 1,232 bytes;
 * PE_C_DUMP_MACHINE where its flags are not of x64; PE_C_DUMP_CONTEXT_FLAGS where control or integer registers were not
 * saved. */
PE_C_RESULT(3, 4)
static inline uint32_t pe_c_dump_context(const uint8_t *bytes, size_t length, const pe_c_dump_location *location,
                                         pe_c_context *out)
{
    pe_c_dump_any_context found;
    uint32_t result = pe_c_read_dump_context(bytes, length, location, 9, &found);
    if (result == PE_C_DONE)
        *out = found.x64;
    return result;
}

/* The same of ARM64, whose contexts have 912 bytes. Errors: those of pe_c_dump_context. */
PE_C_RESULT(3, 4)
static inline uint32_t pe_c_dump_context_arm64(const uint8_t *bytes, size_t length, const pe_c_dump_location *location,
                                               pe_c_arm64_context *out)
{
    pe_c_dump_any_context found;
    uint32_t result = pe_c_read_dump_context(bytes, length, location, 12, &found);
    if (result == PE_C_DONE)
        *out = found.arm64;
    return result;
}

/* Reads the registers of a thread that count, on x64: those of the exception, if it names the thread and they can be read,
 * since the thread's own may be of the code that wrote the dump; else the thread's own. `raised` is what pe_c_dump_exception
 * returned, or PE_C_EMPTY without an exception.
 * Errors: those of the thread's own context, as of pe_c_dump_context. */
PE_C_RESULT(3, 4, 5)
static inline uint32_t pe_c_dump_thread_context(const uint8_t *bytes, size_t length, const pe_c_dump_thread *thread,
                                                const pe_c_dump_raised *raised, pe_c_context *out)
{
    if (raised->thread_id == thread->thread_id
        && pe_c_dump_context(bytes, length, &raised->thread_context, out) == PE_C_DONE)
        return PE_C_DONE;
    return pe_c_dump_context(bytes, length, &thread->thread_context, out);
}

/* The same of ARM64. Errors: those of the thread's own context, as of pe_c_dump_context_arm64. */
PE_C_RESULT(3, 4, 5)
static inline uint32_t pe_c_dump_thread_context_arm64(const uint8_t *bytes, size_t length, const pe_c_dump_thread *thread,
                                                      const pe_c_dump_raised *raised, pe_c_arm64_context *out)
{
    if (raised->thread_id == thread->thread_id
        && pe_c_dump_context_arm64(bytes, length, &raised->thread_context, out) == PE_C_DONE)
        return PE_C_DONE;
    return pe_c_dump_context_arm64(bytes, length, &thread->thread_context, out);
}

/* Returns PE_C_DONE where an image is that of a module: its time stamp and its size are the module's. PE_C_NOTHING where it
 * is another one, or has no optional header. The checksum is not asked. */
uint32_t pe_c_is_image_of(const pe_c_image_info *image, const pe_c_dump_module *module) PE_C_RESULT(1, 2);

/* Writes the memory of pieces in any order to `runs`, as pieces that ascend and do not overlap, and to `written` how many
 * there are: an address is that of the first of the pieces that has it. Two that follow one another in memory and in the
 * file are one. In such pieces pe_c_next_frame looks an address up by binary search. `entries` has to have four entries for
 * each piece, and `runs` two; what is in these entries then is left open, and so is what is in these runs after those that
 * are written. The rest of both is unchanged.
 * Errors, which change nothing: PE_C_SHORT if a piece ends past offset 2^64 - 1; PE_C_ROOM. */
uint32_t pe_c_memory_runs(const pe_c_memory_piece *pieces, size_t piece_count, pe_c_range_entry *entries,
                          size_t number_of_entries, pe_c_memory_piece *runs, size_t number_of_runs, uint64_t *written)
    PE_C_RESULT(7);

/* Writes to `found`, for each of the ranges that are asked for, whose offset is an address and whose length how many bytes
 * from it on at most, the range of `memory` where these bytes are: those of the run that has the address, up to its end.
 * Where no run has it the range has no bytes. `written` is how many ranges are asked for; the rest of `found` is unchanged. A
 * range ends at the first address that the dump has no byte of, or has elsewhere: so the images of modules are found that the
 * dump's own memory has, for pe_c_image with PE_C_MAPPED. The pieces are runs, as pe_c_memory_runs writes them: they are
 * tested once a call, and a search by halves finds each range.
 * Errors, which change nothing: PE_C_SHORT if a piece is not inside `memory`; PE_C_OUT_OF_ORDER if pieces overlap or do not
 * ascend; PE_C_ROOM where there is room for fewer ranges than are asked for. */
uint32_t pe_c_memory_ranges(const uint8_t *memory, size_t memory_length, const pe_c_memory_piece *pieces, size_t piece_count,
                            const pe_c_range *asked, size_t asked_count, pe_c_range *found, size_t found_count,
                            uint64_t *written) PE_C_RESULT(9);

/* ---- program databases
 *
 * A PDB 7.0 has the names and lines of an image that was linked with debug information. It is a file of its own kind: `bytes`
 * of pe_c_pdb, pe_c_pdb_starts and pe_c_pdb_stream are those of the PDB. Its streams are scattered over blocks. A caller copies a
 * stream into a room, and the other calls take the bytes of that room: their ranges and offsets are of it, not of the file.
 * Each part is read alone: one that is damaged leaves the others as they are.
 *
 * The public function at or before an RVA, of a PDB that is that of an image:
 *
 *     pe_c_pdb(bytes, length, &pdb);
 *     pe_c_is_pdb_of(&key, &pdb);
 *     pe_c_pdb_stream(bytes, length, NULL, 0, pdb.section_headers, sections, sections_length, &sections_length);
 *     pe_c_pdb_stream(bytes, length, NULL, 0, pdb.symbol_stream, symbols, symbols_length, &symbols_length);
 *     pe_c_range all = {0, symbols_length};
 *     pe_c_pdb_index(PE_C_PDB_PUBLICS, symbols, symbols_length, &all, sections, sections_length, index, entries, &count);
 *     pe_c_find_pdb_symbol(PE_C_PDB_PUBLICS, symbols, symbols_length, sections, sections_length, index, count, rva, &found);
 *
 * https://llvm.org/docs/PDB/ */

/* Which symbols an index has. */
enum {
    PE_C_PDB_PUBLICS = 0,           /* public functions, of the stream of symbols */
    PE_C_PDB_PROCEDURES = 1         /* procedures that have code, of the stream of a module; as any other number */
};

/* What a PDB says of itself. Streams are numbers for pe_c_pdb_stream, or 0xFFFF for none. */
typedef struct {
    uint8_t guid[16];               /* the GUID, as pe_c_key has it */
    pe_c_range modules;             /* a walk over the modules, at its start, in the DBI stream, stream 3 */
    pe_c_range contributions;       /* the section contributions in the DBI stream: which module has which code */
    uint32_t version;               /* the version of the info stream, 20000404 in what linkers write */
    uint32_t time_stamp;            /* when the PDB was made, in seconds since 1970, or a number of the linker's */
    uint32_t age;                   /* how often the PDB was written; it may be greater than that of the image */
    uint32_t dbi_age;               /* the age that pe_c_key of the image has */
    uint32_t block_size;            /* the size of a block in bytes */
    uint32_t number_of_blocks;      /* how many blocks the file has */
    uint32_t number_of_streams;     /* how many streams it has */
    uint32_t dbi_result;            /* PE_C_DONE, or why the DBI stream is refused: then what is read of it is 0, and streams are none */
    uint16_t machine;               /* IMAGE_FILE_MACHINE_ of the image */
    uint16_t flags;                 /* bit 0: linked incrementally; bit 1: private symbols are stripped; bit 2: has types that
                                       contradict one another */
    uint16_t build;                 /* the version of the linker: bit 15 is set, then 7 bits and 8 bits, major and minor */
    uint16_t symbol_stream;         /* the stream of symbols: those that are public, and global ones */
    uint16_t section_headers;       /* the stream with the section headers of the image */
    uint16_t original_section_headers; /* those before a tool moved the code of the image, by which symbols count then */
    uint16_t omap_to_source;        /* where an RVA was before that, for pe_c_pdb_moved_rva */
    uint16_t omap_from_source;      /* where an RVA of that is now */
} pe_c_pdb_info;

/* A module, an object that was linked. */
typedef struct {
    pe_c_range name;                /* in the DBI stream, without its final zero: the path of the object, or "* Linker *" */
    pe_c_range file;                /* the path of the library that it is from, or of the object */
    pe_c_range symbols;             /* a walk over its symbols, at its start, in its stream; no bytes without any */
    pe_c_range lines;               /* its lines in its stream */
    uint32_t code_offset;           /* where its first code is in the section */
    uint32_t code_size;             /* how many bytes that is */
    uint16_t section;               /* the number of that section, from 1 on */
    uint16_t flags;                 /* bit 0: written since the last link; bit 1: edit and continue */
    uint16_t stream;                /* its stream, or 0xFFFF without debug information */
    uint16_t number_of_files;       /* how many source files it has */
} pe_c_pdb_module;

/* The record of a symbol. */
typedef struct {
    pe_c_range range;               /* the record: the number of the bytes after that number, its kind, its content */
    pe_c_range name;                /* UTF-8, without its final zero; of a public symbol as linkers have it, mangled; of a procedure
                                       as in the source; no bytes of other records */
    uint32_t rva;                   /* the RVA of a public symbol or procedure, where `result` is PE_C_DONE; else 0 */
    uint32_t size;                  /* the size of a procedure's code in bytes; else 0 */
    uint32_t section_offset;        /* the offset in its section */
    uint32_t flags;                 /* of a public symbol bit 0: code; bit 1: a function; bit 2: managed code; bit 3: MSIL; of a
                                       procedure CV_PROCFLAGS */
    uint16_t section;               /* the number of its section, from 1 on */
    uint16_t kind;                  /* S_PUB32 0x110E; of procedures S_LPROC32 0x110F, S_GPROC32 0x1110, 0x1146, 0x1147; or
                                       another */
    uint32_t result;                /* PE_C_DONE; PE_C_NOTHING without an RVA; or the number of an error of this record alone,
                                       and then no other field than `range` and `kind` is set */
} pe_c_pdb_symbol;

/* A line of a source file, and its code. */
typedef struct {
    uint32_t rva;                   /* where its code starts */
    uint32_t code_size;             /* how many bytes of code there are from there to the end of the subsection; the line's own
                                       may end before, at the next row */
    uint32_t file;                  /* the source file, for pe_c_pdb_file_name */
    uint32_t line;                  /* the line, from 1 on; in an index also 0, 0xF00F00 and 0xFEEFEE, which are none */
    uint32_t column;                /* the column, from 1 on; 0 where there is none */
} pe_c_pdb_line;

/* An entry of an index of lines. */
typedef struct {
    pe_c_pdb_line line;             /* the line */
    uint32_t index;                 /* which one it is among those of the module */
} pe_c_pdb_line_entry;

/* RVAs that are of one module. */
typedef struct {
    uint32_t start;                 /* the first RVA */
    uint32_t size;                  /* how many there are; 0 of a contribution in no section */
    uint32_t module_index;          /* which module it is, in the order of pe_c_list_pdb_modules, from 0 on; it may be of none */
} pe_c_pdb_module_range;

/* An inlined function whose code is at an RVA, and which line of it that is. */
typedef struct {
    pe_c_range name;                /* its name in the stream of ids, as in the source but without its scope, UTF-8, without its
                                       final zero; where `name_result` is PE_C_DONE */
    pe_c_range scope;               /* the namespace that it is in, there too; no bytes in none */
    uint32_t id;                    /* which function it is: the index of its record in the stream of ids */
    uint32_t class_type;            /* of a member function its class, an index of the stream of types; else 0 */
    uint32_t file;                  /* its source file, for pe_c_pdb_file_name, where `line_result` is PE_C_DONE */
    uint32_t line;                  /* the line, from 1 on; of a function that another one is inlined in, that of the call; or 0 */
    uint32_t code_offset;           /* where the code of that line starts, from the start of the procedure */
    uint32_t code_size;             /* how many bytes that is */
    uint32_t name_result;           /* PE_C_DONE; PE_C_NOTHING without a name; or why the stream of ids, or the function's record in
                                       it, is refused */
    uint32_t line_result;           /* PE_C_DONE; PE_C_NOTHING without a line; or why the lines of the module's inlined functions
                                       are refused */
} pe_c_pdb_inlined;

PE_C_SIZE(pe_c_pdb_line, 20);
PE_C_SIZE(pe_c_pdb_line_entry, 24);
PE_C_SIZE(pe_c_pdb_module_range, 12);
PE_C_SIZE(pe_c_pdb_inlined, 64);
PE_C_SIZE(pe_c_pdb_info, 96);
PE_C_SIZE(pe_c_pdb_module, 80);
PE_C_SIZE(pe_c_pdb_symbol, 56);

/* Reads what a PDB says of itself. A DBI stream that is missing, as in PDBs of compilers, or damaged costs its own fields alone.
 * Errors: PE_C_SHORT where there are fewer than 56 bytes; PE_C_PDB20, PE_C_PDB_PORTABLE, PE_C_PDB_MAGIC; PE_C_PDB_BLOCK_SIZE;
 * PE_C_PDB_FILE_SIZE; PE_C_PDB_BLOCK_MAP, PE_C_PDB_BLOCK, PE_C_PDB_DIRECTORY of the directory; those of pe_c_pdb_stream for
 * the info stream, PE_C_SHORT where it has fewer than 28 bytes, PE_C_PDB_INFO_VERSION. */
uint32_t pe_c_pdb(const uint8_t *bytes, size_t length, pe_c_pdb_info *out) PE_C_RESULT(3);

/* Returns PE_C_DONE where a PDB is that of an image with this key: its GUID and the age of its DBI stream are those of the key;
 * PE_C_NOTHING where it is another one. The age of the info stream says nothing: tools raise it that change the PDB alone.
 * Error: pdb->dbi_result, where the DBI stream is refused. */
uint32_t pe_c_is_pdb_of(const pe_c_key *key, const pe_c_pdb_info *pdb) PE_C_RESULT(1, 2);

/* Writes to the start of `room` where the directory lists the blocks of each stream: pdb->number_of_streams numbers. By them
 * pe_c_pdb_stream opens a stream without the sizes of those before it: who opens many makes them once.
 * Errors: those of the directory of pe_c_pdb; PE_C_ROOM. */
uint32_t pe_c_pdb_starts(const uint8_t *bytes, size_t length, uint64_t *room, size_t entries, uint64_t *written)
    PE_C_RESULT(5);

/* Copies the stream with a number to the start of `room`. `starts` is what pe_c_pdb_starts wrote, or NULL and 0. With another
 * start it copies other bytes of the file, or returns an error. A call reads the list of the directory's blocks and the blocks of
 * the stream; without starts also the sizes of the streams before it.
 * Errors: those of the directory of pe_c_pdb; PE_C_PDB_NO_STREAM; PE_C_PDB_STREAM_SIZE; PE_C_PDB_DIRECTORY where its blocks are not
 * all listed; PE_C_PDB_BLOCK; PE_C_ROOM. */
uint32_t pe_c_pdb_stream(const uint8_t *bytes, size_t length, const uint64_t *starts, size_t number_of_starts, uint32_t index,
                         uint8_t *room, size_t room_length, uint64_t *written) PE_C_RESULT(8);

/* Returns the range of the file that has the bytes of the stream with a number in their order, so that no copy of them is needed:
 * PE_C_NOTHING where its blocks do not follow one another, as they do in what most linkers write. It reads the directory alone,
 * and no block of the stream: of a file that is read in parts the others may be missing. `starts` is as for pe_c_pdb_stream.
 * Errors: those of pe_c_pdb_stream but PE_C_ROOM. */
uint32_t pe_c_pdb_stream_range(const uint8_t *bytes, size_t length, const uint64_t *starts, size_t number_of_starts, uint32_t index,
                               pe_c_range *out) PE_C_RESULT(6);

/* Lists the modules, and moves the walk past them. `bytes` are those of the DBI stream, stream 3; the walk starts as
 * pdb->modules.
 * Errors: PE_C_ROOM where there are no entries; PE_C_SHORT where the walk is not inside the bytes, or fewer than 64 are left;
 * PE_C_PDB_NAME. After another than PE_C_ROOM the walk is over. */
uint32_t pe_c_list_pdb_modules(const uint8_t *bytes, size_t length, pe_c_range *walk, pe_c_pdb_module *entries,
                               size_t number_of_entries, uint64_t *written) PE_C_RESULT(3, 6);

/* Lists the records of symbols, and moves the walk past them: those of the stream of symbols, by a walk that starts as all of
 * its bytes, or of the stream of a module, by one that starts as the `symbols` of the module. Public symbols and procedures are read;
 * of other records, as those of variables and ends of scopes, there is no more than where they are. `sections` are the bytes of the
 * stream pdb->section_headers. Of one record alone `result` says: PE_C_NOTHING without an RVA, since it is another record or in no
 * section; PE_C_SHORT where its content is truncated; PE_C_PDB_NAME.
 * Errors: PE_C_ROOM where there are no entries; PE_C_PDB_SECTION_HEADERS; PE_C_SHORT where the walk is not inside the bytes, or
 * fewer than 4 are left; PE_C_PDB_RECORD_SIZE; PE_C_PDB_RECORD_TRUNCATED. After another than PE_C_ROOM the walk is over. */
uint32_t pe_c_list_pdb_symbols(const uint8_t *bytes, size_t length, const uint8_t *sections, size_t sections_length,
                               pe_c_range *walk, pe_c_pdb_symbol *entries, size_t number_of_entries, uint64_t *written)
    PE_C_RESULT(5, 8);

/* Makes an index of the symbols of a kind, PE_C_PDB_PUBLICS or PE_C_PDB_PROCEDURES, by their RVAs at the start of `room`, in
 * ascending order. An entry is the RVA times 2^32 plus the offset of the record. `symbols` is a walk as of pe_c_list_pdb_symbols.
 * Public symbols that are no functions, procedures without code and symbols without an RVA are left out. n records take n log n steps.
 * Errors: PE_C_PDB_SECTION_HEADERS; PE_C_SHORT where the range is not inside the bytes; PE_C_PDB_SYMBOLS_SIZE; PE_C_SHORT,
 * PE_C_PDB_RECORD_SIZE, PE_C_PDB_RECORD_TRUNCATED of a record; PE_C_ROOM. */
uint32_t pe_c_pdb_index(uint32_t kind, const uint8_t *bytes, size_t length, const pe_c_range *symbols, const uint8_t *sections,
                        size_t sections_length, uint64_t *room, size_t entries, uint64_t *written) PE_C_RESULT(4, 9);

/* Finds the symbol of an RVA by an index that pe_c_pdb_index made of these bytes and sections: of PE_C_PDB_PUBLICS the last
 * function that starts at or before the RVA, which may end before it; of PE_C_PDB_PROCEDURES the one whose code has the RVA. Of
 * several at one RVA it is that of the last record. PE_C_NOTHING without one. It takes log n steps. By entries that do not ascend it
 * finds some record, or none.
 * Errors: PE_C_PDB_SECTION_HEADERS; those of the record that is found: PE_C_SHORT, PE_C_PDB_RECORD_SIZE,
 * PE_C_PDB_RECORD_TRUNCATED. */
uint32_t pe_c_find_pdb_symbol(uint32_t kind, const uint8_t *bytes, size_t length, const uint8_t *sections,
                              size_t sections_length, const uint64_t *index, size_t entries, uint32_t rva, pe_c_pdb_symbol *out)
    PE_C_RESULT(9);

/* Finds the symbol of an RVA without an index: what pe_c_find_pdb_symbol finds by one that pe_c_pdb_index makes of these arguments. It
 * reads all records once, which for a few RVAs takes less than to make an index. PE_C_NOTHING without one.
 * Errors: those of pe_c_pdb_index but PE_C_ROOM, then those of the record that is found. */
uint32_t pe_c_read_pdb_symbol(uint32_t kind, const uint8_t *bytes, size_t length, const pe_c_range *symbols,
                              const uint8_t *sections, size_t sections_length, uint32_t rva, pe_c_pdb_symbol *out)
    PE_C_RESULT(4, 8);

/* Makes an index of the lines of a module by their RVAs at the start of `room`, in ascending order. `bytes` are those of the
 * stream of the module, and `lines` is its range of them. Rows outside of the code of their subsection, and those in no section,
 * are left out. n rows take n log n steps.
 * Errors: PE_C_PDB_SECTION_HEADERS; PE_C_SHORT where the range is not inside the bytes; PE_C_PDB_SYMBOLS_SIZE; PE_C_SHORT and
 * PE_C_PDB_RECORD_TRUNCATED of a subsection or a block of rows; PE_C_ROOM. */
uint32_t pe_c_pdb_lines(const uint8_t *bytes, size_t length, const pe_c_range *lines, const uint8_t *sections,
                        size_t sections_length, pe_c_pdb_line_entry *room, size_t entries, uint64_t *written)
    PE_C_RESULT(3, 8);

/* Finds the line of an RVA by an index that pe_c_pdb_lines made: that of the last row at or before the RVA, of several at one RVA
 * the last of the module. PE_C_NOTHING where no row has it, and where its code is of no line. It takes log n steps. By entries
 * that do not ascend it finds some line, or none. */
uint32_t pe_c_find_pdb_line(const pe_c_pdb_line_entry *index, size_t entries, uint32_t rva, pe_c_pdb_line *out) PE_C_RESULT(4);

/* Finds the line of an RVA without an index: what pe_c_find_pdb_line finds by one that pe_c_pdb_lines makes of these arguments. It reads
 * all rows once. PE_C_NOTHING without one.
 * Errors: those of pe_c_pdb_lines but PE_C_ROOM. */
uint32_t pe_c_read_pdb_line(const uint8_t *bytes, size_t length, const pe_c_range *lines, const uint8_t *sections,
                            size_t sections_length, uint32_t rva, pe_c_pdb_line *out) PE_C_RESULT(3, 7);

/* Returns the range of the source files of a module in its stream. `lines` is its range of lines. PE_C_NOTHING without files.
 * Errors: PE_C_SHORT where the range is not inside the bytes; PE_C_SHORT, PE_C_PDB_RECORD_TRUNCATED of a subsection before. */
uint32_t pe_c_pdb_files(const uint8_t *bytes, size_t length, const pe_c_range *lines, pe_c_range *out) PE_C_RESULT(3, 4);

/* Returns the range of the name of a source file in `names`, the bytes of the stream that pe_c_pdb_named_stream returns of
 * "/names": the path, without its final zero. `files` is what pe_c_pdb_files returned of the stream of the module, and `file`
 * what a line has.
 * Errors: PE_C_SHORT where the range is not inside the bytes; PE_C_SHORT, PE_C_PDB_RECORD_TRUNCATED of the record of the file;
 * PE_C_SHORT where there are fewer than 12 bytes of names, PE_C_PDB_NAMES_SIGNATURE, PE_C_PDB_RECORD_TRUNCATED;
 * PE_C_PDB_NAME. */
uint32_t pe_c_pdb_file_name(const uint8_t *bytes, size_t length, const pe_c_range *files, const uint8_t *names,
                            size_t names_length, uint32_t file, pe_c_range *out) PE_C_RESULT(3, 7);

/* Returns where the code at an RVA is by an OMAP table, whose bytes are those of its stream: by `omap_to_source` of pe_c_pdb_info where
 * an RVA of the image was when it was linked, by `omap_from_source` where one of then is now. PE_C_NOTHING where it is nowhere. Other
 * calls then take the stream `original_section_headers`, and RVAs of then. It is looked up by halves: where rows do not ascend, some
 * row or none is taken. It never returns an error. */
uint32_t pe_c_pdb_moved_rva(const uint8_t *bytes, size_t length, uint32_t rva, uint32_t *out) PE_C_RESULT(4);

/* Writes to the start of `room` which RVAs are of which module: a range for each section contribution, in their order.
 * `contributions` are those of pe_c_pdb in `bytes`, the DBI stream, stream 3. In what linkers write ranges ascend and do not
 * overlap; where two have an RVA, the first counts.
 * Errors: PE_C_PDB_SECTION_HEADERS; PE_C_SHORT where the range is not inside the bytes, or has fewer than 4 that are some;
 * PE_C_PDB_CONTRIBUTIONS_VERSION; PE_C_PDB_CONTRIBUTIONS_SIZE; PE_C_ROOM. */
uint32_t pe_c_pdb_module_ranges(const uint8_t *bytes, size_t length, const pe_c_range *contributions, const uint8_t *sections,
                                size_t sections_length, pe_c_pdb_module_range *room, size_t entries, uint64_t *written)
    PE_C_RESULT(3, 8);

/* Writes to the start of `room` where each record of the stream of ids starts, for pe_c_find_pdb_inlined. `bytes` are those of
 * the stream, stream 4. n records take n steps.
 * Errors: PE_C_SHORT where there are fewer than 56 bytes; PE_C_PDB_RECORD_TRUNCATED where the records pass the end; PE_C_SHORT,
 * PE_C_PDB_RECORD_SIZE, PE_C_PDB_RECORD_TRUNCATED of a record; PE_C_ROOM. */
uint32_t pe_c_pdb_ids(const uint8_t *bytes, size_t length, uint64_t *room, size_t entries, uint64_t *written) PE_C_RESULT(5);

/* Writes the inlined functions whose code is at an RVA to the start of `room`, the innermost first: each is inlined in the one
 * after it, and the last in the procedure. None where the RVA is of the procedure alone; an RVA before the procedure counts as its
 * start. `bytes` are those of the stream of `module`, and `procedure` is what pe_c_find_pdb_symbol found in it. `ids` are the bytes
 * of the stream of ids, and `starts` what pe_c_pdb_ids wrote: with another start a function has another name, or none. Without ids
 * the functions have lines alone. There is always room in 64 entries. A call reads the records of the procedure, and for each
 * function found those of the module's inlined functions up to its own.
 * Errors: PE_C_SHORT where the symbols of the module are not inside the bytes; PE_C_SHORT, PE_C_PDB_RECORD_SIZE,
 * PE_C_PDB_RECORD_TRUNCATED of a record from that of the procedure to its end; of that of an inlined function PE_C_SHORT,
 * PE_C_PDB_ANNOTATION; PE_C_PDB_INLINE_DEPTH; PE_C_ROOM. */
uint32_t pe_c_find_pdb_inlined(const uint8_t *bytes, size_t length, const pe_c_pdb_module *module,
                               const pe_c_pdb_symbol *procedure, uint32_t rva, const uint8_t *ids, size_t ids_length,
                               const uint64_t *starts, size_t number_of_starts, pe_c_pdb_inlined *room, size_t entries,
                               uint64_t *written) PE_C_RESULT(3, 4, 12);

/* Returns the number of the stream with a name, such as "/names", by the bytes of the info stream, stream 1. PE_C_NOTHING without
 * one. Error: PE_C_SHORT or PE_C_PDB_RECORD_TRUNCATED where the names of streams pass the end of the bytes. */
uint32_t pe_c_pdb_named_stream(const uint8_t *bytes, size_t length, const uint8_t *name, size_t name_length, uint32_t *out)
    PE_C_RESULT(5);

#ifdef __cplusplus
}
#endif
#undef PE_C_SIZE
#undef PE_C_NOT_NULL
#undef PE_C_RESULT
#endif
