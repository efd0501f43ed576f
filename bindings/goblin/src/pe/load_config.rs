//! The load configuration: what the loader has to know of the checks that were compiled into an image.
//! <https://learn.microsoft.com/windows/win32/debug/pe-format#the-load-configuration-structure-image-only>
//!
//! goblin's names here are inferred. The fields are all that the library returns: those of `pe_c_load_config`, and then those of
//! `pe_c_load_config_field`, in the order of winnt.h.

use super::data_directories::DataDirectory;
use super::options::ParseOptions;
use super::section_table::SectionTable;
use crate::error;
use crate::raw::{self, Index, View};
use pe_c::{sys, LoadConfigField};

/// Makes the structure of the fields that the library's record has, and of those that it returns one by one.
macro_rules! structure {
    ($($(#[$doc:meta])* $name:ident: $type:ty = $field:ident;)*) => {
        /// The structure. A field that it is too short for is `None`. Addresses are virtual addresses.
        #[derive(Debug, PartialEq, Copy, Clone, Default)]
        pub struct LoadConfigDirectory {
            /// Bytes of the structure, as it says itself.
            pub size: u32,
            /// Seconds since 1970.
            pub time_date_stamp: Option<u32>,
            /// Of a version.
            pub major_version: Option<u16>,
            /// Of a version.
            pub minor_version: Option<u16>,
            /// Where DLLs that the image imports are looked for: flags of `LoadLibraryEx`.
            pub dependent_load_flags: Option<u16>,
            /// Where the security cookie is.
            pub security_cookie: Option<u64>,
            /// Where the sorted table of the RVAs of exception handlers is, on x86.
            pub se_handler_table: Option<u64>,
            /// How many entries it has.
            pub se_handler_count: Option<u64>,
            /// Where the pointer is to what checks the target of an indirect call.
            pub guard_cf_check_function_pointer: Option<u64>,
            /// Where the pointer is to what checks the target and calls it.
            pub guard_cf_dispatch_function_pointer: Option<u64>,
            /// Where the sorted table of the functions is that may be called indirectly.
            pub guard_cf_function_table: Option<u64>,
            /// How many entries it has.
            pub guard_cf_function_count: Option<u64>,
            /// `IMAGE_GUARD_`.
            pub guard_flags: Option<u32>,
            $($(#[$doc])* pub $name: Option<$type>,)*
        }

        /// The structure of a record, with the fields that this has not.
        fn with_further(record: LoadConfigDirectory, view: View<'_, '_>) -> error::Result<LoadConfigDirectory> {
            Ok(LoadConfigDirectory { $($name: further(view, LoadConfigField::$field)?,)* ..record })
        }
    };
}

structure! {
    /// `GlobalFlagsClear`: flags that are cleared in the process.
    global_flags_clear: u32 = GlobalFlagsClear;
    /// `GlobalFlagsSet`: flags that are set in it.
    global_flags_set: u32 = GlobalFlagsSet;
    /// `CriticalSectionDefaultTimeout`: in milliseconds.
    critical_section_default_timeout: u32 = CriticalSectionDefaultTimeout;
    /// `DeCommitFreeBlockThreshold`: of a free block, in bytes.
    de_commit_free_block_threshold: u64 = DeCommitFreeBlockThreshold;
    /// `DeCommitTotalFreeThreshold`: of the heap, in bytes.
    de_commit_total_free_threshold: u64 = DeCommitTotalFreeThreshold;
    /// `LockPrefixTable`: x86: where the addresses of lock prefixes are.
    lock_prefix_table: u64 = LockPrefixTable;
    /// `MaximumAllocationSize`: of the largest allocation, in bytes.
    maximum_allocation_size: u64 = MaximumAllocationSize;
    /// `VirtualMemoryThreshold`: in bytes.
    virtual_memory_threshold: u64 = VirtualMemoryThreshold;
    /// `ProcessAffinityMask`: the processors that the process runs on.
    process_affinity_mask: u64 = ProcessAffinityMask;
    /// `ProcessHeapFlags`: flags of HeapCreate.
    process_heap_flags: u32 = ProcessHeapFlags;
    /// `CSDVersion`: the version of the service pack.
    csd_version: u16 = CsdVersion;
    /// `EditList`: reserved.
    edit_list: u64 = EditList;
    /// `CodeIntegrity.Flags`.
    code_integrity_flags: u16 = CodeIntegrityFlags;
    /// `CodeIntegrity.Catalog`: 0xFFFF for none.
    code_integrity_catalog: u16 = CodeIntegrityCatalog;
    /// `CodeIntegrity.CatalogOffset`.
    code_integrity_catalog_offset: u32 = CodeIntegrityCatalogOffset;
    /// `CodeIntegrity.Reserved`.
    code_integrity_reserved: u32 = CodeIntegrityReserved;
    /// `GuardAddressTakenIatEntryTable`.
    guard_address_taken_iat_entry_table: u64 = GuardAddressTakenIatEntryTable;
    /// `GuardAddressTakenIatEntryCount`.
    guard_address_taken_iat_entry_count: u64 = GuardAddressTakenIatEntryCount;
    /// `GuardLongJumpTargetTable`.
    guard_long_jump_target_table: u64 = GuardLongJumpTargetTable;
    /// `GuardLongJumpTargetCount`.
    guard_long_jump_target_count: u64 = GuardLongJumpTargetCount;
    /// `DynamicValueRelocTable`: where the dynamic value relocations are.
    dynamic_value_reloc_table: u64 = DynamicValueRelocTable;
    /// `CHPEMetadataPointer`: where the metadata of x86 or x64 code on ARM64 is.
    chpe_metadata_pointer: u64 = ChpeMetadataPointer;
    /// `GuardRFFailureRoutine`.
    guard_rf_failure_routine: u64 = GuardRfFailureRoutine;
    /// `GuardRFFailureRoutineFunctionPointer`.
    guard_rf_failure_routine_function_pointer: u64 = GuardRfFailureRoutineFunctionPointer;
    /// `DynamicValueRelocTableOffset`: their offset in a section.
    dynamic_value_reloc_table_offset: u32 = DynamicValueRelocTableOffset;
    /// `DynamicValueRelocTableSection`: its number, from 1 on.
    dynamic_value_reloc_table_section: u16 = DynamicValueRelocTableSection;
    /// `GuardRFVerifyStackPointerFunctionPointer`.
    guard_rf_verify_stack_pointer_function_pointer: u64 = GuardRfVerifyStackPointerFunctionPointer;
    /// `HotPatchTableOffset`: an RVA.
    hot_patch_table_offset: u32 = HotPatchTableOffset;
    /// `EnclaveConfigurationPointer`.
    enclave_configuration_pointer: u64 = EnclaveConfigurationPointer;
    /// `VolatileMetadataPointer`.
    volatile_metadata_pointer: u64 = VolatileMetadataPointer;
    /// `GuardEHContinuationTable`.
    guard_eh_continuation_table: u64 = GuardEhContinuationTable;
    /// `GuardEHContinuationCount`.
    guard_eh_continuation_count: u64 = GuardEhContinuationCount;
    /// `GuardXFGCheckFunctionPointer`.
    guard_xfg_check_function_pointer: u64 = GuardXfgCheckFunctionPointer;
    /// `GuardXFGDispatchFunctionPointer`.
    guard_xfg_dispatch_function_pointer: u64 = GuardXfgDispatchFunctionPointer;
    /// `GuardXFGTableDispatchFunctionPointer`.
    guard_xfg_table_dispatch_function_pointer: u64 = GuardXfgTableDispatchFunctionPointer;
    /// `CastGuardOsDeterminedFailureMode`.
    cast_guard_os_determined_failure_mode: u64 = CastGuardOsDeterminedFailureMode;
    /// `GuardMemcpyFunctionPointer`.
    guard_memcpy_function_pointer: u64 = GuardMemcpyFunctionPointer;
}

/// A field that the library returns by its number.
fn further<T: TryFrom<u64>>(view: View<'_, '_>, field: LoadConfigField) -> error::Result<Option<T>> {
    view.load_config_field(field as u32)?.map(raw::narrow).transpose()
}

/// The load configuration of an image.
#[derive(Debug, Copy, Clone, PartialEq)]
pub struct LoadConfigData {
    /// The structure.
    pub directory: LoadConfigDirectory,
}

impl LoadConfigData {
    /// The load configuration of a directory in a file.
    pub fn parse(
        bytes: &[u8],
        dd: DataDirectory,
        sections: &[SectionTable],
        file_alignment: u32,
        is_64: bool,
    ) -> error::Result<Self> {
        Self::parse_with_opts(bytes, dd, sections, file_alignment, &ParseOptions::default(), is_64)
    }

    /// The load configuration of a directory. Error: `Malformed` where it is absent, unmapped or truncated.
    pub fn parse_with_opts(
        bytes: &[u8],
        dd: DataDirectory,
        sections: &[SectionTable],
        file_alignment: u32,
        opts: &ParseOptions,
        is_64: bool,
    ) -> error::Result<Self> {
        let mut info = raw::image_with(Index::LoadConfig, dd, file_alignment, opts);
        info.width = if is_64 { 64 } else { 32 };
        let sections = raw::sections_of(sections)?;
        let found = Self::of(View::of(bytes, &info, &sections))?;
        found.ok_or_else(|| error::Error::Malformed("no load configuration".to_owned()))
    }

    pub(crate) fn of(view: View<'_, '_>) -> error::Result<Option<Self>> {
        let found = view.load_config().map_err(|it| view.refused(Index::LoadConfig, it))?;
        let Some(it) = found else { return Ok(None) };
        Ok(Some(LoadConfigData { directory: with_further(record_of(&it), view)? }))
    }
}

fn record_of(it: &sys::LoadConfig) -> LoadConfigDirectory {
    /// A field, if the structure has it.
    fn field<T>(is_there: u8, value: T) -> Option<T> {
        (is_there != 0).then_some(value)
    }
    LoadConfigDirectory {
        size: it.size,
        time_date_stamp: field(it.has_time_date_stamp, it.time_date_stamp),
        major_version: field(it.has_major_version, it.major_version),
        minor_version: field(it.has_minor_version, it.minor_version),
        dependent_load_flags: field(it.has_dependent_load_flags, it.dependent_load_flags),
        security_cookie: field(it.has_security_cookie, it.security_cookie),
        se_handler_table: field(it.has_se_handler_table, it.se_handler_table),
        se_handler_count: field(it.has_se_handler_count, it.se_handler_count),
        guard_cf_check_function_pointer: field(
            it.has_guard_cf_check_function_pointer,
            it.guard_cf_check_function_pointer,
        ),
        guard_cf_dispatch_function_pointer: field(
            it.has_guard_cf_dispatch_function_pointer,
            it.guard_cf_dispatch_function_pointer,
        ),
        guard_cf_function_table: field(it.has_guard_cf_function_table, it.guard_cf_function_table),
        guard_cf_function_count: field(it.has_guard_cf_function_count, it.guard_cf_function_count),
        guard_flags: field(it.has_guard_flags, it.guard_flags),
        ..Default::default()
    }
}
