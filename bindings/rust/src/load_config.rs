//! The load configuration: what guards an image against attacks, as the security cookie, the safe exception handlers of x86 and
//! the functions that may be called indirectly. Versions of Windows have added fields at its end, so it says how many bytes it
//! has. See <https://learn.microsoft.com/windows/win32/debug/pe-format#the-load-configuration-structure-image-only>.

use crate::image::{Error, Image};
use crate::sys;

/// The load configuration, `IMAGE_LOAD_CONFIG_DIRECTORY32` or `IMAGE_LOAD_CONFIG_DIRECTORY64`, up to the guard flags.
///
/// A field is `None` where the structure is too short to have it, or the image ends before it does. The addresses are virtual
/// addresses, mostly 0 where there is nothing: less the image's `base` one is an RVA, for [`Image::offset`].
///
/// ```
/// # #[path = "../tests/made/mod.rs"] mod made;
/// # let bytes = made::with_load_config();
/// use pe_c::{Image, Mode};
///
/// let image = Image::parse(&bytes, Mode::Permissive)?;
/// let config = image.load_config()?.expect("the image has a load configuration");
/// assert_eq!(config.security_cookie, Some(0x1_8000_2000));
/// let guarded = config.guard_flags.is_some_and(|flags| flags & 0x100 != 0); // IMAGE_GUARD_CF_INSTRUMENTED
/// assert!(guarded);
/// # Ok::<(), pe_c::Error>(())
/// ```
#[derive(Clone, Copy, Debug, Default, PartialEq, Eq)]
#[cfg_attr(feature = "serde", derive(serde::Serialize))]
#[non_exhaustive]
pub struct LoadConfig {
    /// Of the structure in bytes, as it says itself.
    pub size: u32,
    /// When it was made, in seconds since 1970.
    pub time_date_stamp: Option<u32>,
    /// The major part of a version.
    pub major_version: Option<u16>,
    /// The minor part of a version.
    pub minor_version: Option<u16>,
    /// Where DLLs that the image imports are looked for: flags of `LoadLibraryEx`.
    pub dependent_load_flags: Option<u16>,
    /// Where the security cookie is.
    pub security_cookie: Option<u64>,
    /// Where the sorted table of the RVAs of exception handlers is, 4 bytes each, on x86.
    pub se_handler_table: Option<u64>,
    /// How many entries it has.
    pub se_handler_count: Option<u64>,
    /// Where the pointer is to the function that checks the target of an indirect call.
    pub guard_cf_check_function_pointer: Option<u64>,
    /// Where the pointer is to the function that checks the target and calls it.
    pub guard_cf_dispatch_function_pointer: Option<u64>,
    /// Where the sorted table of the functions is that may be called indirectly: an RVA each, 4 bytes, and then as many
    /// bytes as bits 28 to 31 of the guard flags say.
    pub guard_cf_function_table: Option<u64>,
    /// How many entries it has.
    pub guard_cf_function_count: Option<u64>,
    /// `IMAGE_GUARD_*`.
    pub guard_flags: Option<u32>,
}

/// A field that [`LoadConfig`] does not have, in the order of winnt.h. What is named a table or a pointer is a virtual address, but for
/// offsets.
#[derive(Clone, Copy, Debug, PartialEq, Eq, Hash)]
#[non_exhaustive]
pub enum LoadConfigField {
    /// `GlobalFlagsClear`: flags that are cleared in the process.
    GlobalFlagsClear = 0,
    /// `GlobalFlagsSet`: flags that are set in it.
    GlobalFlagsSet = 1,
    /// `CriticalSectionDefaultTimeout`: in milliseconds.
    CriticalSectionDefaultTimeout = 2,
    /// `DeCommitFreeBlockThreshold`: of a free block, in bytes.
    DeCommitFreeBlockThreshold = 3,
    /// `DeCommitTotalFreeThreshold`: of the heap, in bytes.
    DeCommitTotalFreeThreshold = 4,
    /// `LockPrefixTable`: x86: where the addresses of lock prefixes are.
    LockPrefixTable = 5,
    /// `MaximumAllocationSize`: of the largest allocation, in bytes.
    MaximumAllocationSize = 6,
    /// `VirtualMemoryThreshold`: in bytes.
    VirtualMemoryThreshold = 7,
    /// `ProcessAffinityMask`: the processors that the process runs on.
    ProcessAffinityMask = 8,
    /// `ProcessHeapFlags`: flags of HeapCreate.
    ProcessHeapFlags = 9,
    /// `CSDVersion`: the version of the service pack.
    CsdVersion = 10,
    /// `EditList`: reserved.
    EditList = 11,
    /// `CodeIntegrity.Flags`.
    CodeIntegrityFlags = 12,
    /// `CodeIntegrity.Catalog`: 0xFFFF for none.
    CodeIntegrityCatalog = 13,
    /// `CodeIntegrity.CatalogOffset`.
    CodeIntegrityCatalogOffset = 14,
    /// `CodeIntegrity.Reserved`.
    CodeIntegrityReserved = 15,
    /// `GuardAddressTakenIatEntryTable`.
    GuardAddressTakenIatEntryTable = 16,
    /// `GuardAddressTakenIatEntryCount`.
    GuardAddressTakenIatEntryCount = 17,
    /// `GuardLongJumpTargetTable`.
    GuardLongJumpTargetTable = 18,
    /// `GuardLongJumpTargetCount`.
    GuardLongJumpTargetCount = 19,
    /// `DynamicValueRelocTable`: where the dynamic value relocations are.
    DynamicValueRelocTable = 20,
    /// `CHPEMetadataPointer`: where the metadata of x86 or x64 code on ARM64 is.
    ChpeMetadataPointer = 21,
    /// `GuardRFFailureRoutine`.
    GuardRfFailureRoutine = 22,
    /// `GuardRFFailureRoutineFunctionPointer`.
    GuardRfFailureRoutineFunctionPointer = 23,
    /// `DynamicValueRelocTableOffset`: their offset in a section.
    DynamicValueRelocTableOffset = 24,
    /// `DynamicValueRelocTableSection`: its number, from 1 on.
    DynamicValueRelocTableSection = 25,
    /// `GuardRFVerifyStackPointerFunctionPointer`.
    GuardRfVerifyStackPointerFunctionPointer = 26,
    /// `HotPatchTableOffset`: an RVA.
    HotPatchTableOffset = 27,
    /// `EnclaveConfigurationPointer`.
    EnclaveConfigurationPointer = 28,
    /// `VolatileMetadataPointer`.
    VolatileMetadataPointer = 29,
    /// `GuardEHContinuationTable`.
    GuardEhContinuationTable = 30,
    /// `GuardEHContinuationCount`.
    GuardEhContinuationCount = 31,
    /// `GuardXFGCheckFunctionPointer`.
    GuardXfgCheckFunctionPointer = 32,
    /// `GuardXFGDispatchFunctionPointer`.
    GuardXfgDispatchFunctionPointer = 33,
    /// `GuardXFGTableDispatchFunctionPointer`.
    GuardXfgTableDispatchFunctionPointer = 34,
    /// `CastGuardOsDeterminedFailureMode`.
    CastGuardOsDeterminedFailureMode = 35,
    /// `GuardMemcpyFunctionPointer`.
    GuardMemcpyFunctionPointer = 36,
}

impl LoadConfigField {
    /// All of them, in the order of winnt.h.
    pub const ALL: [LoadConfigField; 37] = [
        LoadConfigField::GlobalFlagsClear,
        LoadConfigField::GlobalFlagsSet,
        LoadConfigField::CriticalSectionDefaultTimeout,
        LoadConfigField::DeCommitFreeBlockThreshold,
        LoadConfigField::DeCommitTotalFreeThreshold,
        LoadConfigField::LockPrefixTable,
        LoadConfigField::MaximumAllocationSize,
        LoadConfigField::VirtualMemoryThreshold,
        LoadConfigField::ProcessAffinityMask,
        LoadConfigField::ProcessHeapFlags,
        LoadConfigField::CsdVersion,
        LoadConfigField::EditList,
        LoadConfigField::CodeIntegrityFlags,
        LoadConfigField::CodeIntegrityCatalog,
        LoadConfigField::CodeIntegrityCatalogOffset,
        LoadConfigField::CodeIntegrityReserved,
        LoadConfigField::GuardAddressTakenIatEntryTable,
        LoadConfigField::GuardAddressTakenIatEntryCount,
        LoadConfigField::GuardLongJumpTargetTable,
        LoadConfigField::GuardLongJumpTargetCount,
        LoadConfigField::DynamicValueRelocTable,
        LoadConfigField::ChpeMetadataPointer,
        LoadConfigField::GuardRfFailureRoutine,
        LoadConfigField::GuardRfFailureRoutineFunctionPointer,
        LoadConfigField::DynamicValueRelocTableOffset,
        LoadConfigField::DynamicValueRelocTableSection,
        LoadConfigField::GuardRfVerifyStackPointerFunctionPointer,
        LoadConfigField::HotPatchTableOffset,
        LoadConfigField::EnclaveConfigurationPointer,
        LoadConfigField::VolatileMetadataPointer,
        LoadConfigField::GuardEhContinuationTable,
        LoadConfigField::GuardEhContinuationCount,
        LoadConfigField::GuardXfgCheckFunctionPointer,
        LoadConfigField::GuardXfgDispatchFunctionPointer,
        LoadConfigField::GuardXfgTableDispatchFunctionPointer,
        LoadConfigField::CastGuardOsDeterminedFailureMode,
        LoadConfigField::GuardMemcpyFunctionPointer,
    ];
}

/// A field, if it is there.
fn field<T>(is_there: u8, value: T) -> Option<T> {
    (is_there != 0).then_some(value)
}

impl From<sys::LoadConfig> for LoadConfig {
    fn from(found: sys::LoadConfig) -> LoadConfig {
        LoadConfig {
            size: found.size,
            time_date_stamp: field(found.has_time_date_stamp, found.time_date_stamp),
            major_version: field(found.has_major_version, found.major_version),
            minor_version: field(found.has_minor_version, found.minor_version),
            dependent_load_flags: field(found.has_dependent_load_flags, found.dependent_load_flags),
            security_cookie: field(found.has_security_cookie, found.security_cookie),
            se_handler_table: field(found.has_se_handler_table, found.se_handler_table),
            se_handler_count: field(found.has_se_handler_count, found.se_handler_count),
            guard_cf_check_function_pointer: field(
                found.has_guard_cf_check_function_pointer,
                found.guard_cf_check_function_pointer,
            ),
            guard_cf_dispatch_function_pointer: field(
                found.has_guard_cf_dispatch_function_pointer,
                found.guard_cf_dispatch_function_pointer,
            ),
            guard_cf_function_table: field(found.has_guard_cf_function_table, found.guard_cf_function_table),
            guard_cf_function_count: field(found.has_guard_cf_function_count, found.guard_cf_function_count),
            guard_flags: field(found.has_guard_flags, found.guard_flags),
        }
    }
}

impl Image<'_> {
    /// The load configuration. `None` where the directory is absent.
    ///
    /// # Errors
    ///
    /// [`Error::UNMAPPED`]; [`Error::SHORT`] of the 4 bytes of the structure's size.
    pub fn load_config(&self) -> Result<Option<LoadConfig>, Error> {
        Ok(self.ask(sys::pe_c_load_config)?.map(LoadConfig::from))
    }

    /// A field of the load configuration that [`LoadConfig`] does not have. `None` where the directory is absent, and where the
    /// structure is too short for the field, or the image.
    ///
    /// # Errors
    ///
    /// Those of [`Image::load_config`].
    pub fn load_config_field(&self, field: LoadConfigField) -> Result<Option<u64>, Error> {
        self.ask_with(sys::pe_c_load_config_field, field as u32)
    }
}
