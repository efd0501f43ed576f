//! The names of winnt.h for the numbers of headers. Layouts and numbers:
//! <https://learn.microsoft.com/windows/win32/debug/pe-format>.

/// A number and its name.
pub type Names = [(u32, &'static str)];

/// Bits of the DBI stream of a PDB.
pub const PDB_FLAGS: &Names = &[(1, "INCREMENTAL"), (2, "STRIPPED"), (4, "CONFLICTING_TYPES")];

/// `IMAGE_FILE_MACHINE_`
pub const MACHINES: &Names = &[
    (0x14C, "x86"),
    (0x166, "MIPS R4000"),
    (0x1A2, "SH3"),
    (0x1A6, "SH4"),
    (0x1C0, "ARM"),
    (0x1C2, "Thumb"),
    (0x1C4, "ARM Thumb-2"),
    (0x1F0, "PowerPC"),
    (0x200, "Itanium"),
    (0xEBC, "EFI byte code"),
    (0x5032, "RISC-V 32"),
    (0x5064, "RISC-V 64"),
    (0x6232, "LoongArch 32"),
    (0x6264, "LoongArch 64"),
    (0x8664, "x64"),
    (0xA641, "ARM64EC"),
    (0xA64E, "ARM64X"),
    (0xAA64, "ARM64"),
];

/// `IMAGE_SUBSYSTEM_`
pub const SUBSYSTEMS: &Names = &[
    (0, "unknown subsystem"),
    (1, "native"),
    (2, "Windows GUI"),
    (3, "Windows console"),
    (5, "OS/2 console"),
    (7, "POSIX console"),
    (8, "native Windows 9x"),
    (9, "Windows CE"),
    (10, "EFI application"),
    (11, "EFI boot service driver"),
    (12, "EFI runtime driver"),
    (13, "EFI ROM"),
    (14, "Xbox"),
    (16, "Windows boot application"),
];

/// `IMAGE_FILE_`
pub const CHARACTERISTICS: &Names = &[
    (0x1, "RELOCS_STRIPPED"),
    (0x2, "EXECUTABLE_IMAGE"),
    (0x4, "LINE_NUMS_STRIPPED"),
    (0x8, "LOCAL_SYMS_STRIPPED"),
    (0x10, "AGGRESIVE_WS_TRIM"),
    (0x20, "LARGE_ADDRESS_AWARE"),
    (0x80, "BYTES_REVERSED_LO"),
    (0x100, "32BIT_MACHINE"),
    (0x200, "DEBUG_STRIPPED"),
    (0x400, "REMOVABLE_RUN_FROM_SWAP"),
    (0x800, "NET_RUN_FROM_SWAP"),
    (0x1000, "SYSTEM"),
    (0x2000, "DLL"),
    (0x4000, "UP_SYSTEM_ONLY"),
    (0x8000, "BYTES_REVERSED_HI"),
];

/// `IMAGE_DLLCHARACTERISTICS_`
pub const DLL_CHARACTERISTICS: &Names = &[
    (0x20, "HIGH_ENTROPY_VA"),
    (0x40, "DYNAMIC_BASE"),
    (0x80, "FORCE_INTEGRITY"),
    (0x100, "NX_COMPAT"),
    (0x200, "NO_ISOLATION"),
    (0x400, "NO_SEH"),
    (0x800, "NO_BIND"),
    (0x1000, "APPCONTAINER"),
    (0x2000, "WDM_DRIVER"),
    (0x4000, "GUARD_CF"),
    (0x8000, "TERMINAL_SERVER_AWARE"),
];

/// `IMAGE_DLLCHARACTERISTICS_EX_`
pub const EXTENDED_DLL_CHARACTERISTICS: &Names = &[
    (0x1, "CET_COMPAT"),
    (0x2, "CET_COMPAT_STRICT_MODE"),
    (0x4, "CET_SET_CONTEXT_IP_VALIDATION_RELAXED_MODE"),
    (0x8, "CET_DYNAMIC_APIS_ALLOW_IN_PROC"),
    (0x40, "FORWARD_CFI_COMPAT"),
    (0x80, "HOTPATCH_COMPATIBLE"),
];

/// `IMAGE_DIRECTORY_ENTRY_`, by index
pub const DIRECTORIES: [&str; 16] = [
    "export",
    "import",
    "resource",
    "exception",
    "certificate",
    "base relocation",
    "debug",
    "architecture",
    "global pointer",
    "TLS",
    "load configuration",
    "bound import",
    "import address",
    "delay import",
    "CLR header",
    "reserved",
];

/// `IMAGE_DEBUG_TYPE_`
pub const DEBUG_TYPES: &Names = &[
    (1, "COFF"),
    (2, "CodeView"),
    (3, "FPO"),
    (4, "Misc"),
    (5, "Exception"),
    (6, "Fixup"),
    (7, "OMAP to source"),
    (8, "OMAP from source"),
    (9, "Borland"),
    (11, "CLSID"),
    (12, "VC feature"),
    (13, "POGO"),
    (14, "ILTCG"),
    (15, "MPX"),
    (16, "Repro"),
    (17, "Embedded portable PDB"),
    (19, "PDB checksum"),
    (20, "Extended DLL characteristics"),
];

/// `IMAGE_SYM_CLASS_`
pub const STORAGE_CLASSES: &Names = &[
    (0, "NULL"),
    (1, "AUTOMATIC"),
    (2, "EXTERNAL"),
    (3, "STATIC"),
    (4, "REGISTER"),
    (5, "EXTERNAL_DEF"),
    (6, "LABEL"),
    (7, "UNDEFINED_LABEL"),
    (8, "MEMBER_OF_STRUCT"),
    (9, "ARGUMENT"),
    (10, "STRUCT_TAG"),
    (11, "MEMBER_OF_UNION"),
    (12, "UNION_TAG"),
    (13, "TYPE_DEFINITION"),
    (14, "UNDEFINED_STATIC"),
    (15, "ENUM_TAG"),
    (16, "MEMBER_OF_ENUM"),
    (17, "REGISTER_PARAM"),
    (18, "BIT_FIELD"),
    (68, "FAR_EXTERNAL"),
    (100, "BLOCK"),
    (101, "FUNCTION"),
    (102, "END_OF_STRUCT"),
    (103, "FILE"),
    (104, "SECTION"),
    (105, "WEAK_EXTERNAL"),
    (107, "CLR_TOKEN"),
    (255, "END_OF_FUNCTION"),
];

/// `IMAGE_SYM_` in place of the number of a section
pub const SECTION_NUMBERS: &[(i16, &str)] = &[(0, "undefined"), (-1, "absolute"), (-2, "debug")];

/// `WIN_CERT_TYPE_`
pub const CERTIFICATE_TYPES: &Names =
    &[(1, "X.509"), (2, "PKCS #7 signed data"), (3, "reserved"), (4, "terminal server stack signed")];

/// `IMAGE_REL_BASED_`, without those whose meaning depends on the machine.
pub const RELOCATION_TYPES: &Names =
    &[(0, "ABSOLUTE"), (1, "HIGH"), (2, "LOW"), (3, "HIGHLOW"), (4, "HIGHADJ"), (10, "DIR64")];

/// The fields of a load configuration after the record of `Image::load_config`, in the order of winnt.h.
pub const LOAD_CONFIG_FIELDS: [&str; 37] = [
    "GlobalFlagsClear",
    "GlobalFlagsSet",
    "CriticalSectionDefaultTimeout",
    "DeCommitFreeBlockThreshold",
    "DeCommitTotalFreeThreshold",
    "LockPrefixTable",
    "MaximumAllocationSize",
    "VirtualMemoryThreshold",
    "ProcessAffinityMask",
    "ProcessHeapFlags",
    "CSDVersion",
    "EditList",
    "CodeIntegrity.Flags",
    "CodeIntegrity.Catalog",
    "CodeIntegrity.CatalogOffset",
    "CodeIntegrity.Reserved",
    "GuardAddressTakenIatEntryTable",
    "GuardAddressTakenIatEntryCount",
    "GuardLongJumpTargetTable",
    "GuardLongJumpTargetCount",
    "DynamicValueRelocTable",
    "CHPEMetadataPointer",
    "GuardRFFailureRoutine",
    "GuardRFFailureRoutineFunctionPointer",
    "DynamicValueRelocTableOffset",
    "DynamicValueRelocTableSection",
    "GuardRFVerifyStackPointerFunctionPointer",
    "HotPatchTableOffset",
    "EnclaveConfigurationPointer",
    "VolatileMetadataPointer",
    "GuardEHContinuationTable",
    "GuardEHContinuationCount",
    "GuardXFGCheckFunctionPointer",
    "GuardXFGDispatchFunctionPointer",
    "GuardXFGTableDispatchFunctionPointer",
    "CastGuardOsDeterminedFailureMode",
    "GuardMemcpyFunctionPointer",
];

/// `IMAGE_GUARD_`, without the bits 28 to 31, a number.
pub const GUARD_FLAGS: &Names = &[
    (0x100, "CF_INSTRUMENTED"),
    (0x200, "CFW_INSTRUMENTED"),
    (0x400, "CF_FUNCTION_TABLE_PRESENT"),
    (0x800, "SECURITY_COOKIE_UNUSED"),
    (0x1000, "PROTECT_DELAYLOAD_IAT"),
    (0x2000, "DELAYLOAD_IAT_IN_ITS_OWN_SECTION"),
    (0x4000, "CF_EXPORT_SUPPRESSION_INFO_PRESENT"),
    (0x8000, "CF_ENABLE_EXPORT_SUPPRESSION"),
    (0x1_0000, "CF_LONGJUMP_TABLE_PRESENT"),
    (0x2_0000, "RF_INSTRUMENTED"),
    (0x4_0000, "RF_ENABLE"),
    (0x8_0000, "RF_STRICT"),
    (0x10_0000, "RETPOLINE_PRESENT"),
    (0x40_0000, "EH_CONTINUATION_TABLE_PRESENT"),
    (0x80_0000, "XFG_ENABLED"),
    (0x100_0000, "CASTGUARD_PRESENT"),
    (0x200_0000, "MEMCPY_PRESENT"),
];

/// `IMAGE_GUARD_FLAG_`, of an entry of the lists that a load configuration leads to
pub const GUARDED_FLAGS: &Names =
    &[(1, "FID_SUPPRESSED"), (2, "EXPORT_SUPPRESSED"), (4, "FID_LANGEXCPTHANDLER"), (8, "FID_XFG")];

/// `COMIMAGE_FLAGS_`, of corhdr.h
pub const CLR_FLAGS: &Names = &[
    (0x1, "ILONLY"),
    (0x2, "32BITREQUIRED"),
    (0x4, "IL_LIBRARY"),
    (0x8, "STRONGNAMESIGNED"),
    (0x10, "NATIVE_ENTRYPOINT"),
    (0x1_0000, "TRACKDEBUGDATA"),
    (0x2_0000, "32BITPREFERRED"),
];

/// `RT_`, of winuser.h
pub const RESOURCE_TYPES: &Names = &[
    (1, "cursor"),
    (2, "bitmap"),
    (3, "icon"),
    (4, "menu"),
    (5, "dialog"),
    (6, "strings"),
    (7, "font directory"),
    (8, "font"),
    (9, "accelerators"),
    (10, "raw data"),
    (11, "messages"),
    (12, "cursor group"),
    (14, "icon group"),
    (16, "version"),
    (17, "dialog include"),
    (19, "plug and play"),
    (20, "VxD"),
    (21, "animated cursor"),
    (22, "animated icon"),
    (23, "HTML"),
    (24, "manifest"),
];

/// `IMAGE_SCN_MEM_`, as letters: read, write, execute.
const PERMISSIONS: [(u32, char); 3] = [(0x4000_0000, 'r'), (0x8000_0000, 'w'), (0x2000_0000, 'x')];

/// The name of a number.
pub fn name_of(number: u32, names: &'static Names) -> Option<&'static str> {
    names.iter().find(|it| it.0 == number).map(|it| it.1)
}

/// The names of the flags that are set.
pub fn flags_of(flags: u32, names: &'static Names) -> Vec<&'static str> {
    names.iter().filter(|it| flags & it.0 != 0).map(|it| it.1).collect()
}

/// What a section's flags permit, such as `r-x`.
pub fn permissions(flags: u32) -> String {
    PERMISSIONS.iter().map(|(flag, letter)| if flags & flag != 0 { *letter } else { '-' }).collect()
}

/// Codes of exceptions: `STATUS_` of ntstatus.h, and those that languages raise.
pub const EXCEPTIONS: &Names = &[
    (0x0EED_FADE, "an exception of Delphi"),
    (0x2047_4343, "an exception of GCC"),
    (0x4000_0015, "STATUS_FATAL_APP_EXIT"),
    (0x406D_1388, "the name of a thread, as Visual C++ sets it"),
    (0x8000_0001, "STATUS_GUARD_PAGE_VIOLATION"),
    (0x8000_0002, "STATUS_DATATYPE_MISALIGNMENT"),
    (0x8000_0003, "STATUS_BREAKPOINT"),
    (0x8000_0004, "STATUS_SINGLE_STEP"),
    (0xC000_0005, "STATUS_ACCESS_VIOLATION"),
    (0xC000_0006, "STATUS_IN_PAGE_ERROR"),
    (0xC000_0008, "STATUS_INVALID_HANDLE"),
    (0xC000_000D, "STATUS_INVALID_PARAMETER"),
    (0xC000_0017, "STATUS_NO_MEMORY"),
    (0xC000_001D, "STATUS_ILLEGAL_INSTRUCTION"),
    (0xC000_0025, "STATUS_NONCONTINUABLE_EXCEPTION"),
    (0xC000_0026, "STATUS_INVALID_DISPOSITION"),
    (0xC000_008C, "STATUS_ARRAY_BOUNDS_EXCEEDED"),
    (0xC000_008D, "STATUS_FLOAT_DENORMAL_OPERAND"),
    (0xC000_008E, "STATUS_FLOAT_DIVIDE_BY_ZERO"),
    (0xC000_008F, "STATUS_FLOAT_INEXACT_RESULT"),
    (0xC000_0090, "STATUS_FLOAT_INVALID_OPERATION"),
    (0xC000_0091, "STATUS_FLOAT_OVERFLOW"),
    (0xC000_0092, "STATUS_FLOAT_STACK_CHECK"),
    (0xC000_0093, "STATUS_FLOAT_UNDERFLOW"),
    (0xC000_0094, "STATUS_INTEGER_DIVIDE_BY_ZERO"),
    (0xC000_0095, "STATUS_INTEGER_OVERFLOW"),
    (0xC000_0096, "STATUS_PRIVILEGED_INSTRUCTION"),
    (0xC000_009C, "STATUS_DEVICE_DATA_ERROR"),
    (0xC000_00C4, "STATUS_UNEXPECTED_NETWORK_ERROR"),
    (0xC000_00FD, "STATUS_STACK_OVERFLOW"),
    (0xC000_0102, "STATUS_FILE_CORRUPT_ERROR"),
    (0xC000_0135, "STATUS_DLL_NOT_FOUND"),
    (0xC000_0139, "STATUS_ENTRYPOINT_NOT_FOUND"),
    (0xC000_013A, "STATUS_CONTROL_C_EXIT"),
    (0xC000_0142, "STATUS_DLL_INIT_FAILED"),
    (0xC000_0185, "STATUS_IO_DEVICE_ERROR"),
    (0xC000_020C, "STATUS_CONNECTION_DISCONNECTED"),
    (0xC000_02B4, "STATUS_FLOAT_MULTIPLE_FAULTS"),
    (0xC000_02B5, "STATUS_FLOAT_MULTIPLE_TRAPS"),
    (0xC000_0374, "STATUS_HEAP_CORRUPTION"),
    (0xC000_0409, "STATUS_STACK_BUFFER_OVERRUN"),
    (0xC000_0417, "STATUS_INVALID_CRUNTIME_PARAMETER"),
    (0xC000_0420, "STATUS_ASSERTION_FAILURE"),
    (0xC06D_007E, "a DLL of a delay import was not found, as Visual C++ says it"),
    (0xC06D_007F, "a function of a delay import was not found, as Visual C++ says it"),
    (0xE043_4352, "an exception of .NET"),
    (0xE06D_7363, "an exception of Visual C++"),
];

/// `FAST_FAIL_`: why a process ended itself by `__fastfail`, the first parameter of `STATUS_STACK_BUFFER_OVERRUN`.
/// <https://learn.microsoft.com/cpp/intrinsics/fastfail>
pub const FAST_FAILS: &Names = &[
    (0, "FAST_FAIL_LEGACY_GS_VIOLATION"),
    (1, "FAST_FAIL_VTGUARD_CHECK_FAILURE"),
    (2, "FAST_FAIL_STACK_COOKIE_CHECK_FAILURE"),
    (3, "FAST_FAIL_CORRUPT_LIST_ENTRY"),
    (4, "FAST_FAIL_INCORRECT_STACK"),
    (5, "FAST_FAIL_INVALID_ARG"),
    (6, "FAST_FAIL_GS_COOKIE_INIT"),
    (7, "FAST_FAIL_FATAL_APP_EXIT"),
    (8, "FAST_FAIL_RANGE_CHECK_FAILURE"),
    (9, "FAST_FAIL_UNSAFE_REGISTRY_ACCESS"),
    (10, "FAST_FAIL_GUARD_ICALL_CHECK_FAILURE"),
    (11, "FAST_FAIL_GUARD_WRITE_CHECK_FAILURE"),
    (12, "FAST_FAIL_INVALID_FIBER_SWITCH"),
    (13, "FAST_FAIL_INVALID_SET_OF_CONTEXT"),
    (14, "FAST_FAIL_INVALID_REFERENCE_COUNT"),
    (18, "FAST_FAIL_INVALID_JUMP_BUFFER"),
    (19, "FAST_FAIL_MRDATA_MODIFIED"),
    (20, "FAST_FAIL_CERTIFICATION_FAILURE"),
    (21, "FAST_FAIL_INVALID_EXCEPTION_CHAIN"),
    (22, "FAST_FAIL_CRYPTO_LIBRARY"),
    (23, "FAST_FAIL_INVALID_CALL_IN_DLL_CALLOUT"),
    (24, "FAST_FAIL_INVALID_IMAGE_BASE"),
    (25, "FAST_FAIL_DLOAD_PROTECTION_FAILURE"),
    (26, "FAST_FAIL_UNSAFE_EXTENSION_CALL"),
    (27, "FAST_FAIL_DEPRECATED_SERVICE_INVOKED"),
    (28, "FAST_FAIL_INVALID_BUFFER_ACCESS"),
    (29, "FAST_FAIL_INVALID_BALANCED_TREE"),
    (30, "FAST_FAIL_INVALID_NEXT_THREAD"),
    (31, "FAST_FAIL_GUARD_ICALL_CHECK_SUPPRESSED"),
    (32, "FAST_FAIL_APCS_DISABLED"),
    (33, "FAST_FAIL_INVALID_IDLE_STATE"),
    (34, "FAST_FAIL_MRDATA_PROTECTION_FAILURE"),
    (35, "FAST_FAIL_UNEXPECTED_HEAP_EXCEPTION"),
    (36, "FAST_FAIL_INVALID_LOCK_STATE"),
    (37, "FAST_FAIL_GUARD_JUMPTABLE"),
    (38, "FAST_FAIL_INVALID_LONGJUMP_TARGET"),
    (39, "FAST_FAIL_INVALID_DISPATCH_CONTEXT"),
    (40, "FAST_FAIL_INVALID_THREAD"),
    (41, "FAST_FAIL_INVALID_SYSCALL_NUMBER"),
    (42, "FAST_FAIL_INVALID_FILE_OPERATION"),
    (43, "FAST_FAIL_LPAC_ACCESS_DENIED"),
    (44, "FAST_FAIL_GUARD_SS_FAILURE"),
    (45, "FAST_FAIL_LOADER_CONTINUITY_FAILURE"),
    (46, "FAST_FAIL_GUARD_EXPORT_SUPPRESSION_FAILURE"),
    (47, "FAST_FAIL_INVALID_CONTROL_STACK"),
    (48, "FAST_FAIL_SET_CONTEXT_DENIED"),
    (49, "FAST_FAIL_INVALID_IAT"),
    (50, "FAST_FAIL_HEAP_METADATA_CORRUPTION"),
    (51, "FAST_FAIL_PAYLOAD_RESTRICTION_VIOLATION"),
];

/// `PROCESSOR_ARCHITECTURE_`
pub const PROCESSORS: &Names = &[(0, "x86"), (5, "ARM"), (6, "Itanium"), (9, "x64"), (12, "ARM64")];

/// `VER_PLATFORM_`, and those of Breakpad.
pub const PLATFORMS: &Names = &[
    (1, "Windows 9x"),
    (2, "Windows"),
    (0x8101, "macOS"),
    (0x8102, "iOS"),
    (0x8201, "Linux"),
    (0x8202, "Solaris"),
    (0x8203, "Android"),
];
