"""What of pefile's names is not in pe_c.pefile, and why: one table. A name is NAME of the module, CLASS.NAME or
STRUCTURE.FIELD.

Such a name is an attribute that is missing: hasattr() is False, and the error says which name it is and why, and names this table."""
from __future__ import annotations

CONFIG = "pefile joins the names of two fields of PE32; each has its own here"
DYNAMIC = "the library for C does not read dynamic relocations"
PARTS = "the library for C reads such a part as one of its directory; PE has parse_.._directory for each"
INSIDE = "it is a part of how pefile reads"
MISC = "the library for C does not read this record"


def _all(reason: str, names: str, of: str = "") -> dict[str, str]:
    return {f"{of}{it}": reason for it in names.split()}


GAPS: dict[str, str] = {
    **_all(INSIDE, "Length ValueLength Type", "String."),
    **_all(CONFIG, "GuardRFVerifyStackPointerFunctionPointerI", "IMAGE_LOAD_CONFIG_DIRECTORY."),
    **_all(DYNAMIC, "dynamic_relocations", "LoadConfigData."),
    **_all(DYNAMIC, "has_dynamic_relocs parse_dynamic_relocations dynamic_relocation_format_by_symbol", "PE."),
    **_all(DYNAMIC, "PageRelativeOffset IndirectCall IATIndex", "IMAGE_IMPORT_CONTROL_TRANSFER_DYNAMIC_RELOCATION."),
    **_all(DYNAMIC, "PageRelativeOffset IndirectCall RexWPrefix CfgCheck Reserved",
           "IMAGE_INDIR_CONTROL_TRANSFER_DYNAMIC_RELOCATION."),
    **_all(DYNAMIC, "PageRelativeOffset RegisterNumber", "IMAGE_SWITCHTABLE_BRANCH_DYNAMIC_RELOCATION."),
    **_all(DYNAMIC, "Version Size", "IMAGE_DYNAMIC_RELOCATION_TABLE."),
    **_all(DYNAMIC, "Symbol BaseRelocSize", "IMAGE_DYNAMIC_RELOCATION."),
    **_all(DYNAMIC, "Symbol BaseRelocSize", "IMAGE_DYNAMIC_RELOCATION64."),
    **_all(DYNAMIC, "HeaderSize FixupInfoSize Symbol SymbolGroup Flags", "IMAGE_DYNAMIC_RELOCATION_V2."),
    **_all(DYNAMIC, "HeaderSize FixupInfoSize Symbol SymbolGroup Flags", "IMAGE_DYNAMIC_RELOCATION64_V2."),
    **_all(INSIDE, "PrologEpilogOpsFactory"),
    **_all(INSIDE, "unpack_in_stages set_chained_function_entry", "UnwindInfo."),
    **_all(INSIDE, "initialize", "PrologEpilogOp."),
    **_all(INSIDE, "initialize", "PrologEpilogOpSetFP."),
    **_all(INSIDE, "initialize", "PrologEpilogOpEpilogMarker."),
    **_all(MISC, "DataType Length Unicode Reserved1 Reserved2 Data", "IMAGE_DEBUG_MISC."),
    **_all(PARTS, "parse_sections parse_image_base_relocation_list parse_relocations parse_relocations_with_format "
                  "parse_version_information parse_imports get_import_table", "PE."),
    **_all(INSIDE, "DynamicRelocationData sublang_name sublang_value"),
    **_all(INSIDE, "FileAlignment_Warning SectionAlignment_Warning fileno", "PE."),
    **_all(INSIDE, "section_min_addr section_max_addr PointerToRawData_adj VirtualAddress_adj", "IMAGE_SECTION_HEADER."),
    **_all(INSIDE, "invalidate render_pascal_16 get_pascal_16_length ask_unicode_16 render_unicode_16 get_rva rva_ptr string",
           "UnicodeStringWrapperPostProcessor."),
}


TABLE = "pe_c._pefile_gaps.GAPS has all names of pefile that are not here"


class NotInPeC(AttributeError):
    """A name of pefile that pe_c.pefile does not have. `reason` says why."""

    def __init__(self, name: str, reason: str) -> None:
        super().__init__(f"{name}: {reason}; {TABLE}")
        self.reason = reason


def missing(owner: str, name: str) -> AttributeError:
    """The error of an attribute that is not there."""
    full = f"{owner}.{name}" if owner else name
    return NotInPeC(full, GAPS[full]) if full in GAPS else AttributeError(f"there is no {full}; {TABLE}")
