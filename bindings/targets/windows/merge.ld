/* For the control alone. Loaders refuse a DLL with a section for each function. */
SECTIONS
{
    .text : { *(.text .text.*) }
    .rdata : { *(.rodata .rodata.* .data.rel.ro .data.rel.ro.*) }
    /DISCARD/ : { *(.comment) *(.llvm_addrsig) *(.note.*) *(.eh_frame) }
}
