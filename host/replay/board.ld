/* Code and data of an emulated board, where the words of the linker say: code_at, data_at. */
ENTRY(vectors_at)
SECTIONS
{
  . = code_at;
  vectors_at = .;
  .text : { KEEP(*(.vectors)) *(.text*) *(.rodata*) }
  .ARM.exidx : { *(.ARM.exidx*) *(.ARM.extab*) }
  . = data_at;
  .data : { *(.data*) }
  .bss : { bss_start = .; *(.bss*) *(COMMON) . = ALIGN(4); bss_end = .; }
  . = ALIGN(8) + 0x4000;
  stack_top = .;
}
