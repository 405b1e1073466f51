/* The mps2-an386 board (Cortex-M4): code in its first memory, data in its second. The third keeps what it holds over a reset. */
MEMORY
{
  FLASH (rx) : ORIGIN = 0x00000000, LENGTH = 64K
  RAM (rw) : ORIGIN = 0x20000000, LENGTH = 8K
  KEPT (rw) : ORIGIN = 0x21000000, LENGTH = 8K
}
ENTRY(reset)
SECTIONS
{
  .text : { KEEP(*(.vectors)) *(.text*) *(.rodata*) . = ALIGN(4); } > FLASH
  .ARM.exidx : { *(.ARM.exidx*) } > FLASH
  .data : { data_start = .; *(.data*) . = ALIGN(4); data_end = .; } > RAM AT > FLASH
  data_from = LOADADDR(.data);
  .bss (NOLOAD) : { bss_start = .; *(.bss*) *(COMMON) . = ALIGN(4); bss_end = .; } > RAM
  .kept (NOLOAD) : { *(.kept*) } > KEPT
  stack_top = ORIGIN(RAM) + LENGTH(RAM);
}
