/* A board of the emulator: code from CODE on and 4 MB of data from DATA on, both named by the command that links. */
ENTRY(reset)
SECTIONS {
  . = CODE;
  .text : { KEEP(*(.vectors)) *(.text*) *(.rodata*) KEEP(*(.init)) KEEP(*(.fini)) }
  .ARM.exidx : { __exidx_start = .; *(.ARM.exidx*) __exidx_end = .; }
  .init_array : {
    __preinit_array_start = .; KEEP(*(.preinit_array*)) __preinit_array_end = .;
    __init_array_start = .; KEEP(*(.init_array*)) __init_array_end = .;
    __fini_array_start = .; KEEP(*(.fini_array*)) __fini_array_end = .;
    . = ALIGN(8);
  }
  data_loaded = .;
  . = DATA;
  .data : AT(data_loaded) { data_begins = .; *(.data*) . = ALIGN(8); data_ends = .; }
  .bss : { __bss_start__ = .; *(.bss*) *(COMMON) . = ALIGN(8); __bss_end__ = .; }
  end = .; __end__ = .; _end = .;
  stack_begins = DATA + 4M;
  __stack = stack_begins;
}
