/* SPDX-License-Identifier: Apache-2.0 OR GPL-2.0-or-later */
ENTRY(_start)
SECTIONS
{
	. = 0x40400000;
	.text : { *(.text.start) *(.text*) }
	.rodata : { *(.rodata*) }
	.data : { *(.data*) }
	.bss : { *(.bss*) *(COMMON) }
	/DISCARD/ : { *(.note*) *(.eh_frame*) }
}
