/* SPDX-License-Identifier: Apache-2.0 OR GPL-2.0-or-later */
/* PE 0 starts here at EL2 with the MMU off; the other one at second_start, by PSCI. */
	.section .text.start, "ax"
	.global _start
_start:
	adrp	x1, first_stack
	add	x1, x1, :lo12:first_stack
	mov	sp, x1
	adr	x2, vectors
	msr	vbar_el2, x2
	msr	vbar_el1, x2
	isb
	bl	first_main
	b	.

	.global second_start
second_start:
	adrp	x1, second_stack
	add	x1, x1, :lo12:second_stack
	mov	sp, x1
	adr	x2, vectors
	msr	vbar_el2, x2
	msr	vbar_el1, x2
	isb
	bl	second_main
	b	.

/* void enter_el1(void): goes on behind the call at EL1, with the same stack and the MMU of EL1 off. */
	.global enter_el1
enter_el1:
	mov	x1, sp
	msr	sp_el1, x1
	mov	x1, #0x80000000		/* HCR_EL2.RW */
	msr	hcr_el2, x1
	mov	x1, #0x3c5		/* EL1h, interrupts masked */
	msr	spsr_el2, x1
	msr	elr_el2, x30
	isb
	eret

/* void switch_ttbrs(u64 first, u64 upper, u64 lower): TTBR0, TTBR1, TTBR0 and one ISB, by code in the upper range,
   since the first may be an empty table. */
	.global switch_ttbrs
switch_ttbrs:
	adr	x3, 1f
	ldr	x4, =0xffffff8000000000 - 0x40000000
	add	x3, x3, x4
	br	x3
1:	msr	ttbr0_el1, x0
	msr	ttbr1_el1, x1
	msr	ttbr0_el1, x2
	isb
	ret

/* Nothing here is meant to take an exception. */
	.balign 0x800
vectors:
	.rept 16
	b	exception_taken
	.balign 0x80
	.endr

	.section .bss.stacks, "aw", @nobits
	.balign 4096
	.skip 8192
first_stack:
	.skip 8192
second_stack:
