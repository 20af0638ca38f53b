// SPDX-License-Identifier: Apache-2.0 OR GPL-2.0-or-later
/* A program for QEMU's board `virt` without any system below it: logs the remap of a block as two PEs do, and shows three
 * ways out. The lines of PE 0 go to the UART, each behind "bbm: " and with a carriage return as on a console, and by
 * semihosting into the file pe0.text. The slots of PE 1 stay in memory, for the monitor's pmemsave. */
#include "bbm_emit.h"

#define UART ((volatile uint32_t *)0x09000000) /* a PL011: the data register */

enum { SLOTS = 16, PAGE = 0x40000000, PLACE = PAGE + 8 };

/* The calls of semihosting. */
enum { SEMI_OPEN = 1, SEMI_CLOSE = 2, SEMI_WRITE = 5, SEMI_MODE_WB = 5 };

struct bbm_slot slots_of_one[SLOTS], slots_of_two[SLOTS];
static struct bbm_tickets tickets;
static struct bbm_buffer one, two;

void run(void);

__asm__(".section .text.start, \"ax\"\n"
	".globl start\n"
	"start:	adrp	x0, stack_end\n"
	"	mov	sp, x0\n"
	"	bl	run\n"
	"1:	wfi\n"
	"	b	1b\n"
	".section .bss\n"
	".balign 4096\n"
	"	.space 16384\n"
	"stack_end:\n"
	".text\n");

static uint64_t semihosting(uint64_t call, const uint64_t *arguments)
{
	register uint64_t x0 __asm__("x0") = call;
	register const uint64_t *x1 __asm__("x1") = arguments;

	__asm__ volatile("hlt	#0xf000" : "+r"(x0) : "r"(x1) : "memory");
	return x0;
}

static void print(const char *text, size_t length)
{
	size_t i;

	for (i = 0; i < length; i++)
		*UART = (unsigned char)text[i];
}

/* The lines of the UART and of the file. */
static void write_lines(struct bbm_buffer *buffer)
{
	static char text[BBM_LINE_BYTES];
	const uint64_t open[] = {(uint64_t)(uintptr_t)"pe0.text", SEMI_MODE_WB, 8};
	uint64_t file = semihosting(SEMI_OPEN, open);
	size_t length;

	/* There is room for one line at a time. */
	while ((length = bbm_read(buffer, text, sizeof text))) {
		const uint64_t bytes[] = {file, (uint64_t)(uintptr_t)text, length};

		semihosting(SEMI_WRITE, bytes);
		print("bbm: ", 5);
		print(text, length - 1);
		print("\r\n", 2);
	}
	semihosting(SEMI_CLOSE, &file);
}

void run(void)
{
	bbm_open(&one, &tickets, slots_of_one, SLOTS, 0);
	bbm_open(&two, &tickets, slots_of_two, SLOTS, 1);
	print("hello\r\n", 7);
	bbm_init(&one, PAGE, BBM_HERE);
	bbm_root(&one, BBM_EL2, BBM_NO_LOCK, PAGE, BBM_HERE);
	bbm_write(&one, PLACE, 0x80000701, BBM_HERE);
	bbm_write(&two, PLACE, 0, BBM_HERE);
	bbm_dsb(&two, BBM_ISH, BBM_HERE);
	bbm_tlbi(&two, BBM_ALLE2IS, BBM_HERE);
	bbm_dsb(&two, BBM_ISH, BBM_HERE);
	bbm_write(&one, PLACE, 0xc0000701, BBM_HERE);
	bbm_close(&one);
	bbm_close(&two);
	write_lines(&one);
	print("done\r\n", 6);
}
