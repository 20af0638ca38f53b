// SPDX-License-Identifier: Apache-2.0 OR GPL-2.0-or-later
/* One call with whatever arguments the number gives, right ones and wrong ones; its lines go to standard output.
 *
 *     any_call NUMBER
 */
#include "bbm_emit.h"

#include <stdio.h>
#include <stdlib.h>

enum { CALLS = 13, LABEL_BYTES = 48 };

static struct bbm_tickets tickets;
static struct bbm_slot slots[4];
static struct bbm_buffer buffer;
static uint64_t state;

/* The next number of a generator (xorshift). */
static uint64_t any(void)
{
	state ^= state << 13;
	state ^= state >> 7;
	state ^= state << 17;
	return state;
}

/* An address: mostly one that a log can have. */
static uint64_t any_address(void)
{
	static const uint64_t masks[] = {0xfffffffff000, 0xfffffffff000, 0xfffffffffff8, UINT64_MAX};

	return any() & masks[any() % 4];
}

/* A number of a list of `count`, and one in eight times another. */
static int any_of(unsigned count)
{
	return (int)(any() % 8 ? any() % count : any());
}

static void call(unsigned which, const struct bbm_label *label)
{
	switch (which) {
	case 0: bbm_init(&buffer, any_address(), label); break;
	case 1: bbm_null(&buffer, any_address(), label); break;
	case 2: bbm_root(&buffer, (enum bbm_kind)any_of(BBM_KINDS), any_of(BBM_LOCKS), any_address(), label); break;
	case 3: bbm_unroot(&buffer, any_address(), label); break;
	case 4: bbm_write(&buffer, any_address(), any(), label); break;
	case 5: bbm_dsb(&buffer, (enum bbm_option)any_of(BBM_OPTIONS), label); break;
	case 6: bbm_dmb(&buffer, (enum bbm_option)any_of(BBM_OPTIONS), label); break;
	case 7: bbm_isb(&buffer, label); break;
	case 8: bbm_tlbi(&buffer, (enum bbm_tlbi_op)any_of(BBM_TLBI_OPS), label); break;
	case 9: bbm_tlbi_at(&buffer, (enum bbm_tlbi_at_op)any_of(BBM_TLBI_AT_OPS), any(), label); break;
	case 10: bbm_msr(&buffer, (enum bbm_register)any_of(BBM_REGISTERS), any(), label); break;
	case 11: bbm_lock(&buffer, (unsigned)any_of(BBM_LOCKS), label); break;
	default: bbm_unlock(&buffer, (unsigned)any_of(BBM_LOCKS), label); break;
	}
}

int main(int argc, char **argv)
{
	char text[LABEL_BYTES + 1] = "", lines[4 * BBM_LINE_BYTES];
	struct bbm_label label;
	unsigned i;

	state = argc == 2 ? 2 * strtoull(argv[1], NULL, 10) + 1 : 1;
	for (i = 0; i < 20; i++)
		any();
	for (i = 0; i < any() % LABEL_BYTES; i++)
		text[i] = (char)any();
	bbm_label_of(&label, text);
	bbm_open(&buffer, &tickets, slots, 4, (unsigned)any_of(BBM_PES));
	call((unsigned)(any() % CALLS), &label);
	bbm_close(&buffer);
	fwrite(lines, 1, bbm_read(&buffer, lines, sizeof lines), stdout);
	return 0;
}
