// SPDX-License-Identifier: Apache-2.0 OR GPL-2.0-or-later
/* Every call as a kernel's source makes it, to be compiled: with the types of <linux/types.h>, or with those that
 * another header declared. */
#include "bbm_emit.h"

struct bbm_tickets tickets;
struct bbm_slot slots[64];
struct bbm_buffer buffer = {.tickets = &tickets, .slots = slots, .room = 64, .pe = 3};

int descriptor_at(void *context, uint64_t place, uint64_t *value);
void make_calls(const char *text, char *line, size_t room);
uint64_t make_a_tree(char *header, uint64_t tcr, uint64_t vtcr);
void write_here(uint64_t place, uint64_t value);

void write_here(uint64_t place, uint64_t value)
{
	bbm_write(&buffer, place, value, BBM_HERE);
}

void make_calls(const char *text, char *line, size_t room)
{
	struct bbm_label label;

	bbm_label_of(&label, text);
	bbm_open(&buffer, &tickets, slots, 64, 3);
	bbm_init(&buffer, 0x40000000, BBM_HERE);
	bbm_null(&buffer, 0x40001000, BBM_NO_LABEL);
	bbm_root(&buffer, BBM_TTBR0, BBM_NO_LOCK, 0x40000000, &label);
	bbm_unroot(&buffer, 0x40000000, BBM_LABEL("label"));
	bbm_dsb(&buffer, BBM_ISHST, BBM_HERE);
	bbm_dmb(&buffer, BBM_ISH, BBM_HERE);
	bbm_isb(&buffer, BBM_HERE);
	bbm_tlbi(&buffer, BBM_VMALLE1IS, BBM_HERE);
	bbm_tlbi_at(&buffer, BBM_VALE1IS, 0x40000, BBM_HERE);
	bbm_msr(&buffer, BBM_TTBR0_EL1, 0x40000000, BBM_HERE);
	bbm_lock(&buffer, 1, BBM_HERE);
	bbm_unlock(&buffer, 1, BBM_HERE);
	bbm_close(&buffer);
	bbm_read(&buffer, line, room);
}

uint64_t make_a_tree(char *header, uint64_t tcr, uint64_t vtcr)
{
	static const struct bbm_tree tree = {
		.kind = BBM_S2, .lock = 1, .page = 0x40000000, .pages = 2, .start = 1, .descriptor = descriptor_at};

	bbm_tree(&buffer, &tree, BBM_HERE);
	return bbm_hyp_header(header, 4, tcr, vtcr, 0) || bbm_kernel_header(header, 4, tcr, 1);
}
