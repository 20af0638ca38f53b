// SPDX-License-Identifier: Apache-2.0 OR GPL-2.0-or-later
/* One labelled write, whose instructions an emulator counts. */
#include "bbm_emit.h"

static struct bbm_tickets tickets;
static struct bbm_slot slots[8];
static struct bbm_buffer buffer;

int main(void)
{
	bbm_open(&buffer, &tickets, slots, 8, 0);
	bbm_write(&buffer, 0x40000008, 0x80000701, BBM_HERE);
	return 0;
}
