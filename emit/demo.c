// SPDX-License-Identifier: Apache-2.0 OR GPL-2.0-or-later
/* Logs the events of a story, which demo.rs tells too, and writes the dumps of the two PEs:
 *
 *     demo STORY DIRECTORY
 *
 * As pe0.slots and pe1.slots in the directory the slots as they lie in memory, and as pe0.text and pe1.text the lines.
 * The stories: `hyp` and `kernel` keep the rules; `words` has each line that a log can have, `labels` labels of all
 * kinds, and `headers` prints the headers of some registers.
 */
#include "bbm_emit.h"

#include <stdio.h>
#include <string.h>

enum { SLOTS = 4096, EL2_PAGE = 0x40000000, S2_PAGE = 0x40010000, KERNEL_PAGE = 0x40020000, USER_PAGE = 0x40030000 };

static struct bbm_tickets tickets;
static struct bbm_slot slots[2][SLOTS];
static struct bbm_buffer one, two; /* of PE 0 and PE 1 */

/* Tables that stand before logging begins: an EL2 root, a table below it, and one block in it. */
static int descriptor_of(void *context, uint64_t place, uint64_t *value)
{
	(void)context;
	*value = place == EL2_PAGE + 8 ? EL2_PAGE + 0x1003 : place == EL2_PAGE + 0x1010 ? 0x80400701 : 0;
	return 0;
}

/* Replaces the block by another. */
static void remap(uint64_t place, uint64_t page, uint64_t value)
{
	bbm_lock(&one, 3, BBM_LABEL("remap"));
	bbm_write(&one, place, 0, BBM_LABEL("remap/break"));
	bbm_dsb(&one, BBM_ISHST, BBM_LABEL("remap/publish"));
	bbm_tlbi_at(&one, BBM_VAE2IS, page, BBM_LABEL("remap/flush"));
	bbm_dsb(&one, BBM_ISH, BBM_LABEL("remap/wait"));
	bbm_write(&one, place, value, BBM_LABEL("remap/make"));
	bbm_unlock(&one, 3, BBM_LABEL("remap"));
}

/* A guest whose stage 2 root has two pages: a block is made, and moved in two steps. */
static void run_guest(void)
{
	bbm_init(&two, S2_PAGE, BBM_NO_LABEL);
	bbm_init(&two, S2_PAGE + 0x1000, BBM_NO_LABEL);
	bbm_root(&two, BBM_S2, BBM_NO_LOCK, S2_PAGE, BBM_NO_LABEL);
	bbm_msr(&two, BBM_VTTBR_EL2, S2_PAGE | (uint64_t)1 << 48, BBM_NO_LABEL);
	bbm_isb(&two, BBM_NO_LABEL);
	bbm_write(&two, S2_PAGE + 0x1008, 0x800007fd, BBM_NO_LABEL);
	bbm_dmb(&two, BBM_ISH, BBM_NO_LABEL);
	bbm_write(&two, S2_PAGE + 0x1008, 0, BBM_NO_LABEL);
	bbm_dsb(&two, BBM_ISH, BBM_NO_LABEL);
	bbm_tlbi_at(&two, BBM_IPAS2E1IS, 0x8040000000 >> 12, BBM_NO_LABEL);
	bbm_dsb(&two, BBM_ISH, BBM_NO_LABEL);
	bbm_tlbi(&two, BBM_VMALLE1IS, BBM_NO_LABEL);
	bbm_dsb(&two, BBM_ISH, BBM_NO_LABEL);
	bbm_write(&two, S2_PAGE + 0x1008, 0xc00007fd, BBM_NO_LABEL);
	bbm_msr(&two, BBM_VTTBR_EL2, 0, BBM_NO_LABEL);
	bbm_isb(&two, BBM_NO_LABEL);
	bbm_tlbi(&two, BBM_ALLE1IS, BBM_NO_LABEL);
	bbm_dsb(&two, BBM_ISH, BBM_NO_LABEL);
	bbm_unroot(&two, S2_PAGE, BBM_LABEL("guest/gone"));
}

static void hyp(void)
{
	const struct bbm_tree tree = {
		.kind = BBM_EL2, .lock = 3, .page = EL2_PAGE, .pages = 1, .start = 1, .descriptor = descriptor_of};

	bbm_tree(&one, &tree, BBM_LABEL("before"));
	bbm_msr(&one, BBM_TTBR0_EL2, EL2_PAGE, BBM_NO_LABEL);
	bbm_isb(&one, BBM_NO_LABEL);
	remap(EL2_PAGE + 0x1010, 0x40400000 >> 12, 0x80600701);
	run_guest();
}

/* A process under ASID 1, a page of it, and the page taken away. */
static void kernel(void)
{
	const uint64_t null_page = KERNEL_PAGE + 0x1000, asid = (uint64_t)1 << 48;

	bbm_init(&one, KERNEL_PAGE, BBM_NO_LABEL);
	bbm_root(&one, BBM_TTBR1, BBM_NO_LOCK, KERNEL_PAGE, BBM_NO_LABEL);
	bbm_init(&one, null_page, BBM_NO_LABEL);
	bbm_null(&one, null_page, BBM_NO_LABEL);
	bbm_msr(&one, BBM_TTBR0_EL1, null_page, BBM_NO_LABEL);
	bbm_msr(&one, BBM_TTBR1_EL1, KERNEL_PAGE | asid, BBM_NO_LABEL);
	bbm_isb(&one, BBM_NO_LABEL);
	bbm_init(&two, USER_PAGE, BBM_NO_LABEL);
	bbm_root(&two, BBM_TTBR0, BBM_NO_LOCK, USER_PAGE, BBM_NO_LABEL);
	bbm_msr(&one, BBM_TTBR0_EL1, USER_PAGE, BBM_NO_LABEL);
	bbm_isb(&one, BBM_NO_LABEL);
	bbm_write(&one, USER_PAGE + 8, 0x80000f41, BBM_LABEL("set_pte"));
	bbm_write(&two, USER_PAGE + 8, 0, BBM_LABEL("ptep_get_and_clear"));
	bbm_dsb(&two, BBM_ISHST, BBM_NO_LABEL);
	bbm_tlbi_at(&two, BBM_VALE1IS, asid | 0x40000000 >> 12, BBM_LABEL("flush_tlb_page"));
	bbm_dsb(&two, BBM_ISH, BBM_NO_LABEL);
	bbm_write(&one, USER_PAGE + 8, 0xc0000f41, BBM_LABEL("set_pte"));
}

/* Each word, option, operation and register. */
static void words(void)
{
	unsigned i;

	bbm_init(&one, EL2_PAGE, BBM_NO_LABEL);
	bbm_null(&one, EL2_PAGE, BBM_NO_LABEL);
	bbm_unroot(&one, 0xfffffffff000, BBM_NO_LABEL);
	bbm_write(&one, 0xfffffffffff8, UINT64_MAX, BBM_NO_LABEL);
	bbm_write(&one, 0, 0, BBM_NO_LABEL);
	for (i = 0; i < BBM_KINDS; i++)
		bbm_root(&one, (enum bbm_kind)i, i ? BBM_NO_LOCK : 1023, EL2_PAGE, BBM_NO_LABEL);
	for (i = 0; i < BBM_OPTIONS; i++) {
		bbm_dsb(&one, (enum bbm_option)i, BBM_NO_LABEL);
		bbm_dmb(&two, (enum bbm_option)i, BBM_NO_LABEL);
	}
	for (i = 0; i < BBM_TLBI_OPS; i++)
		bbm_tlbi(&one, (enum bbm_tlbi_op)i, BBM_NO_LABEL);
	for (i = 0; i < BBM_TLBI_AT_OPS; i++)
		bbm_tlbi_at(&two, (enum bbm_tlbi_at_op)i, 0x123456789abcdef0, BBM_NO_LABEL);
	for (i = 0; i < BBM_REGISTERS; i++)
		bbm_msr(&one, (enum bbm_register)i, UINT64_MAX, BBM_NO_LABEL);
	bbm_lock(&two, 0, BBM_NO_LABEL);
	bbm_unlock(&two, 1023, BBM_NO_LABEL);
	bbm_isb(&two, BBM_NO_LABEL);
}

static void labels(void)
{
	static const char *const texts[] = {"",
					    "a",
					    "mm/map.c:88",
					    "0123456789abcdef0123456789ABCDEF",
					    "arch/arm64/kvm/hyp/nvhe/mem_protect.c:1234",
					    "two words",
					    "1 w 0 0x0 0x0\n2 isb 0\r",
					    "tab\tbell\a@#\"'\\~^",
					    "gr\xc3\xb6\xc3\x9f" "er.c:7"};
	unsigned i;

	for (i = 0; i < sizeof texts / sizeof texts[0]; i++) {
		struct bbm_label label;

		bbm_label_of(&label, texts[i]);
		bbm_isb(&one, &label);
	}
	bbm_isb(&two, BBM_LABEL("arch/arm64/kvm/hyp/nvhe/mem_protect.c:1234"));
	bbm_isb(&two, BBM_LABEL("0123456789abcdef0123456789ABCDEF"));
	bbm_isb(&two, BBM_LABEL("a\nb"));
	bbm_isb(&two, BBM_LABEL(""));
}

/* The headers of registers: some that kernels and hypervisors have, and some that the profile doesn't. */
static void headers(void)
{
	static const uint64_t tcr_el1[] = {0x5100f5b5503510,   0x1000000b5193519, 0x1000000b5a235a2, 0x1000000b51c351c,
					   0x10000000b5197519, 0x1000000b5193511, 0x800000b5103510,  0x8000000b5103510};
	static const struct {
		uint64_t tcr_el2, vtcr_el2;
	} el2[] = {{0x80823510, 0x80043594}, {0x80823519, 0x80023558}, {0x80823522, 0x8002355b},
		   {0x80823519, 0x8002351e}, {0x80823519, 0x80023518}, {0x80827519, 0x80023558},
		   {0x80823519, 0x800235d9}, {0x80823519, 0x100023558}};
	char text[BBM_LINE_BYTES];
	const char *wrong;
	unsigned i;

	for (i = 0; i < sizeof tcr_el1 / sizeof tcr_el1[0]; i++) {
		wrong = bbm_kernel_header(text, 4, tcr_el1[i], i % 2 == 0);
		puts(wrong ? wrong : text);
	}
	for (i = 0; i < sizeof el2 / sizeof el2[0]; i++) {
		wrong = bbm_hyp_header(text, 4, el2[i].tcr_el2, el2[i].vtcr_el2, i % 2 == 0);
		puts(wrong ? wrong : text);
	}
	puts(bbm_kernel_header(text, 129, tcr_el1[0], 0));
	for (i = 0; i < 16; i++) {
		bbm_kernel_header(text, 4, tcr_el1[1], i % 2);
		wrong = bbm_version_5(text, i / 2);
		puts(wrong ? wrong : text);
		bbm_hyp_header(text, 4, el2[1].tcr_el2, el2[1].vtcr_el2, i % 2);
		wrong = bbm_version_5(text, i / 2);
		puts(wrong ? wrong : text);
	}
}

static FILE *open_dump(const char *directory, const char *name)
{
	char path[4096];

	snprintf(path, sizeof path, "%s/%s", directory, name);
	return fopen(path, "wb");
}

/* The slots first: reading the lines gives them back. */
static int save(struct bbm_buffer *buffer, const char *directory, const char *slots_name, const char *text_name)
{
	FILE *memory = open_dump(directory, slots_name), *lines = open_dump(directory, text_name);
	char text[4096];
	size_t used;

	bbm_close(buffer);
	if (!memory || !lines || fwrite(buffer->slots, sizeof buffer->slots[0], SLOTS, memory) != SLOTS)
		return 1;
	while ((used = bbm_read(buffer, text, sizeof text)))
		if (fwrite(text, 1, used, lines) != used)
			return 1;
	return fclose(memory) | fclose(lines);
}

int main(int argc, char **argv)
{
	static const struct {
		const char *name;
		void (*tell)(void);
	} stories[] = {{"hyp", hyp}, {"kernel", kernel}, {"words", words}, {"labels", labels}, {"headers", headers}};
	unsigned i;

	bbm_open(&one, &tickets, slots[0], SLOTS, 0);
	bbm_open(&two, &tickets, slots[1], SLOTS, 1);
	for (i = 0; argc == 3 && i < sizeof stories / sizeof stories[0]; i++)
		if (!strcmp(stories[i].name, argv[1])) {
			stories[i].tell();
			return save(&one, argv[2], "pe0.slots", "pe0.text") |
			       save(&two, argv[2], "pe1.slots", "pe1.text");
		}
	return 2;
}
