// SPDX-License-Identifier: Apache-2.0 OR GPL-2.0-or-later
/* A guest without an operating system: two PEs map, unmap and remap, right and wrong.
 *
 * One boot runs one scenario, whose number QEMU's loader puts at SCENARIO: its position in the list at the end. The
 * names of the functions are what the labels of the log say. What the checker has to answer to each stands in
 * `expected`.
 */
#include "../bbm_markers.h"
#include <stdbool.h>
#include <stdint.h>

typedef uint64_t u64;

/* Physical addresses; all of memory is mapped where it is. */
#define UART 0x09000000ul
#define TABLES 0x44000000ul    /* table pages, one after another */
#define SCENARIO 0x47fff000ul
#define STAYS 0x47fff008ul     /* not 0: the guest runs on behind its scenario */
#define FRAME_A 0x48000000ul   /* what is mapped: two blocks of 2 MiB */
#define FRAME_B 0x48200000ul
#define TEST 0x80000000ul      /* the input address at which scenarios map */
#define IPA 0x40000000ul       /* and the one of stage 2 */

/* HCR_EL2 of a host with VHE, of that host for its guest's TLBIs, and of the guest. */
#define HCR_RW (1ul << 31)
#define HCR_E2H (1ul << 34)
#define HCR_HOST (HCR_RW | HCR_E2H | 1ul << 27)
#define HCR_FOR_GUEST (HCR_RW | HCR_E2H)
#define HCR_GUEST (HCR_FOR_GUEST | 1)

enum { PAGE = 4096, BLOCK = 0x200000, ASID = 1, OTHER_ASID = 2, VMID = 1, LAST_VMID = 255, LOCK = 3 };
enum regime { EL1, EL2, EL1_ASID_IN_TTBR1, HOST };

/* ---- instructions */

#define dsb(option) __asm__ volatile("dsb " #option : : : "memory")
#define dmb() __asm__ volatile("dmb ish" : : : "memory")
#define isb() __asm__ volatile("isb" : : : "memory")
#define tlbi(operation) __asm__ volatile("tlbi " #operation : : : "memory")
#define tlbi_at(operation, operand) __asm__ volatile("tlbi " #operation ", %0" : : "r"(operand) : "memory")
#define write_register(name, value) __asm__ volatile("msr " #name ", %0" : : "r"((u64)(value)) : "memory")
#define store(place, value) (*(volatile u64 *)(place) = (value))
#define SCENARIO_CODE __attribute__((noinline)) static void

static inline void store_pair(u64 place, u64 low, u64 high)
{
	__asm__ volatile("stp %1, %2, [%0]" : : "r"(place), "r"(low), "r"(high) : "memory");
}

/* Whether the value was the old one, and was replaced. */
static inline bool compare_and_swap(u64 place, u64 old, u64 value)
{
	u64 found;
	uint32_t failed = 1;

	do {
		__asm__ volatile("ldxr %0, [%1]" : "=r"(found) : "r"(place) : "memory");
		if (found != old) {
			__asm__ volatile("clrex" : : : "memory");
			return false;
		}
		__asm__ volatile("stxr %w0, %1, [%2]" : "=&r"(failed) : "r"(value), "r"(place) : "memory");
	} while (failed);
	return true;
}

static u64 call_firmware(u64 function, u64 first, u64 second, u64 third)
{
	register u64 x0 __asm__("x0") = function, x1 __asm__("x1") = first;
	register u64 x2 __asm__("x2") = second, x3 __asm__("x3") = third;

	__asm__ volatile("smc #0" : "+r"(x0) : "r"(x1), "r"(x2), "r"(x3) : "memory");
	return x0;
}

static void print(const char *text)
{
	while (*text)
		*(volatile uint32_t *)UART = (uint8_t)*text++;
}

static void power_off(void)
{
	call_firmware(0x84000008, 0, 0, 0);
	for (;;)
		;
}

void exception_taken(void)
{
	print("an exception was taken\n");
	power_off();
}

/* ---- the tables: each regime has one root, which starts at level 1 and has 39 bits of input addresses */

static enum regime regime;
static u64 next_page = TABLES;

static u64 new_page(void)
{
	u64 page = next_page;
	int i;

	next_page += PAGE;
	for (i = 0; i < PAGE; i += 8)
		store(page + i, 0);
	return page;
}

static u64 root, middle, last, upper_root;

/* Attributes: valid, access flag, inner shareable; at EL1 not global; at EL2 bit 6 is one. */
static u64 leaf(u64 output, int level)
{
	return output | (level == 3 ? 0x703 : 0x701) | (regime != EL2 ? 1 << 11 : 1 << 6);
}

static u64 device(u64 output)
{
	return leaf(output, 1) | 1 << 2 | 1ul << 54;
}

static u64 table(u64 page)
{
	return page | 3;
}

/* The places of the test address at levels 1, 2 and 3. */
static u64 root_place(void) { return root + 8 * (TEST >> 30); }
static u64 middle_place(void) { return middle + 8 * (TEST >> 21 & 511); }
static u64 last_place(void) { return last + 8 * (TEST >> 12 & 511); }

/* The memory where it is, and the test address through tables of level 2 and 3: one page there, and a block behind. */
static void make_tables(void)
{
	root = new_page();
	middle = new_page();
	last = new_page();
	store(root, device(0));
	store(root + 8, leaf(0x40000000, 1));
	store(last_place(), leaf(FRAME_A, 3));
	store(middle_place() + 8, leaf(FRAME_A, 2));
	store(middle_place(), table(last));
	store(root_place(), table(middle));
	upper_root = new_page();
	store(upper_root, 0x40000000 | 0x701);
	dsb(ish);
}

static void turn_on_el2(void)
{
	write_register(mair_el2, 0x00ff);
	write_register(tcr_el2, 0x80823519); /* 39 bits, 4 KiB, 40 bits of output */
	write_register(ttbr0_el2, root);
	isb();
	tlbi(alle2);
	dsb(nsh);
	write_register(sctlr_el2, 0x30c51835);
	isb();
}

/* A host with VHE: it stays at EL2 with its MMU off, since its own tables aren't those that are judged. */
static void turn_on_host(void)
{
	write_register(hcr_el2, HCR_HOST);
	isb();
}

static void turn_on_el1(void)
{
	u64 asid = (u64)ASID << 48, control = 0x2b5193519; /* 39 bits below and above, 4 KiB, 40 bits of output */

	write_register(mair_el1, 0x00ff);
	if (regime == EL1_ASID_IN_TTBR1) {
		write_register(tcr_el1, control | 1 << 22);
		write_register(ttbr1_el1, upper_root | asid);
		isb();
		write_register(ttbr0_el1, root);
	} else {
		write_register(tcr_el1, control);
		write_register(ttbr0_el1, root | asid);
		write_register(ttbr1_el1, upper_root);
	}
	isb();
	tlbi(vmalle1);
	dsb(nsh);
	write_register(sctlr_el1, 0x30d0181d);
	isb();
}

/* A TLBI for the page of an address, at every PE and at this one. */
static inline void flush_page(u64 address)
{
	if (regime != EL2)
		tlbi_at(vae1is, address >> 12 | (u64)ASID << 48);
	else
		tlbi_at(vae2is, address >> 12);
}

static inline void flush_page_here(u64 address)
{
	if (regime != EL2)
		tlbi_at(vae1, address >> 12 | (u64)ASID << 48);
	else
		tlbi_at(vae2, address >> 12);
}

static inline void flush_all(void)
{
	if (regime != EL2)
		tlbi(vmalle1is);
	else
		tlbi(alle2is);
}

static inline void touch(u64 address)
{
	(void)*(volatile u64 *)address;
}

/* ---- the other PE */

typedef void job(void);
static job *volatile other_job;
static volatile bool other_is_up;

/* Runs it on the other PE, and waits until it is done. */
static void on_other(job *what)
{
	dmb();
	other_job = what;
	while (other_job)
		;
	dmb();
}

static void touch_test(void)
{
	touch(TEST);
}

/* ---- scenarios of EL1 and EL2 */

static void begin(void)
{
	touch(TEST);
	on_other(touch_test);
}

SCENARIO_CODE remap(void)
{
	begin();
	store(last_place(), 0);
	dsb(ishst);
	flush_page(TEST);
	dsb(ish);
	store(last_place(), leaf(FRAME_B, 3));
	dsb(ishst);
	isb();
	begin();
}

SCENARIO_CODE remap_without_tlbi(void)
{
	begin();
	store(last_place(), 0);
	dsb(ish);
	store(last_place(), leaf(FRAME_B, 3));
}

SCENARIO_CODE remap_tlbi_before_dsb(void)
{
	begin();
	store(last_place(), 0);
	flush_page(TEST);
	dsb(ish);
	store(last_place(), leaf(FRAME_B, 3));
}

SCENARIO_CODE remap_without_last_dsb(void)
{
	begin();
	store(last_place(), 0);
	dsb(ishst);
	flush_page(TEST);
	store(last_place(), leaf(FRAME_B, 3));
}

SCENARIO_CODE remap_dsb_nsh(void)
{
	begin();
	store(last_place(), 0);
	dsb(ishst);
	flush_page(TEST);
	dsb(nsh);
	store(last_place(), leaf(FRAME_B, 3));
}

SCENARIO_CODE remap_local_tlbi(void)
{
	begin();
	store(last_place(), 0);
	dsb(ishst);
	flush_page_here(TEST);
	dsb(ish);
	store(last_place(), leaf(FRAME_B, 3));
}

SCENARIO_CODE flush_here(void)
{
	flush_page_here(TEST);
	dsb(nsh);
}

SCENARIO_CODE remap_local_tlbi_on_each(void)
{
	begin();
	store(last_place(), 0);
	dsb(ishst);
	flush_here();
	on_other(flush_here);
	store(last_place(), leaf(FRAME_B, 3));
}

SCENARIO_CODE remap_wrong_address(void)
{
	begin();
	store(last_place(), 0);
	dsb(ishst);
	flush_page(TEST + PAGE);
	dsb(ish);
	store(last_place(), leaf(FRAME_B, 3));
}

SCENARIO_CODE other_dsb(void)
{
	dsb(ish);
}

SCENARIO_CODE remap_dsb_of_other_pe(void)
{
	begin();
	store(last_place(), 0);
	dsb(ishst);
	flush_page(TEST);
	on_other(other_dsb);
	store(last_place(), leaf(FRAME_B, 3));
}

SCENARIO_CODE break_and_flush(void)
{
	store(last_place(), 0);
	dsb(ishst);
	flush_page(TEST);
	dsb(ish);
}

SCENARIO_CODE remap_by_two_pes(void)
{
	begin();
	on_other(break_and_flush);
	store(last_place(), leaf(FRAME_B, 3));
}

SCENARIO_CODE remap_under_lock(void)
{
	begin();
	bbm_mark_lock(LOCK);
	break_and_flush();
	store(last_place(), leaf(FRAME_B, 3));
	bbm_mark_unlock(LOCK);
}

SCENARIO_CODE remap_lock_dropped(void)
{
	begin();
	bbm_mark_lock(LOCK);
	break_and_flush();
	bbm_mark_unlock(LOCK);
	store(last_place(), leaf(FRAME_B, 3));
}

SCENARIO_CODE permissions_in_place(void)
{
	begin();
	store(last_place(), leaf(FRAME_A, 3) | 1 << 7);
	dsb(ishst);
	flush_page(TEST);
	dsb(ish);
}

SCENARIO_CODE make_pair(void)
{
	store_pair(last_place() + 16, leaf(FRAME_A + PAGE, 3), leaf(FRAME_A + 2 * PAGE, 3));
	dsb(ishst);
	touch(TEST + 2 * PAGE);
}

SCENARIO_CODE remap_pair(void)
{
	make_pair();
	store_pair(last_place() + 16, leaf(FRAME_A + PAGE, 3), leaf(FRAME_B, 3));
}

SCENARIO_CODE swap_that_fails(void)
{
	begin();
	compare_and_swap(last_place(), 0, leaf(FRAME_B, 3));
	compare_and_swap(last_place(), leaf(FRAME_A, 3), leaf(FRAME_A, 3) | 1 << 7);
}

SCENARIO_CODE swap_without_break(void)
{
	begin();
	compare_and_swap(last_place(), leaf(FRAME_A, 3), leaf(FRAME_B, 3));
}

static void fill(u64 page, u64 output)
{
	int i;

	for (i = 0; i < 512; i++)
		store(page + 8 * i, leaf(output + i * PAGE, 3));
}

SCENARIO_CODE split_block(void)
{
	u64 page = new_page();

	touch(TEST + BLOCK);
	fill(page, FRAME_A);
	dsb(ishst);
	store(middle_place() + 8, 0);
	dsb(ishst);
	flush_page(TEST + BLOCK);
	dsb(ish);
	store(middle_place() + 8, table(page));
	dsb(ishst);
}

SCENARIO_CODE split_block_without_break(void)
{
	u64 page = new_page();

	touch(TEST + BLOCK);
	fill(page, FRAME_A);
	dsb(ishst);
	store(middle_place() + 8, table(page));
}

/* Makes a page zero as a kernel does, by DC ZVA. */
static inline void zero(u64 page)
{
	u64 at;

	for (at = page; at < page + PAGE; at += 64)
		__asm__ volatile("dc zva, %0" : : "r"(at) : "memory");
}

SCENARIO_CODE free_table(void)
{
	begin();
	store(middle_place(), 0);
	dsb(ishst);
	flush_all();
	dsb(ish);
	zero(last);
	dsb(ishst);
	store(middle_place(), table(last));
	dsb(ishst);
}

SCENARIO_CODE free_table_before_flush(void)
{
	begin();
	store(middle_place(), 0);
	dsb(ishst);
	zero(last);
	flush_all();
	dsb(ish);
}

SCENARIO_CODE free_table_flushed_by_page(void)
{
	begin();
	store(middle_place(), 0);
	dsb(ishst);
	flush_page(TEST);
	dsb(ish);
	store(last, 0x123456789ul);
}

/* ---- scenarios of ASIDs, at EL1 */

static u64 second_root(void)
{
	u64 page = new_page();

	store(page, device(0));
	store(page + 8, leaf(0x40000000, 1));
	dsb(ishst);
	return page;
}

SCENARIO_CODE remap_wrong_asid(void)
{
	begin();
	store(last_place(), 0);
	dsb(ishst);
	tlbi_at(vae1is, TEST >> 12 | (u64)OTHER_ASID << 48);
	dsb(ish);
	store(last_place(), leaf(FRAME_B, 3));
}

SCENARIO_CODE other_asid(void)
{
	write_register(ttbr0_el1, second_root() | (u64)OTHER_ASID << 48);
	isb();
}

SCENARIO_CODE reuse_asid(void)
{
	u64 page = second_root();

	begin();
	on_other(other_asid);
	write_register(ttbr0_el1, second_root() | (u64)(OTHER_ASID + 1) << 48);
	isb();
	tlbi_at(aside1is, (u64)ASID << 48);
	dsb(ish);
	write_register(ttbr0_el1, page | (u64)ASID << 48);
	isb();
}

SCENARIO_CODE reuse_asid_without_flush(void)
{
	begin();
	write_register(ttbr0_el1, second_root() | (u64)ASID << 48);
	isb();
}

/* ---- scenarios of a switch of the process, at EL1 with the ASID in TTBR1_EL1 */

void switch_ttbrs(u64 first, u64 upper, u64 lower);

static u64 upper_with(u64 asid)
{
	return upper_root | asid << 48;
}

/* As Linux does from 6.12 on: TTBR0_EL1 to an empty table, the new ASID, the new root, and one ISB. */
SCENARIO_CODE switch_process(void)
{
	u64 empty = new_page(), page = second_root();

	begin();
	switch_ttbrs(empty, upper_with(OTHER_ASID), page);
	switch_ttbrs(empty, upper_with(ASID), root);
	begin();
}

SCENARIO_CODE switch_process_from_the_old_root(void)
{
	u64 page = second_root();

	begin();
	switch_ttbrs(root, upper_with(OTHER_ASID), page);
}

/* ---- scenarios of stage 2, at EL2 */

static u64 guest_root;

static u64 guest_leaf(u64 output)
{
	return output | 0x7fd;
}

static u64 guest_place(void)
{
	return guest_root + PAGE + 8 * (IPA >> 21 & 511);
}

/* A guest of one block; no code of it runs. */
static void load_guest(void)
{
	guest_root = new_page();
	new_page();
	store(guest_place(), guest_leaf(FRAME_A));
	store(guest_root + 8 * (IPA >> 30), table(guest_root + PAGE));
	dsb(ishst);
	write_register(vtcr_el2, 0x80023559); /* 39 bits from level 1, 4 KiB, 40 bits of output */
	write_register(vttbr_el2, guest_root | (u64)VMID << 48);
	isb();
}

SCENARIO_CODE stage2_remap(void)
{
	load_guest();
	store(guest_place(), 0);
	dsb(ishst);
	tlbi_at(ipas2e1is, IPA >> 12);
	dsb(ish);
	tlbi(vmalle1is);
	dsb(ish);
	store(guest_place(), guest_leaf(FRAME_B));
}

SCENARIO_CODE stage2_remap_by_vmid(void)
{
	load_guest();
	store(guest_place(), 0);
	dsb(ishst);
	tlbi(vmalls12e1is);
	dsb(ish);
	store(guest_place(), guest_leaf(FRAME_B));
}

SCENARIO_CODE stage2_without_vmalle1(void)
{
	load_guest();
	store(guest_place(), 0);
	dsb(ishst);
	tlbi_at(ipas2e1is, IPA >> 12);
	dsb(ish);
	store(guest_place(), guest_leaf(FRAME_B));
}

SCENARIO_CODE stage2_under_one_dsb(void)
{
	load_guest();
	store(guest_place(), 0);
	dsb(ishst);
	tlbi_at(ipas2e1is, IPA >> 12);
	tlbi(vmalle1is);
	dsb(ish);
	store(guest_place(), guest_leaf(FRAME_B));
}

SCENARIO_CODE stage2_wrong_ipa(void)
{
	load_guest();
	store(guest_place(), 0);
	dsb(ishst);
	tlbi_at(ipas2e1is, (IPA + BLOCK) >> 12);
	dsb(ish);
	tlbi(vmalle1is);
	dsb(ish);
	store(guest_place(), guest_leaf(FRAME_B));
}

SCENARIO_CODE stage2_under_another_vmid(void)
{
	load_guest();
	store(guest_place(), 0);
	dsb(ishst);
	write_register(vttbr_el2, 0);
	isb();
	tlbi(vmalls12e1is);
	dsb(ish);
	store(guest_place(), guest_leaf(FRAME_B));
}

SCENARIO_CODE guest_given_up(void)
{
	load_guest();
	write_register(vttbr_el2, 0);
	isb();
	tlbi(alle1is);
	dsb(ish);
	bbm_mark_end_of_root(guest_root);
	store(guest_root, 0x123456789ul);
}

SCENARIO_CODE guest_given_up_while_loaded(void)
{
	load_guest();
	tlbi(alle1is);
	dsb(ish);
	bbm_mark_end_of_root(guest_root);
	store(guest_root, 0x123456789ul);
}

/* ---- scenarios of guests that die and come again, at EL2 */

static u64 guests[2]; /* the first pages of two, of two pages each */

static u64 room_for_guest(void)
{
	u64 page = new_page();

	new_page();
	return page;
}

/* A guest of one block; no code of it runs. */
static void make_guest(u64 page)
{
	store(page + PAGE + 8 * (IPA >> 21 & 511), guest_leaf(FRAME_A));
	store(page + 8 * (IPA >> 30), table(page + PAGE));
	dsb(ishst);
}

/* It dies: its tables go back at once, and are cleared for what comes. */
static void free_guest(u64 page)
{
	zero(page + PAGE);
	zero(page);
	dsb(ishst);
}

static void run_guest(u64 page, u64 vmid)
{
	write_register(vtcr_el2, 0x80023559);
	write_register(vttbr_el2, page | vmid << 48);
	isb();
	write_register(vttbr_el2, 0);
	isb();
}

static void run_other_guest(void)
{
	run_guest(guests[1], VMID + 1);
}

static void run_two_guests(void)
{
	make_guest(guests[0]);
	make_guest(guests[1]);
	run_guest(guests[0], VMID);
	on_other(run_other_guest);
	free_guest(guests[0]);
	free_guest(guests[1]);
}

static void flush_vmids(void)
{
	tlbi(alle1is);
	dsb(ish);
}

SCENARIO_CODE guests_come_again(void)
{
	guests[0] = room_for_guest();
	guests[1] = room_for_guest();
	run_two_guests();
	flush_vmids();
	run_two_guests();
}

SCENARIO_CODE guests_come_again_unflushed(void)
{
	guests[0] = room_for_guest();
	guests[1] = room_for_guest();
	run_two_guests();
	run_two_guests();
}

/* One guest after another, under VMIDs of 8 bits. */
static void use_up_vmids(bool flushes)
{
	u64 page = room_for_guest();
	int number;

	for (number = 0; number < LAST_VMID + 5; number++) {
		if (flushes && number == LAST_VMID)
			flush_vmids();
		make_guest(page);
		run_guest(page, 1 + (u64)(number % LAST_VMID));
		free_guest(page);
	}
}

SCENARIO_CODE vmids_used_up(void)
{
	use_up_vmids(true);
}

SCENARIO_CODE vmids_used_up_unflushed(void)
{
	use_up_vmids(false);
}

/* ---- scenarios of a host with VHE, which maintains stage 2 at EL2 with TGE 1, as KVM does */

static void set_hcr(u64 value)
{
	write_register(hcr_el2, value);
	isb();
}

/* The PE goes to the guest and comes back, before its first instruction. */
static void enter_guest(void)
{
	set_hcr(HCR_GUEST);
	set_hcr(HCR_HOST);
}

/* The guest lives on: its root is loaded once more. */
static void run_again(void)
{
	write_register(vttbr_el2, guest_root | (u64)VMID << 48);
	isb();
	enter_guest();
}

static void flush_guest_page(void)
{
	tlbi_at(ipas2e1is, IPA >> 12);
	dsb(ish);
	tlbi(vmalle1is);
	dsb(ish);
}

SCENARIO_CODE host_remaps(void)
{
	load_guest();
	enter_guest();
	store(guest_place(), 0);
	dsb(ishst);
	set_hcr(HCR_FOR_GUEST);
	flush_guest_page();
	set_hcr(HCR_HOST);
	store(guest_place(), guest_leaf(FRAME_B));
	run_again();
}

/* With TGE 1 the second step takes the host's own entries. */
SCENARIO_CODE host_remaps_with_tge(void)
{
	load_guest();
	enter_guest();
	store(guest_place(), 0);
	dsb(ishst);
	flush_guest_page();
	store(guest_place(), guest_leaf(FRAME_B));
	run_again();
}

SCENARIO_CODE host_flushes_itself(void)
{
	load_guest();
	enter_guest();
	store(guest_place(), 0);
	dsb(ishst);
	set_hcr(HCR_FOR_GUEST);
	tlbi_at(ipas2e1is, IPA >> 12);
	dsb(ish);
	set_hcr(HCR_HOST);
	tlbi(vmalle1is);
	dsb(ish);
	store(guest_place(), guest_leaf(FRAME_B));
	run_again();
}

/* The guest dies, and still stands in VTTBR_EL2. */
static void let_guest_die(void)
{
	load_guest();
	enter_guest();
	store(guest_place(), 0);
	store(guest_root + 8 * (IPA >> 30), 0);
	store(guest_root, 0x123456789ul);
}

SCENARIO_CODE host_lets_a_guest_die(void)
{
	let_guest_die();
	flush_vmids();
}

/* With TGE 0 and VM 0, as for each TLBI, the dead guest is in use for whoever doesn't look at VM. */
SCENARIO_CODE host_flushes_a_dead_guest(void)
{
	let_guest_die();
	set_hcr(HCR_FOR_GUEST);
	flush_vmids();
	set_hcr(HCR_HOST);
}

/* ---- which runs */

static const struct scenario {
	const char *name;
	enum regime regime;
	bool has_lock;
	job *run;
} scenarios[] = {
#define BOTH(name, lock) { "kernel " #name, EL1, lock, name }, { "hyp " #name, EL2, lock, name }
	BOTH(remap, false), BOTH(remap_without_tlbi, false), BOTH(remap_tlbi_before_dsb, false),
	BOTH(remap_without_last_dsb, false), BOTH(remap_dsb_nsh, false), BOTH(remap_local_tlbi, false),
	BOTH(remap_local_tlbi_on_each, false), BOTH(remap_wrong_address, false), BOTH(remap_dsb_of_other_pe, false),
	BOTH(remap_by_two_pes, false), BOTH(remap_under_lock, true), BOTH(remap_lock_dropped, true),
	BOTH(permissions_in_place, false), BOTH(make_pair, false), BOTH(remap_pair, false), BOTH(swap_that_fails, false),
	BOTH(swap_without_break, false), BOTH(split_block, false), BOTH(split_block_without_break, false),
	BOTH(free_table, false), BOTH(free_table_before_flush, false), BOTH(free_table_flushed_by_page, false),
	{ "kernel remap_wrong_asid", EL1, false, remap_wrong_asid }, { "kernel reuse_asid", EL1, false, reuse_asid },
	{ "kernel reuse_asid_without_flush", EL1, false, reuse_asid_without_flush },
	{ "hyp stage2_remap", EL2, false, stage2_remap }, { "hyp stage2_remap_by_vmid", EL2, false, stage2_remap_by_vmid },
	{ "hyp stage2_without_vmalle1", EL2, false, stage2_without_vmalle1 },
	{ "hyp stage2_under_one_dsb", EL2, false, stage2_under_one_dsb },
	{ "hyp stage2_wrong_ipa", EL2, false, stage2_wrong_ipa },
	{ "hyp stage2_under_another_vmid", EL2, false, stage2_under_another_vmid },
	{ "hyp guest_given_up", EL2, false, guest_given_up },
	{ "hyp guest_given_up_while_loaded", EL2, false, guest_given_up_while_loaded },
	{ "hyp guests_come_again", EL2, false, guests_come_again },
	{ "hyp guests_come_again_unflushed", EL2, false, guests_come_again_unflushed },
	{ "hyp vmids_used_up", EL2, false, vmids_used_up },
	{ "hyp vmids_used_up_unflushed", EL2, false, vmids_used_up_unflushed },
	{ "kernel switch_process", EL1_ASID_IN_TTBR1, false, switch_process },
	{ "kernel switch_process_from_the_old_root", EL1_ASID_IN_TTBR1, false, switch_process_from_the_old_root },
	{ "stage2 host_remaps", HOST, false, host_remaps },
	{ "stage2 host_remaps_with_tge", HOST, false, host_remaps_with_tge },
	{ "stage2 host_flushes_itself", HOST, false, host_flushes_itself },
	{ "stage2 host_lets_a_guest_die", HOST, false, host_lets_a_guest_die },
	{ "stage2 host_flushes_a_dead_guest", HOST, false, host_flushes_a_dead_guest },
};

void enter_el1(void);
void second_start(void);

static void turn_on(void)
{
	if (regime == HOST) {
		turn_on_host();
	} else if (regime == EL2) {
		turn_on_el2();
	} else {
		enter_el1();
		turn_on_el1();
	}
}

void second_main(void)
{
	turn_on();
	other_is_up = true;
	for (;;) {
		while (!other_job)
			;
		dmb();
		other_job();
		dmb();
		other_job = 0;
	}
}

void first_main(void)
{
	u64 number = *(volatile u64 *)SCENARIO;
	const struct scenario *scenario = &scenarios[number];

	if (number >= sizeof scenarios / sizeof *scenarios) {
		print("there is no such scenario\n");
		power_off();
	}
	print(scenario->name);
	print("\n");
	regime = scenario->regime;
	make_tables();
	if (scenario->has_lock)
		bbm_mark_lock_of_root(root, LOCK);
	turn_on();
	if (call_firmware(0xc4000003, 1, (u64)second_start, 0)) {
		print("the second PE doesn't start\n");
		power_off();
	}
	while (!other_is_up)
		;
	scenario->run();
	print("done\n");
	while (*(volatile u64 *)STAYS)
		dsb(ish);
	power_off();
}
