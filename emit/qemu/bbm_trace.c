// SPDX-License-Identifier: Apache-2.0 OR GPL-2.0-or-later
/* A QEMU TCG plugin: traces how an unmodified arm64 guest maintains its translation tables. bbm_convert makes a log of
 * the trace.
 *
 *     cc -O2 -shared -fPIC -fvisibility=hidden -o bbm_trace.so bbm_trace.c
 *     qemu-system-aarch64 -accel tcg,thread=multi -machine virt,memory-backend=ram ..
 *         -object memory-backend-file,id=ram,mem-path=RAM,share=on,size=512M
 *         -plugin ./bbm_trace.so,ram=RAM,out=TRACE[,base=ADDRESS][,stop=SOCKET]
 *
 * RAM is the file with the guest's memory, which the plugin maps too: so it reads tables by physical address. base is
 * the physical address of its first byte, 0x40000000 unless given. TRACE is a file or a pipe. Where the reader of a
 * pipe goes away, tracing ends; with stop, the path of a socket of QEMU's monitor, the guest is then stopped.
 *
 * A page is known as a table from the store that links it, or the write of a root register that names it. Then its
 * contents are told, and from then on each store to it.
 *
 * A line of the trace is
 *
 *     OP PE EL PC PHYSICAL-PC REST..
 *
 * with PE and EL in decimal and addresses and values in hex. PHYSICAL-PC is 0 where it isn't known.
 *
 *     b .. OPTION                 a DSB has completed; OPTION is its CRm
 *     x ..                        a DSB nXS has completed
 *     i .. INSN                   a context synchronisation event: an ISB, an exception return, or, where INSN is 0,
 *                                 an exception
 *     t .. INSN XT                a TLBI is about to be issued: its instruction word, and the value of its register
 *     m .. REGISTER VALUE         a register is about to be written
 *     n .. PAGE LEVEL KIND ROOT   a page becomes known as a table, under the root ROOT
 *     c INDEX VALUE               an entry of the page that was named last, where it isn't 0
 *     r .. PAGE LEVEL KIND PAGES  it is the first page of a root
 *     a .. PAGE LEVEL KIND ROOT   a page that is known as a table is linked, or loaded, again
 *     w .. PLACE VALUE LEVEL KIND ROOT  a descriptor was stored
 *     d .. PAGE                   the root isn't loaded anywhere, and one of its pages is used for something else
 *     u .. PAGE                   the first store to a page that left its tree, or one that clears a table
 *     k .. LOCK, l .. LOCK        a lock was taken, and is given back: markers of the guest
 *     g .. PAGE LOCK, v .. PAGE   the lock of a root, and the end of a root: markers of the guest
 *     # ..                        how the trace was made, and at its end what it doesn't tell
 *
 * KIND is the register through which the tree was found, as enum kind has it.
 */
#include "plugin_interface.h"
#include <errno.h>
#include <fcntl.h>
#include <inttypes.h>
#include <pthread.h>
#include <sched.h>
#include <stdarg.h>
#include <stdio.h>
#include <stdlib.h>
#include <string.h>
#include <sys/mman.h>
#include <sys/socket.h>
#include <sys/stat.h>
#include <sys/un.h>
#include <time.h>
#include <unistd.h>

/* The version of the plugin interface that it was tried with: that of QEMU 9.2 and 10.0. */
enum { INTERFACE = 4 };
QEMU_EXPORT int qemu_plugin_version = INTERFACE;

enum { MAX_PES = 128, MAX_VECTORS = 64, WORDS = 512, WAIT_MS = 1000, STOP_MS = 100 };
#define PAGE_SIZE 4096ull
#define BASE 0xfffffffff000ull /* the address of a table, in a descriptor and in a root register */
#define HCR_VM 1ull
#define HCR_TGE (1ull << 27)
#define HCR_E2H (1ull << 34)
#define UNSET 0x1de7ec7edbadc0deull /* KVM gives it to the registers of a new guest that nothing has written */

enum kind { NO_KIND, TTBR0_EL1, TTBR1_EL1, TTBR0_EL2, TTBR1_EL2, VTTBR_EL2, KINDS };
enum use { UNKNOWN, TABLE, LEFT };

/* What is known of a page of the guest's memory. */
struct page {
	uint8_t use;   /* enum use; read without the lock by a store */
	uint8_t kind;  /* enum kind */
	int8_t level;
	bool is_root;  /* it belongs to the root itself, rather than to a table below */
	uint8_t loaded_as; /* a bit for each kind of register that named it */
	uint32_t root; /* the number of the first page of its root */
};

/* How a store's value is known. */
enum store {
	PLAIN,         /* it is the value that QEMU tells */
	COMPARE,       /* exclusive, or compare and swap: it may have failed */
	READ_MODIFY,   /* it is what stands in memory then */
};

/* An instruction that is traced. It lives as long as QEMU, since code that was translated may run at any time. */
struct site {
	uint64_t pc, physical;
	uint32_t word;
	uint8_t el;
	uint8_t store; /* enum store */
	bool is_pair;
	bool is_last; /* of its block, so that nothing shows whether it completed */
};

struct event {
	unsigned pe;
	const struct site *site;
};

/* What TCG itself sets and tests at each PE, without a call. */
struct flags {
	uint64_t storing; /* a store is under way, and maybe not yet told */
	uint64_t pending; /* an event has to be told at the next block */
};

/* What one PE has. */
struct pe {
	const struct site *pending;
	uint64_t base[KINDS]; /* the root registers as they were written last */
	bool stage2_on; /* by HCR_EL2 as it was written last */
	uint64_t zeroed_from, zeroed_to, zeroed_at; /* the last translation of a DC ZVA: from page, to page, at which record */
	bool unfound; /* a DC ZVA is under way at an address that a walk didn't find: mostly it faults, and is made again */
};

/* What the end of the trace tells. */
struct counts {
	uint64_t records, stores, tables, links_again, outside_ram, other_granule, raced, late, zero_untold, sve, tags, nxs;
	uint64_t compare_failed, flag_updates, of_guest, nested;
};

static struct {
	pthread_mutex_t lock; /* of all that follows, but where a comment says otherwise */
	FILE *out;
	bool is_over;         /* nothing is told any more; read without the lock */
	const char *stop;
	uint8_t *ram;
	const char *ram_path;
	uint64_t base, size;
	uintptr_t host_ram;   /* where QEMU has the guest's memory; 0 where that isn't known. Read without the lock */
	struct page *pages;
	uint64_t *told;       /* the last told value of each word of the tables */
	struct pe pes[MAX_PES];
	uint64_t vectors[MAX_VECTORS];
	unsigned vector_count;
	struct counts counts;
} trace = { .lock = PTHREAD_MUTEX_INITIALIZER, .base = 0x40000000 };

static struct qemu_plugin_scoreboard *scoreboard;
static qemu_plugin_u64 storing, pending;

/* ---- registers of the guest */

enum named { CPSR, SCTLR_EL1, TCR_EL1, REG_TTBR0_EL1, REG_TTBR1_EL1, SCTLR_EL2, TCR_EL2, REG_TTBR0_EL2, REG_TTBR1_EL2,
	     HCR_EL2, VTCR_EL2, REG_VTTBR_EL2, NAMED };
static const char *const names[NAMED] = { "cpsr", "SCTLR", "TCR_EL1", "TTBR0_EL1", "TTBR1_EL1", "SCTLR_EL2", "TCR_EL2",
					  "TTBR0_EL2", "TTBR1_EL2", "HCR_EL2", "VTCR_EL2", "VTTBR_EL2" };
static struct qemu_plugin_register *general[31], *named[NAMED];
static pthread_once_t registers_found = PTHREAD_ONCE_INIT, host_ram_sought = PTHREAD_ONCE_INIT;
/* The PE of this thread: with thread=multi each has a thread of its own. QEMU's own number of it isn't asked, since
 * code that runs while all others are stopped is translated with the number of one PE in it. */
static __thread int my_pe = -1;

static uint64_t register_value(struct qemu_plugin_register *handle)
{
	static __thread GByteArray *bytes;
	uint64_t value = 0;

	if (!handle)
		return 0;
	if (!bytes)
		bytes = g_byte_array_new();
	g_byte_array_set_size(bytes, 0);
	qemu_plugin_read_register(handle, bytes);
	memcpy(&value, bytes->data, bytes->len < sizeof value ? bytes->len : sizeof value);
	return value;
}

static uint64_t x(unsigned number)
{
	return number == 31 ? 0 : register_value(general[number]);
}

static unsigned current_el(void)
{
	return register_value(named[CPSR]) >> 2 & 3;
}

/* All PEs have the same handles. */
static void find_registers(void)
{
	GArray *all = qemu_plugin_get_registers();
	unsigned i, number;

	for (i = 0; i < all->len; i++) {
		const qemu_plugin_reg_descriptor *one = (const qemu_plugin_reg_descriptor *)all->data + i;
		char after;

		if (sscanf(one->name, "x%u%c", &number, &after) == 1 && number < 31)
			general[number] = one->handle;
		for (number = 0; number < NAMED; number++)
			if (!strcmp(one->name, names[number]))
				named[number] = one->handle;
	}
}

/* ---- what is written */

/* Asks QEMU's monitor to stop the guest. It does so once this PE is back from its callback, at the end of its block. */
static void stop_guest(void)
{
	struct sockaddr_un address = { .sun_family = AF_UNIX };
	static const char command[] = "stop\n";
	int monitor = socket(AF_UNIX, SOCK_STREAM, 0);

	strncpy(address.sun_path, trace.stop, sizeof address.sun_path - 1);
	if (monitor < 0 || connect(monitor, (struct sockaddr *)&address, sizeof address)
	    || write(monitor, command, sizeof command - 1) < 0) {
		fprintf(stderr, "bbm_trace: the guest can't be stopped by %s: %s\n", trace.stop, strerror(errno));
		return;
	}
	fprintf(stderr, "bbm_trace: the reader of the trace has gone, and the guest is stopped\n");
	usleep(STOP_MS * 1000); /* so that the monitor reads it before this PE goes on */
	close(monitor);
}

static void check_output(void)
{
	if (!ferror(trace.out))
		return;
	trace.is_over = true;
	if (trace.stop)
		stop_guest();
	else
		fprintf(stderr, "bbm_trace: the trace can't be written any more, and ends\n");
}

__attribute__((format(printf, 1, 2)))
static void say(const char *format, ...)
{
	va_list values;

	if (trace.is_over)
		return;
	va_start(values, format);
	vfprintf(trace.out, format, values);
	va_end(values);
}

__attribute__((format(printf, 3, 4)))
static void tell(const struct event *event, char op, const char *format, ...)
{
	const struct site *site = event->site;
	va_list values;

	if (trace.is_over)
		return;
	trace.counts.records++;
	fprintf(trace.out, "%c %u %u %" PRIx64 " %" PRIx64, op, event->pe, site->el, site->pc, site->physical);
	va_start(values, format);
	vfprintf(trace.out, format, values);
	va_end(values);
	putc('\n', trace.out);
	check_output();
}

/* ---- tables */

static bool in_ram(uint64_t address)
{
	return address - trace.base < trace.size;
}

static uint32_t number_of(uint64_t address)
{
	return (address - trace.base) / PAGE_SIZE;
}

static uint64_t address_of(uint32_t number)
{
	return trace.base + number * PAGE_SIZE;
}

static struct page *page_of(uint64_t address)
{
	return &trace.pages[number_of(address)];
}

static uint64_t *told_at(uint64_t place)
{
	return &trace.told[(place - trace.base) / 8];
}

static uint64_t memory_at(uint64_t place)
{
	return __atomic_load_n((uint64_t *)(trace.ram + (place - trace.base)), __ATOMIC_RELAXED);
}

/* Whether a value at this level leads to a table, and to which. */
static bool links(uint64_t value, int level, uint64_t *next)
{
	*next = value & BASE;
	return level < 3 && (value & 3) == 3;
}

/* Takes the contents of a page that has just become known. */
static void take_contents(const struct event *event, uint64_t page, int level, enum kind kind, uint64_t root)
{
	unsigned i;

	tell(event, 'n', " %" PRIx64 " %d %d %" PRIx64, page, level, kind, root);
	for (i = 0; i < WORDS; i++)
		if (*told_at(page + 8 * i))
			say("c %u %" PRIx64 "\n", i, *told_at(page + 8 * i));
}

/* The page, and all below it, belongs to the tree that linked it last, and that is of the kind by which it was loaded
 * last: a kernel that turns itself into a host at EL2 takes its roots along. */
static void move(uint64_t page, int level, enum kind kind, uint32_t from, uint32_t to)
{
	struct page *known = page_of(page);
	uint64_t next;
	unsigned i;

	if (known->use != TABLE || known->root != from)
		return;
	*known = (struct page){ TABLE, kind, level, number_of(page) == to, known->loaded_as, to };
	for (i = 0; i < WORDS; i++)
		if (links(*told_at(page + 8 * i), level, &next) && in_ram(next))
			move(next, level + 1, kind, from, to);
}

/* The page, and all that is below it, becomes known; what is below is told first. */
static void learn(const struct event *event, uint64_t page, int level, enum kind kind, uint64_t root)
{
	struct page *known;
	uint64_t next;
	unsigned i;

	if (!in_ram(page)) {
		trace.counts.outside_ram++;
		return;
	}
	known = page_of(page);
	if (known->use == TABLE) {
		trace.counts.links_again++;
		tell(event, 'a', " %" PRIx64 " %d %d %" PRIx64, page, level, kind, root);
		if (address_of(known->root) != root)
			move(page, level, kind, known->root, number_of(root));
		return;
	}
	*known = (struct page){ UNKNOWN, kind, level, page == root, 0, number_of(root) };
	/* From here on stores to the page are told; what is read below has all that were made before. */
	__atomic_store_n(&known->use, TABLE, __ATOMIC_SEQ_CST);
	trace.counts.tables++;
	for (i = 0; i < WORDS; i++)
		*told_at(page + 8 * i) = memory_at(page + 8 * i);
	for (i = 0; i < WORDS; i++)
		if (links(*told_at(page + 8 * i), level, &next))
			learn(event, next, level + 1, kind, root);
	take_contents(event, page, level, kind, root);
}

/* The page, and all below it, isn't a table of its tree any more. */
static void leave(uint64_t page, int level, uint32_t root)
{
	struct page *known;
	uint64_t next;
	unsigned i;

	if (!in_ram(page))
		return;
	known = page_of(page);
	if (known->use != TABLE || known->level != level || known->root != root)
		return;
	known->use = LEFT;
	for (i = 0; i < WORDS; i++)
		if (links(*told_at(page + 8 * i), level, &next))
			leave(next, level + 1, root);
}

static void table_written(const struct event *event, uint64_t place, uint64_t value)
{
	struct page *page = page_of(place);
	uint64_t *told = told_at(place), old_next, next;
	bool linked = links(*told, page->level, &old_next), link = links(value, page->level, &next);
	bool same = linked && link && old_next == next;
	uint64_t root = address_of(page->root);

	if (link && !same)
		learn(event, next, page->level + 1, page->kind, root);
	tell(event, 'w', " %" PRIx64 " %" PRIx64 " %d %d %" PRIx64, place, value, page->level, page->kind, root);
	*told = value;
	if (linked && !same)
		leave(old_next, page->level + 1, page->root);
}

/* ---- roots */

static bool is_loaded(uint64_t root, enum kind kind)
{
	unsigned pe;

	/* A host with VHE lets a dead guest stand in VTTBR_EL2 while stage 2 is off. */
	for (pe = 0; pe < MAX_PES; pe++)
		if ((trace.pes[pe].base[kind] & BASE) == root && (kind != VTTBR_EL2 || trace.pes[pe].stage2_on))
			return true;
	return false;
}

static bool is_empty(uint64_t page)
{
	unsigned i;

	for (i = 0; i < WORDS; i++)
		if (*told_at(page + 8 * i))
			return false;
	return true;
}

/* The root is given up: nothing says so but what its pages are used for now. */
static void root_died(const struct event *event, uint32_t root)
{
	uint32_t number = root;
	struct page *page = &trace.pages[root];

	tell(event, 'd', " %" PRIx64, address_of(root));
	while (in_ram(address_of(number)) && page->use == TABLE && page->is_root && page->root == root) {
		leave(address_of(number), page->level, root);
		page = &trace.pages[++number];
	}
}

static void page_reused(const struct event *event, uint64_t address)
{
	uint64_t first = address & ~(PAGE_SIZE - 1);
	struct page *page = page_of(first);

	if (page->use == TABLE && !is_loaded(address_of(page->root), page->kind))
		root_died(event, page->root);
	if (page->use == UNKNOWN)
		return;
	tell(event, 'u', " %" PRIx64, first);
	page->use = UNKNOWN;
}

/* Whether a store to this table says that its page has another use: one by a user program, or to the empty page of a
 * root that no PE has loaded. A root of stage 2 can be filled while it isn't loaded, so its emptiness says nothing. */
static bool says_dead(const struct event *event, const struct page *page, uint64_t place)
{
	bool may_be_empty = page->kind == VTTBR_EL2;

	if (is_loaded(address_of(page->root), page->kind))
		return false;
	return event->site->el == 0 || (page->is_root && !may_be_empty && is_empty(place & ~(PAGE_SIZE - 1)));
}

/* The level at which walks of a root start, as TCR_EL1, TCR_EL2 or VTCR_EL2 says; false where the granule isn't
 * 4 KiB. */
static bool start_of(enum kind kind, int *level, unsigned *pages)
{
	static const enum named controls[KINDS] = { CPSR, TCR_EL1, TCR_EL1, TCR_EL2, TCR_EL2, VTCR_EL2 };
	uint64_t control = register_value(named[controls[kind]]);
	bool upper = kind == TTBR1_EL1 || kind == TTBR1_EL2, host = register_value(named[HCR_EL2]) >> 34 & 1;
	/* Whether addresses of 52 bits are on, at the place that the register of this regime has for it. */
	unsigned wide = control >> (kind == VTTBR_EL2 || (kind == TTBR0_EL2 && !host) ? 32 : 59) & 1, least = wide ? 12 : 16;
	unsigned size = control >> (upper ? 16 : 0) & 63, bits = 64 - (size < least ? least : size);

	*pages = 1;
	*level = 4 - (int)((bits - 12 + 8) / 9);
	if (kind == VTTBR_EL2) {
		unsigned first = control >> 6 & 3, one;

		*level = first == 3 ? 3 : 2 - (int)first;
		one = 12 + 9 * (4 - *level);
		*pages = bits > one ? 1u << (bits - one) : 1;
	}
	return upper ? (control >> 30 & 3) == 2 : (control >> 14 & 3) == 0;
}

static void root_loaded(const struct event *event, enum kind kind, uint64_t value)
{
	uint64_t root = value & BASE;
	unsigned pages, i;
	int level;

	trace.pes[event->pe].base[kind] = value;
	if (!root || value == UNSET)
		return;
	if (!start_of(kind, &level, &pages)) {
		trace.counts.other_granule++;
		return;
	}
	if (!in_ram(root)) {
		trace.counts.outside_ram++;
		return;
	}
	if (page_of(root)->use == TABLE) {
		if (!(page_of(root)->loaded_as >> kind & 1)) {
			tell(event, 'a', " %" PRIx64 " %d %d %" PRIx64, root, level, kind, root);
			move(root, level, kind, page_of(root)->root, page_of(root)->is_root ? page_of(root)->root : number_of(root));
		}
		page_of(root)->loaded_as |= 1 << kind;
		return;
	}
	for (i = 0; i < pages; i++) {
		learn(event, root + PAGE_SIZE * i, level, kind, root);
		if (in_ram(root + PAGE_SIZE * i))
			page_of(root + PAGE_SIZE * i)->is_root = true;
	}
	page_of(root)->loaded_as = 1 << kind;
	tell(event, 'r', " %" PRIx64 " %d %d %u", root, level, kind, pages);
}

/* ---- addresses of DC ZVA, by a walk of the guest's own tables */

static bool walk(uint64_t root, int level, unsigned bits, uint64_t address, bool stage2, uint64_t *output);

/* The output of stage 2 for an address, where it is on for this EL. */
static bool through_stage2(unsigned el, uint64_t address, uint64_t *output)
{
	uint64_t hcr = register_value(named[HCR_EL2]), control;
	bool host = (hcr >> 34 & 1) && (hcr >> 27 & 1);
	unsigned pages;
	int level;

	*output = address;
	if (el >= 2 || !(hcr & 1) || host)
		return true;
	control = register_value(named[VTCR_EL2]);
	return start_of(VTTBR_EL2, &level, &pages)
	       && walk(register_value(named[REG_VTTBR_EL2]) & BASE, level, 64 - (control & 63), address, true, output);
}

static bool walk(uint64_t root, int level, unsigned bits, uint64_t address, bool stage2, uint64_t *output)
{
	uint64_t table = root, value, mask;
	unsigned shift;

	for (; level >= 0 && level <= 3; level++) {
		shift = 12 + 9 * (3 - level);
		/* Only the first table can have more, or fewer, than 512 entries. */
		mask = table == root && bits > shift ? (1ull << (bits - shift)) - 1 : 511;
		table += 8 * (address >> shift & mask);
		if (!stage2 && !through_stage2(1, table, &table))
			return false;
		if (!in_ram(table))
			return false;
		value = memory_at(table);
		if (!(value & 1) || (level == 3 && !(value & 2)) || (level == 0 && !(value & 2)))
			return false;
		if (level == 3 || !(value & 2)) {
			mask = (1ull << shift) - 1;
			*output = (value & BASE & ~mask) | (address & mask);
			return true;
		}
		table = value & BASE;
	}
	return false;
}

/* The physical address that this PE has at an address, by the translation regime of the EL. */
static bool translate(unsigned el, uint64_t address, uint64_t *output)
{
	uint64_t hcr = register_value(named[HCR_EL2]);
	bool host = hcr >> 34 & 1, at_el2 = el == 2 || (el == 0 && host && (hcr >> 27 & 1)), upper = address >> 55 & 1;
	enum kind kind = at_el2 ? (upper ? TTBR1_EL2 : TTBR0_EL2) : (upper ? TTBR1_EL1 : TTBR0_EL1);
	static const enum named roots[KINDS] = {
		CPSR, REG_TTBR0_EL1, REG_TTBR1_EL1, REG_TTBR0_EL2, REG_TTBR1_EL2, REG_VTTBR_EL2,
	};
	uint64_t control = register_value(named[at_el2 ? TCR_EL2 : TCR_EL1]);
	unsigned pages, bits = 64 - (control >> (upper ? 16 : 0) & 63);
	int level;

	address &= 0x00ffffffffffffff; /* a tag may stand above */
	if (!(register_value(named[at_el2 ? SCTLR_EL2 : SCTLR_EL1]) & 1))
		return through_stage2(at_el2 ? 2 : el, address, output);
	if (!start_of(kind, &level, &pages))
		return false;
	return walk(register_value(named[roots[kind]]) & BASE, level, bits, address, at_el2, output)
	       && through_stage2(at_el2 ? 2 : el, *output, output);
}

/* ---- callbacks: each runs on the thread of its PE */

static void not_one_thread(void)
{
	fprintf(stderr, "bbm_trace: two PEs share a host thread, so that QEMU doesn't tell them apart. Start it with -accel "
		"tcg,thread=multi\n");
	exit(1);
}

static struct event event_of(void *site)
{
	return (struct event){ (unsigned)my_pe, site };
}

static struct flags *flags_of(unsigned pe)
{
	return qemu_plugin_scoreboard_find(scoreboard, pe);
}

static long milliseconds(void)
{
	struct timespec now;

	clock_gettime(CLOCK_MONOTONIC, &now);
	return now.tv_sec * 1000 + now.tv_nsec / 1000000;
}

/* Waits until each other PE has told the store that it was about, if it was about one. A store takes effect before it
 * can be told. An event that ends something is told after it completed, and after all stores that took effect
 * before. */
static void wait_for_stores(void)
{
	unsigned pe, turns;
	long since = 0;

	for (pe = 0; pe < MAX_PES && (pe == 0 || trace.pes[pe].base[NO_KIND]); pe++) {
		if ((int)pe == my_pe)
			continue;
		for (turns = 0; __atomic_load_n(&flags_of(pe)->storing, __ATOMIC_SEQ_CST); turns++) {
			if (turns < 1000)
				continue;
			sched_yield();
			since = since ? since : milliseconds();
			if (milliseconds() - since > WAIT_MS) {
				__atomic_add_fetch(&trace.counts.late, 1, __ATOMIC_RELAXED);
				break;
			}
		}
	}
}

static bool is_dsb(uint32_t word)
{
	return (word & 0xfffff0ff) == 0xd503309f;
}

static bool is_dsb_nxs(uint32_t word)
{
	return (word & 0xfffff3ff) == 0xd503323f;
}

/* A DSB has completed, or a context synchronisation event was made. */
static void completed(const struct event *event)
{
	uint32_t word = event->site->word;

	wait_for_stores();
	pthread_mutex_lock(&trace.lock);
	if (is_dsb(word)) {
		tell(event, 'b', " %u", (unsigned)(word >> 8 & 15));
	} else if (is_dsb_nxs(word)) {
		trace.counts.nxs++;
		tell(event, 'x', "%s", "");
	} else {
		tell(event, 'i', " %x", word);
	}
	pthread_mutex_unlock(&trace.lock);
}

static void completed_callback(unsigned vcpu, void *site)
{
	struct event event = event_of(site);

	(void)vcpu;
	completed(&event);
}

/* The event is the last of its block, so it is told at the next one. */
static void pending_callback(unsigned vcpu, void *site)
{
	(void)vcpu;
	trace.pes[my_pe].pending = site;
	flags_of(my_pe)->pending = 1;
}

static void block_callback(unsigned vcpu, void *data)
{
	struct event event = event_of((void *)trace.pes[my_pe].pending);

	(void)vcpu, (void)data;
	flags_of(my_pe)->pending = 0;
	if (!event.site)
		return;
	trace.pes[my_pe].pending = NULL;
	completed(&event);
}

static void tlbi_callback(unsigned vcpu, void *site)
{
	struct event event = event_of(site);
	uint32_t word = event.site->word;
	uint64_t operand = x(word & 31);

	(void)vcpu;
	pthread_mutex_lock(&trace.lock);
	tell(&event, 't', " %x %" PRIx64, word, operand);
	pthread_mutex_unlock(&trace.lock);
}

/* The value that a store gave to a word, or false where it gave none. */
static bool stored_value(const struct site *site, qemu_plugin_meminfo_t info, uint64_t address, uint64_t place,
			 uint64_t *value)
{
	qemu_plugin_mem_value told = qemu_plugin_mem_get_value(info);
	uint64_t memory = memory_at(place);
	bool whole = address % 8 == 0;

	if (whole && told.type == QEMU_PLUGIN_MEM_VALUE_U64)
		*value = told.data.u64;
	else if (whole && told.type == QEMU_PLUGIN_MEM_VALUE_U128)
		*value = place == address ? told.data.u128.low : told.data.u128.high;
	else
		*value = memory;
	if (site->store == COMPARE && (memory != *value || memory == *told_at(place))) {
		trace.counts.compare_failed++;
		return false;
	}
	if (site->store == READ_MODIFY) {
		*value = memory;
		return memory != *told_at(place);
	}
	trace.counts.raced += memory != *value;
	return true;
}

static void store_to_table(const struct event *event, qemu_plugin_meminfo_t info, uint64_t address)
{
	uint64_t end = address + (1ull << qemu_plugin_mem_size_shift(info)), place, value;
	struct page *page = page_of(address);

	if (page->use == TABLE && says_dead(event, page, address))
		root_died(event, page->root);
	if (page->use == LEFT)
		page_reused(event, address);
	for (place = address & ~7ull; place < end && page->use == TABLE; place += 8) {
		if (stored_value(event->site, info, address, place, &value))
			table_written(event, place, value);
		trace.counts.stores++;
	}
}

static void store_callback(unsigned vcpu, qemu_plugin_meminfo_t info, uint64_t address, void *site)
{
	struct qemu_plugin_hwaddr *where = qemu_plugin_get_hwaddr(info, address);
	struct event event = event_of(site);
	uint64_t physical;

	(void)vcpu;
	if (where && !qemu_plugin_hwaddr_is_io(where)) {
		physical = qemu_plugin_hwaddr_phys_addr(where);
		/* The store took effect before the page is looked at: see learn. */
		__atomic_thread_fence(__ATOMIC_SEQ_CST);
		if (in_ram(physical) && page_of(physical)->use != UNKNOWN && !trace.is_over) {
			pthread_mutex_lock(&trace.lock);
			store_to_table(&event, info, physical);
			pthread_mutex_unlock(&trace.lock);
		}
	}
	if (!event.site->is_pair)
		__atomic_store_n(&flags_of(my_pe)->storing, 0, __ATOMIC_RELEASE);
}

static bool is_zero(uint32_t word)
{
	return (word & 0xffffffe0) == 0xd50b7420 || (word & 0xffffffe0) == 0xd50b7480;
}

/* An address isn't found by a walk: it faults, or the walk isn't the one that the PE makes. A DC ZVA that faults
 * doesn't reach the next instruction of its block. */
static void not_found(const struct event *event)
{
	if (is_zero(event->site->word) && !event->site->is_last)
		trace.pes[event->pe].unfound = true;
	else
		__atomic_add_fetch(&trace.counts.zero_untold, 1, __ATOMIC_RELAXED);
}

/* Bytes from an address on are about to be written by an instruction whose stores QEMU doesn't tell. */
static void bytes_written(const struct event *event, uint64_t address, uint64_t length)
{
	struct pe *pe = &trace.pes[event->pe];
	uint64_t page, end = address + length;

	for (page = address & ~(PAGE_SIZE - 1); page < end; page += PAGE_SIZE) {
		/* The translation is that of the last time, where there was one and nothing happened that could change it. */
		if (page != pe->zeroed_from || trace.counts.records != pe->zeroed_at || !pe->zeroed_to) {
			pe->zeroed_from = page;
			pe->zeroed_at = trace.counts.records;
			if (!translate(event->site->el, page, &pe->zeroed_to)) {
				pe->zeroed_to = 0;
				not_found(event);
			}
		}
		if (!in_ram(pe->zeroed_to) || page_of(pe->zeroed_to)->use == UNKNOWN)
			continue;
		pthread_mutex_lock(&trace.lock);
		page_reused(event, pe->zeroed_to);
		pthread_mutex_unlock(&trace.lock);
	}
}

static void zero_callback(unsigned vcpu, void *site)
{
	struct event event = event_of(site);

	(void)vcpu;
	trace.pes[my_pe].unfound = false;
	bytes_written(&event, x(event.site->word & 31), 1);
}

/* The instruction behind a DC ZVA, which didn't fault. */
static void zeroed_callback(unsigned vcpu, void *site)
{
	(void)vcpu, (void)site;
	if (!trace.pes[my_pe].unfound)
		return;
	trace.pes[my_pe].unfound = false;
	__atomic_add_fetch(&trace.counts.zero_untold, 1, __ATOMIC_RELAXED);
}

/* The first instruction of three of FEAT_MOPS: the address is in Xd, the length in Xn. */
static void copy_callback(unsigned vcpu, void *site)
{
	struct event event = event_of(site);
	uint32_t word = event.site->word;

	(void)vcpu;
	bytes_written(&event, x(word & 31), x(word >> 5 & 31));
}

static void untold_callback(unsigned vcpu, void *data)
{
	(void)vcpu;
	__atomic_add_fetch((uint64_t *)data, 1, __ATOMIC_RELAXED);
}

/* Hints that no processor has a meaning for, as markers of a guest. */
enum marker { TAKE_LOCK = 120, GIVE_LOCK, LOCK_OF_ROOT, END_OF_ROOT };

static void marker_callback(unsigned vcpu, void *site)
{
	struct event event = event_of(site);
	uint64_t first = x(0), second = x(1);

	(void)vcpu;
	pthread_mutex_lock(&trace.lock);
	switch ((enum marker)(event.site->word >> 5 & 127)) {
	case TAKE_LOCK:
		tell(&event, 'k', " %" PRIu64, first);
		break;
	case GIVE_LOCK:
		tell(&event, 'l', " %" PRIu64, first);
		break;
	case LOCK_OF_ROOT:
		tell(&event, 'g', " %" PRIx64 " %" PRIu64, first, second);
		break;
	case END_OF_ROOT:
		tell(&event, 'v', " %" PRIx64, first);
		if (in_ram(first) && page_of(first)->use == TABLE && page_of(first)->is_root)
			leave(first, page_of(first)->level, page_of(first)->root);
		break;
	}
	pthread_mutex_unlock(&trace.lock);
}

/* ---- writes of registers */

/* An MSR, by the fields op1, CRn, CRm and op2 of its encoding; op0 is 3. */
#define ENCODING(op1, crn, crm, op2) ((op1) << 11 | (crn) << 7 | (crm) << 3 | (op2))

static const struct system_register {
	unsigned encoding;
	const char *name;    /* as in the trace */
	const char *at_host; /* the same at EL2 where HCR_EL2.E2H is set */
	enum kind kind, host_kind;
} system_registers[] = {
	{ ENCODING(0, 1, 0, 0), "sctlr_el1", "sctlr_el2", NO_KIND, NO_KIND },
	{ ENCODING(4, 1, 0, 0), "sctlr_el2", "sctlr_el2", NO_KIND, NO_KIND },
	{ ENCODING(4, 1, 1, 0), "hcr_el2", "hcr_el2", NO_KIND, NO_KIND },
	{ ENCODING(0, 2, 0, 0), "ttbr0_el1", "ttbr0_el2", TTBR0_EL1, TTBR0_EL2 },
	{ ENCODING(0, 2, 0, 1), "ttbr1_el1", "ttbr1_el2", TTBR1_EL1, TTBR1_EL2 },
	{ ENCODING(0, 2, 0, 2), "tcr_el1", "tcr_el2", NO_KIND, NO_KIND },
	{ ENCODING(4, 2, 0, 0), "ttbr0_el2", "ttbr0_el2", TTBR0_EL2, TTBR0_EL2 },
	{ ENCODING(4, 2, 0, 1), "ttbr1_el2", "ttbr1_el2", TTBR1_EL2, TTBR1_EL2 },
	{ ENCODING(4, 2, 0, 2), "tcr_el2", "tcr_el2", NO_KIND, NO_KIND },
	{ ENCODING(4, 2, 1, 0), "vttbr_el2", "vttbr_el2", VTTBR_EL2, VTTBR_EL2 },
	{ ENCODING(4, 2, 1, 2), "vtcr_el2", "vtcr_el2", NO_KIND, NO_KIND },
	{ ENCODING(0, 10, 2, 0), "mair_el1", "mair_el2", NO_KIND, NO_KIND },
	{ ENCODING(4, 10, 2, 0), "mair_el2", "mair_el2", NO_KIND, NO_KIND },
	{ ENCODING(5, 10, 2, 0), "mair_el1", "mair_el1", NO_KIND, NO_KIND },
	{ ENCODING(5, 2, 0, 0), "ttbr0_el1", "ttbr0_el1", TTBR0_EL1, TTBR0_EL1 },
	{ ENCODING(5, 2, 0, 1), "ttbr1_el1", "ttbr1_el1", TTBR1_EL1, TTBR1_EL1 },
	{ ENCODING(5, 2, 0, 2), "tcr_el1", "tcr_el1", NO_KIND, NO_KIND },
	{ ENCODING(0, 12, 0, 0), "vbar", "vbar", NO_KIND, NO_KIND },
	{ ENCODING(4, 12, 0, 0), "vbar", "vbar", NO_KIND, NO_KIND },
	{ ENCODING(5, 12, 0, 0), "vbar", "vbar", NO_KIND, NO_KIND },
};

static const struct system_register *system_register_of(uint32_t word)
{
	size_t i;

	if ((word & 0xfff80000) != 0xd5180000)
		return NULL;
	for (i = 0; i < sizeof system_registers / sizeof *system_registers; i++)
		if (system_registers[i].encoding == (word >> 5 & 0x3fff))
			return &system_registers[i];
	return NULL;
}

static void keep_vector(uint64_t address)
{
	unsigned i;

	for (i = 0; i < trace.vector_count; i++)
		if (trace.vectors[i] == address)
			return;
	if (i < MAX_VECTORS) {
		trace.vectors[i] = address;
		__atomic_store_n(&trace.vector_count, i + 1, __ATOMIC_RELEASE);
	}
}

/* Whether stage 2 is on, by HCR_EL2. Where E2H and TGE are both 1, VM counts as 0, whatever it is. */
static bool has_stage2(uint64_t hcr)
{
	return (hcr & HCR_VM) && (hcr & (HCR_E2H | HCR_TGE)) != (HCR_E2H | HCR_TGE);
}

/* Whether a root register of EL1 has an address of a guest: one that its own EL1 writes behind stage 2, or that EL2
 * writes for it. Such an address isn't the physical one, so no page is a table for it. */
static bool is_of_guest(enum kind kind, unsigned el)
{
	return (kind == TTBR0_EL1 || kind == TTBR1_EL1) && (el == 2 || has_stage2(register_value(named[HCR_EL2])));
}

/* Whether a register is one of EL2, or one of EL1 by the name that it has for a host at EL2: below EL2 a write of it is
 * trapped, or goes to memory, and the register stays. */
static bool is_kept_from_below(const struct system_register *written)
{
	return written->encoding >> 11 >= 4;
}

static void msr_callback(unsigned vcpu, void *site)
{
	struct event event = event_of(site);
	const struct system_register *written = system_register_of(event.site->word);
	uint64_t value = x(event.site->word & 31);
	bool at_host = event.site->el == 2 && (register_value(named[HCR_EL2]) >> 34 & 1);
	enum kind kind = at_host ? written->host_kind : written->kind;

	(void)vcpu;
	pthread_mutex_lock(&trace.lock);
	if (!strcmp(written->name, "vbar")) {
		keep_vector(value & ~0x7ffull);
	} else if (is_kept_from_below(written) && event.site->el < 2) {
		trace.counts.nested++;
	} else {
		if (!strcmp(written->name, "hcr_el2"))
			trace.pes[event.pe].stage2_on = has_stage2(value);
		if (is_of_guest(kind, event.site->el))
			trace.counts.of_guest++;
		else if (kind != NO_KIND)
			root_loaded(&event, kind, value);
		trace.counts.flag_updates += strstr(written->name, "tcr") && (value >> (written->name[0] == 'v' ? 21 : 39) & 1);
		tell(&event, 'm', " %s %" PRIx64, at_host ? written->at_host : written->name, value);
	}
	pthread_mutex_unlock(&trace.lock);
}

/* ---- translation: which instructions are traced */

static bool is_barrier(uint32_t word)
{
	bool isb = (word & 0xfffff0ff) == 0xd50330df, eret = (word & 0xfffff3ff) == 0xd69f03e0;

	return is_dsb(word) || is_dsb_nxs(word) || isb || eret;
}

static bool is_read_modify(uint32_t word)
{
	return (word & 0x3b200c00) == 0x38200000 || (word & 0x3f200c00) == 0x19200000;
}

static bool is_exclusive(uint32_t word)
{
	return (word & 0x3f000000) == 0x08000000;
}

/* Whether an instruction stores, by the classes of loads and stores of the instruction set. */
static bool is_store(uint32_t word)
{
	bool load = word >> 22 & 1, compare = (word >> 21 & 1) && ((word >> 23 & 1) || !(word >> 31));
	unsigned opc = word >> 22 & 3;

	if (is_read_modify(word) || (is_exclusive(word) && compare))
		return true;
	if (is_exclusive(word) || (word & 0x3a000000) == 0x28000000 || (word & 0xbe000000) == 0x0c000000)
		return !load; /* exclusive or ordered; a pair; several SIMD registers */
	if ((word & 0x3a000000) == 0x38000000)
		return opc == 0 || (opc == 2 && (word >> 26 & 1) && word >> 30 == 0); /* one register, or a SIMD one of 16 bytes */
	if ((word & 0x3f200400) == 0x19000000)
		return opc == 0 || (!load && (word & 0x800)); /* ordered, of an unscaled address or a pair */
	return false;
}

static enum store store_of(uint32_t word)
{
	bool ordered = (word & 0x00a00000) == 0x00800000;

	if (is_exclusive(word) && !ordered)
		return COMPARE;
	return is_read_modify(word) ? READ_MODIFY : PLAIN;
}

/* Whether one instruction makes several stores, each with a callback: pairs, and the SIMD ones of several registers. */
static bool is_several(uint32_t word)
{
	return (word & 0x3a000000) == 0x28000000 || (word & 0xbe000000) == 0x0c000000 || (word & 0x3f200c00) == 0x19000800;
}

static bool is_first_copy(uint32_t word)
{
	bool copy = (word & 0x3b200c00) == 0x19000400;
	unsigned stage = word >> 22 & 3;

	return copy && (stage == 0 || (stage == 3 && (word & 0xc000) == 0));
}

/* A store of MTE that zeroes data, and a store of a vector of SVE: counted alone. */
static uint64_t *untold_of(uint32_t word)
{
	if ((word & 0xff200c00) == 0xd9200000 && (word & 0x00400000))
		return &trace.counts.tags;
	if ((word & 0xfe000000) == 0xe4000000)
		return &trace.counts.sve;
	return NULL;
}

static qemu_plugin_vcpu_udata_cb_t callback_before(uint32_t word)
{
	if ((word & 0xfff8e000) == 0xd5088000)
		return tlbi_callback;
	if (is_zero(word))
		return zero_callback;
	if (is_first_copy(word))
		return copy_callback;
	if ((word & 0xfffff01f) == 0xd503201f && (word >> 5 & 127) >= TAKE_LOCK && (word >> 5 & 127) <= END_OF_ROOT)
		return marker_callback;
	return system_register_of(word) ? msr_callback : NULL;
}

static void trace_store(struct qemu_plugin_insn *insn, struct site *site)
{
	site->store = store_of(site->word);
	site->is_pair = is_several(site->word);
	qemu_plugin_register_vcpu_insn_exec_inline_per_vcpu(insn, QEMU_PLUGIN_INLINE_STORE_U64, storing, 1);
	qemu_plugin_register_vcpu_mem_cb(insn, store_callback, QEMU_PLUGIN_CB_NO_REGS, QEMU_PLUGIN_MEM_W, site);
}

static bool is_vector(uint64_t pc)
{
	unsigned i, count = __atomic_load_n(&trace.vector_count, __ATOMIC_ACQUIRE);

	for (i = 0; i < count; i++)
		if (pc - trace.vectors[i] < 0x800 && pc % 0x80 == 0)
			return true;
	return false;
}

/* Where QEMU has the guest's memory: its mapping of the file, which isn't the plugin's own. */
static void find_host_ram(void)
{
	FILE *maps = fopen("/proc/self/maps", "r");
	char *real = realpath(trace.ram_path, NULL), line[1024];
	uintptr_t found = 0;

	while (maps && real && !found && fgets(line, sizeof line, maps)) {
		uintptr_t start = strtoull(line, NULL, 16);
		char *path = strchr(line, '/');

		if (!path || start == (uintptr_t)trace.ram)
			continue;
		path[strcspn(path, "\n")] = '\0';
		found = strcmp(path, real) ? 0 : start;
	}
	if (maps)
		fclose(maps);
	free(real);
	trace.host_ram = found;
}

static uint64_t physical_of(const struct qemu_plugin_insn *insn)
{
	uintptr_t host = (uintptr_t)qemu_plugin_insn_haddr(insn);

	pthread_once(&host_ram_sought, find_host_ram);
	return trace.host_ram && host - trace.host_ram < trace.size ? host - trace.host_ram + trace.base : 0;
}

static struct site *new_site(const struct qemu_plugin_insn *insn, uint32_t word, unsigned el)
{
	struct site *site = calloc(1, sizeof *site);

	if (!site) {
		fprintf(stderr, "bbm_trace: there is no memory\n");
		exit(1);
	}
	site->pc = qemu_plugin_insn_vaddr(insn);
	site->physical = physical_of(insn);
	site->word = word;
	site->el = el;
	return site;
}

/* What has to be told before an instruction, and its store. */
static void trace_instruction(struct qemu_plugin_insn *insn, uint32_t word, unsigned el, bool is_last)
{
	qemu_plugin_vcpu_udata_cb_t before = callback_before(word);
	struct site *site;

	if (before) {
		site = new_site(insn, word, el);
		site->is_last = is_last;
		qemu_plugin_register_vcpu_insn_exec_cb(insn, before, QEMU_PLUGIN_CB_R_REGS, site);
	}
	if (is_barrier(word) && is_last)
		qemu_plugin_register_vcpu_insn_exec_cb(insn, pending_callback, QEMU_PLUGIN_CB_NO_REGS, new_site(insn, word, el));
	if (untold_of(word))
		qemu_plugin_register_vcpu_insn_exec_cb(insn, untold_callback, QEMU_PLUGIN_CB_NO_REGS, untold_of(word));
	if (is_store(word))
		trace_store(insn, new_site(insn, word, el));
}

/* What has to be told once an instruction is done, which is before the next one of its block. */
static void trace_completion(struct qemu_plugin_insn *next, const struct qemu_plugin_insn *insn, uint32_t word,
			     unsigned el)
{
	if (is_barrier(word))
		qemu_plugin_register_vcpu_insn_exec_cb(next, completed_callback, QEMU_PLUGIN_CB_NO_REGS, new_site(insn, word, el));
	if (is_zero(word))
		qemu_plugin_register_vcpu_insn_exec_cb(next, zeroed_callback, QEMU_PLUGIN_CB_NO_REGS, NULL);
	if (is_store(word) && is_several(word))
		qemu_plugin_register_vcpu_insn_exec_inline_per_vcpu(next, QEMU_PLUGIN_INLINE_STORE_U64, storing, 0);
}

/* QEMU keeps code by the EL it was translated for, so the EL of now is that of each run. */
static void translation_callback(qemu_plugin_id_t id, struct qemu_plugin_tb *tb)
{
	size_t count = qemu_plugin_tb_n_insns(tb), i;
	struct qemu_plugin_insn *insn = NULL, *last;
	unsigned el = current_el();
	uint32_t word = 0;

	(void)id;
	if (trace.is_over)
		return;
	qemu_plugin_register_vcpu_tb_exec_inline_per_vcpu(tb, QEMU_PLUGIN_INLINE_STORE_U64, storing, 0);
	qemu_plugin_register_vcpu_tb_exec_cond_cb(tb, block_callback, QEMU_PLUGIN_CB_NO_REGS, QEMU_PLUGIN_COND_NE, pending, 0,
						  NULL);
	for (i = 0; i < count; i++) {
		last = insn;
		insn = qemu_plugin_tb_get_insn(tb, i);
		if (i == 0 && is_vector(qemu_plugin_insn_vaddr(insn)))
			qemu_plugin_register_vcpu_insn_exec_cb(insn, completed_callback, QEMU_PLUGIN_CB_NO_REGS, new_site(insn, 0, el));
		if (i > 0)
			trace_completion(insn, last, word, el);
		qemu_plugin_insn_data(insn, &word, sizeof word);
		trace_instruction(insn, word, el, i + 1 == count);
	}
}

/* ---- start and end */

static void pe_callback(qemu_plugin_id_t id, unsigned vcpu)
{
	(void)id;
	if (my_pe >= 0)
		not_one_thread();
	if (vcpu >= MAX_PES) {
		fprintf(stderr, "bbm_trace: a log has at most %d PEs\n", MAX_PES);
		exit(1);
	}
	my_pe = (int)vcpu;
	trace.pes[vcpu].base[NO_KIND] = 1; /* it exists */
	pthread_once(&registers_found, find_registers);
	if (!named[CPSR] || !named[TCR_EL1] || !general[0]) {
		fprintf(stderr, "bbm_trace: QEMU doesn't show the registers that are needed: is the guest one for AArch64?\n");
		exit(1);
	}
}

static void end_callback(qemu_plugin_id_t id, void *data)
{
	const struct counts *counts = &trace.counts;

	(void)id, (void)data;
	pthread_mutex_lock(&trace.lock);
	say("# told: %" PRIu64 " records, %" PRIu64 " tables, %" PRIu64 " stores to tables\n", counts->records,
	    counts->tables, counts->stores);
#define TOLD(what, text) if (counts->what) say("# %" PRIu64 " %s\n", counts->what, text)
	TOLD(late, "times a store was under way for a second at another PE: the DSB or ISB may stand too early by that store");
	TOLD(raced, "stores found another value in memory: two PEs store to one place, and their order may be the other one");
	TOLD(compare_failed, "compare and swaps changed nothing, and have no line");
	TOLD(zero_untold,
	     "DC ZVA or memory copies at addresses that a walk didn't find: they may have cleared a table unseen");
	TOLD(links_again, "links lead to a page that is a table already");
	TOLD(outside_ram, "tables lie outside of the memory that is traced, and aren't told");
	TOLD(other_granule, "writes of root registers are for a granule other than 4 KiB; those tables aren't told");
	TOLD(of_guest, "writes of root registers of EL1 have an address of a guest; those tables aren't told");
	TOLD(nested, "writes of registers of EL2 below EL2 were trapped, and aren't told");
	TOLD(sve, "stores by SVE aren't seen");
	TOLD(tags, "stores of tags that zero data aren't seen");
	TOLD(nxs, "DSB nXS have no line in a log");
	TOLD(flag_updates, "times hardware updates of flags were turned on: they are no stores, and have no line");
#undef TOLD
	say("# never seen: stores by devices, hardware updates of flags, and what EL3 or QEMU itself stores\n");
	say("# end\n");
	fclose(trace.out);
	trace.is_over = true;
	pthread_mutex_unlock(&trace.lock);
}

/* Whether this QEMU has the interface; says so where it hasn't. */
static bool interface_fits(const qemu_info_t *info)
{
	if (!info->system_emulation || strcmp(info->target_name, "aarch64")) {
		fprintf(stderr, "bbm_trace: it runs in qemu-system-aarch64 alone\n");
		return false;
	}
	if (info->version.cur == INTERFACE)
		return true;
	fprintf(stderr, "bbm_trace: this QEMU has version %d of the plugin interface; the plugin runs with %d, which QEMU 9.2 "
		"and 10.0 have\n", info->version.cur, INTERFACE);
	return false;
}

static bool map_ram(void)
{
	struct stat status;
	int file = open(trace.ram_path, O_RDONLY);

	if (file < 0 || fstat(file, &status)) {
		fprintf(stderr, "bbm_trace: %s: %s\n", trace.ram_path, strerror(errno));
		return false;
	}
	trace.size = (uint64_t)status.st_size;
	trace.ram = mmap(NULL, trace.size, PROT_READ, MAP_SHARED, file, 0);
	trace.told = mmap(NULL, trace.size, PROT_READ | PROT_WRITE, MAP_PRIVATE | MAP_ANONYMOUS | MAP_NORESERVE, -1, 0);
	trace.pages = calloc(trace.size / PAGE_SIZE + 1, sizeof *trace.pages);
	close(file);
	if (trace.ram == MAP_FAILED || trace.told == MAP_FAILED || !trace.pages) {
		fprintf(stderr, "bbm_trace: %s can't be mapped: %s\n", trace.ram_path, strerror(errno));
		return false;
	}
	return true;
}

/* The value of an option, where it is this one. */
static const char *value_of(const char *option, const char *name)
{
	size_t length = strlen(name);

	return strncmp(option, name, length) || option[length] != '=' ? NULL : option + length + 1;
}

static bool open_trace(const char *path)
{
	struct stat status;

	trace.out = path ? fopen(path, "w") : NULL;
	if (!trace.out || fstat(fileno(trace.out), &status)) {
		fprintf(stderr, "bbm_trace: ram=FILE and out=FILE are needed%s%s\n", path ? "; can't write " : "", path ? path : "");
		return false;
	}
	/* A pipe has a reader that follows: each line is written at once. */
	setvbuf(trace.out, NULL, S_ISFIFO(status.st_mode) ? _IOLBF : _IOFBF, 1 << 16);
	return true;
}

QEMU_EXPORT int qemu_plugin_install(qemu_plugin_id_t id, const qemu_info_t *info, int argc, char **argv)
{
	const char *out = NULL;
	int i;

	for (i = 0; i < argc; i++) {
		const char *base = value_of(argv[i], "base");

		out = value_of(argv[i], "out") ? value_of(argv[i], "out") : out;
		trace.ram_path = value_of(argv[i], "ram") ? value_of(argv[i], "ram") : trace.ram_path;
		trace.stop = value_of(argv[i], "stop") ? value_of(argv[i], "stop") : trace.stop;
		trace.base = base ? strtoull(base, NULL, 0) : trace.base;
	}
	/* QEMU frees its words. */
	trace.ram_path = trace.ram_path ? strdup(trace.ram_path) : NULL;
	trace.stop = trace.stop ? strdup(trace.stop) : NULL;
	if (!interface_fits(info) || !open_trace(trace.ram_path ? out : NULL) || !map_ram())
		return 1;
	say("# bbm_trace 1, interface %d, PEs %d, memory %" PRIx64 " at %" PRIx64 "\n", info->version.cur,
	    info->system.smp_vcpus, trace.size, trace.base);
	scoreboard = qemu_plugin_scoreboard_new(sizeof(struct flags));
	storing = (qemu_plugin_u64){ scoreboard, offsetof(struct flags, storing) };
	pending = (qemu_plugin_u64){ scoreboard, offsetof(struct flags, pending) };
	qemu_plugin_register_vcpu_init_cb(id, pe_callback);
	qemu_plugin_register_vcpu_tb_trans_cb(id, translation_callback);
	qemu_plugin_register_atexit_cb(id, end_callback, NULL);
	return 0;
}
