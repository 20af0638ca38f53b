// SPDX-License-Identifier: Apache-2.0 OR GPL-2.0-or-later
/* The writers of bbm_emit.h, the text of a slot, and what helps to begin a log. */
#include "bbm_emit.h"

#if defined(__KERNEL__)
#include <linux/atomic.h>
#include <linux/compiler.h>
#endif

/*
 * CALLED is for the functions that are called where events happen, which may be where nothing may
 * be traced or probed; UNTRACED for all others, which a tracer could call events by. The code of
 * nVHE has a section of its own, and no tracer. INLINE is for what the first ones are made of.
 */
#if defined(__KVM_NVHE_HYPERVISOR__) && defined(__KERNEL__)
#define CALLED notrace
#define UNTRACED notrace
#elif defined(__KERNEL__)
#define CALLED noinstr
#define UNTRACED notrace
#else
#define CALLED
#define UNTRACED
#endif
#define INLINE static inline __attribute__((__always_inline__))

#define STOPPED ((uint64_t)1 << 63) /* in the tickets: the log is closed */

/* ---- what is atomic */

/*
 * swap_if puts `new` into *at where it is `old`, and tells whether it did. It orders what comes
 * before it and after it: where one PE sees a store behind another's ticket, its own next ticket is
 * a later one.
 */
#if defined(__KERNEL__)
INLINE int swap_if(uint64_t *at, uint64_t old, uint64_t new)
{
	return cmpxchg64(at, old, new) == old;
}

INLINE uint64_t load(const uint64_t *at)
{
	/* Pairs with store(). */
	return smp_load_acquire(at);
}

INLINE void store(uint64_t *at, uint64_t value)
{
	/* Pairs with load(): who sees the value sees all that was stored before. */
	smp_store_release(at, value);
}
#else
INLINE int swap_if(uint64_t *at, uint64_t old, uint64_t new)
{
#if defined(__aarch64__) && !defined(__ARM_FEATURE_ATOMICS)
	/* Written out, since the compiler's own may be a call to a function of its library. */
	uint64_t seen;
	uint32_t failed;

	__asm__ volatile("1:	ldaxr	%0, %2\n"
			 "	cmp	%0, %3\n"
			 "	b.ne	2f\n"
			 "	stlxr	%w1, %4, %2\n"
			 "	cbnz	%w1, 1b\n"
			 "2:"
			 : "=&r"(seen), "=&r"(failed), "+Q"(*at)
			 : "r"(old), "r"(new)
			 : "cc", "memory");
	return seen == old;
#else
	return __atomic_compare_exchange_n(at, &old, new, 0, __ATOMIC_SEQ_CST, __ATOMIC_SEQ_CST);
#endif
}

INLINE uint64_t load(const uint64_t *at)
{
	return __atomic_load_n(at, __ATOMIC_ACQUIRE);
}

INLINE void store(uint64_t *at, uint64_t value)
{
	__atomic_store_n(at, value, __ATOMIC_RELEASE);
}
#endif

/* ---- tickets and slots */

/* The next ticket, or STOPPED. */
INLINE uint64_t take_ticket(struct bbm_tickets *tickets)
{
	uint64_t ticket;

	do {
		ticket = load(&tickets->next);
		if (ticket & STOPPED)
			return STOPPED;
	} while (!swap_if(&tickets->next, ticket, ticket + 1));
	return ticket;
}

/* From now on there is no ticket. The number of those that were taken. */
static UNTRACED uint64_t stop_tickets(struct bbm_tickets *tickets)
{
	uint64_t next;

	do
		next = load(&tickets->next);
	while (!swap_if(&tickets->next, next, next | STOPPED));
	return next & ~STOPPED;
}

INLINE void count_lost(struct bbm_buffer *buffer)
{
	uint64_t lost;

	do
		lost = load(&buffer->lost);
	while (!swap_if(&buffer->lost, lost, lost + 1));
}

/*
 * A slot for this call alone, which leaves at least `spare` others free; or 0. `read` is loaded
 * behind `next`: so an old `next` makes the buffer seem emptier than it is, and then the swap
 * fails.
 */
INLINE struct bbm_slot *take_slot(struct bbm_buffer *buffer, unsigned int spare)
{
	uint64_t next;

	do {
		next = load(&buffer->next);
		if (next + spare >= load(&buffer->read) + buffer->room)
			return 0;
	} while (!swap_if(&buffer->next, next, next + 1));
	return &buffer->slots[next % buffer->room];
}

/*
 * What an event tells, besides its ticket and its PE. Each field is set by itself: what an
 * initialiser leaves out may be made zero by a call of memset.
 */
struct told {
	enum bbm_word word;
	unsigned int detail;
	int lock;
	uint64_t first, second;
};

/* Fills a slot. The mark comes last, so that nobody reads a slot that isn't whole. */
INLINE void fill(struct bbm_slot *slot, uint64_t ticket, uint32_t pe, const struct told *told,
		 const struct bbm_label *label)
{
	static const struct bbm_label none;
	const struct bbm_label *from = label ? label : &none;

	slot->word = (uint8_t)told->word;
	slot->pe = (uint8_t)pe;
	slot->detail = (uint16_t)told->detail;
	slot->lock = told->lock;
	slot->first = told->first;
	slot->second = told->second;
	/* One by one: a loop, or the whole struct, may become a call of memcpy. */
	slot->label[0] = from->part[0];
	slot->label[1] = from->part[1];
	slot->label[2] = from->part[2];
	slot->label[3] = from->part[3];
	store(&slot->mark, ticket + 1);
}

/*
 * Keeps one event. An interrupt between any two steps may keep others. It is one function for all
 * events: where the compiler knows which fields are zero, it may call memset for them.
 */
static CALLED __attribute__((__noinline__)) void keep(struct bbm_buffer *buffer,
						      const struct told *told,
						      const struct bbm_label *label)
{
	uint64_t ticket = take_ticket(buffer->tickets);
	struct bbm_slot *slot;

	if (ticket == STOPPED)
		return;
	slot = take_slot(buffer, 1);
	if (slot)
		fill(slot, ticket, buffer->pe, told, label);
	else
		count_lost(buffer);
}

UNTRACED void bbm_open(struct bbm_buffer *buffer, struct bbm_tickets *tickets,
		       struct bbm_slot *slots, size_t room, unsigned int pe)
{
	size_t i;

	for (i = 0; i < room; i++)
		store(&slots[i].mark, 0);
	buffer->tickets = tickets;
	buffer->slots = slots;
	buffer->room = room;
	buffer->next = 0;
	buffer->read = 0;
	buffer->lost = 0;
	buffer->pe = pe;
}

UNTRACED void bbm_close(struct bbm_buffer *buffer)
{
	uint64_t taken = stop_tickets(buffer->tickets);
	struct bbm_slot *slot = take_slot(buffer, 0);
	struct told told;

	told.word = BBM_CLOSE;
	told.detail = 0;
	told.lock = 0;
	told.first = taken;
	told.second = load(&buffer->lost);
	if (slot)
		fill(slot, taken, buffer->pe, &told, BBM_NO_LABEL);
}

/* ---- the events */

/* An event that has numbers alone, or none. */
INLINE void keep_numbers(struct bbm_buffer *buffer, enum bbm_word word, uint64_t first,
			 uint64_t second, const struct bbm_label *label)
{
	struct told told;

	told.word = word;
	told.detail = 0;
	told.lock = 0;
	told.first = first;
	told.second = second;
	keep(buffer, &told, label);
}

/* One of an option, an operation or a register. */
INLINE void keep_detail(struct bbm_buffer *buffer, enum bbm_word word, unsigned int detail,
			uint64_t first, const struct bbm_label *label)
{
	struct told told;

	told.word = word;
	told.detail = detail;
	told.lock = 0;
	told.first = first;
	told.second = 0;
	keep(buffer, &told, label);
}

/* One that names a lock, and perhaps a root. */
INLINE void keep_lock(struct bbm_buffer *buffer, enum bbm_word word, unsigned int kind, int lock,
		      uint64_t page, const struct bbm_label *label)
{
	struct told told;

	told.word = word;
	told.detail = kind;
	told.lock = lock;
	told.first = page;
	told.second = 0;
	keep(buffer, &told, label);
}

CALLED void bbm_init(struct bbm_buffer *buffer, uint64_t page, const struct bbm_label *label)
{
	keep_numbers(buffer, BBM_INIT, page, 0, label);
}

CALLED void bbm_null(struct bbm_buffer *buffer, uint64_t page, const struct bbm_label *label)
{
	keep_numbers(buffer, BBM_NULL, page, 0, label);
}

CALLED void bbm_root(struct bbm_buffer *buffer, enum bbm_kind kind, int lock, uint64_t page,
		     const struct bbm_label *label)
{
	keep_lock(buffer, BBM_ROOT, kind, lock, page, label);
}

CALLED void bbm_unroot(struct bbm_buffer *buffer, uint64_t page, const struct bbm_label *label)
{
	keep_numbers(buffer, BBM_UNROOT, page, 0, label);
}

CALLED void bbm_write(struct bbm_buffer *buffer, uint64_t place, uint64_t value,
		      const struct bbm_label *label)
{
	keep_numbers(buffer, BBM_W, place, value, label);
}

CALLED void bbm_dsb(struct bbm_buffer *buffer, enum bbm_option option,
		    const struct bbm_label *label)
{
	keep_detail(buffer, BBM_DSB, option, 0, label);
}

CALLED void bbm_dmb(struct bbm_buffer *buffer, enum bbm_option option,
		    const struct bbm_label *label)
{
	keep_detail(buffer, BBM_DMB, option, 0, label);
}

CALLED void bbm_isb(struct bbm_buffer *buffer, const struct bbm_label *label)
{
	keep_numbers(buffer, BBM_ISB, 0, 0, label);
}

CALLED void bbm_tlbi(struct bbm_buffer *buffer, enum bbm_tlbi_op op, const struct bbm_label *label)
{
	keep_detail(buffer, BBM_TLBI, op, 0, label);
}

CALLED void bbm_tlbi_at(struct bbm_buffer *buffer, enum bbm_tlbi_at_op op, uint64_t operand,
			const struct bbm_label *label)
{
	keep_detail(buffer, BBM_TLBI_AT, op, operand, label);
}

CALLED void bbm_msr(struct bbm_buffer *buffer, enum bbm_register reg, uint64_t value,
		    const struct bbm_label *label)
{
	keep_detail(buffer, BBM_MSR, reg, value, label);
}

CALLED void bbm_lock(struct bbm_buffer *buffer, unsigned int lock, const struct bbm_label *label)
{
	keep_lock(buffer, BBM_LOCK, 0, (int)lock, 0, label);
}

CALLED void bbm_unlock(struct bbm_buffer *buffer, unsigned int lock, const struct bbm_label *label)
{
	keep_lock(buffer, BBM_UNLOCK, 0, (int)lock, 0, label);
}

/* ---- a tree that stands before logging begins */

#define DESCRIPTOR_TYPE ((uint64_t)3)
#define DESCRIPTOR_TABLE ((uint64_t)3)                 /* at levels 0 to 2 */
#define DESCRIPTOR_NEXT ((uint64_t)0x0000fffffffff000) /* the next table */

enum { LAST_LEVEL = 3 };

/* Logs the page of a table and those below it. It calls itself once a level. */
static UNTRACED int log_table(struct bbm_buffer *buffer, const struct bbm_tree *tree, uint64_t page,
			      unsigned int level, const struct bbm_label *label)
{
	unsigned int i;

	bbm_init(buffer, page, label);
	for (i = 0; i < BBM_TABLE_ENTRIES; i++) {
		uint64_t place = page + i * sizeof(uint64_t), descriptor = 0;

		if (tree->descriptor(tree->context, place, &descriptor))
			return -1;
		if (!descriptor)
			continue;
		bbm_write(buffer, place, descriptor, label);
		if (level < LAST_LEVEL && (descriptor & DESCRIPTOR_TYPE) == DESCRIPTOR_TABLE &&
		    log_table(buffer, tree, descriptor & DESCRIPTOR_NEXT, level + 1, label))
			return -1;
	}
	return 0;
}

UNTRACED int bbm_tree(struct bbm_buffer *buffer, const struct bbm_tree *tree,
		      const struct bbm_label *label)
{
	unsigned int i;

	for (i = 0; i < tree->pages; i++)
		if (log_table(buffer, tree, tree->page + (uint64_t)i * BBM_PAGE_BYTES, tree->start,
			      label)) {
			count_lost(buffer);
			return -1;
		}
	bbm_root(buffer, tree->kind, tree->lock, tree->page, label);
	return 0;
}

/* ---- text */

/* The words, in fields of 16 bytes: a table of pointers would have to be relocated. */
typedef const char name[16];

#define NAME_OF(names, n) ((n) < sizeof(names) / sizeof(names)[0] ? (names)[n] : 0)

UNTRACED const char *bbm_word_name(unsigned int word)
{
	static name names[] = {"nothing", "init", "null", "root", "unroot", "w",      "dsb",  "dmb",
			       "isb",     "tlbi", "tlbi", "msr",  "lock",   "unlock", "close"};

	return NAME_OF(names, word);
}

UNTRACED const char *bbm_kind_name(unsigned int kind)
{
	static name names[] = {"el2", "s2", "ttbr0", "ttbr1"};

	return NAME_OF(names, kind);
}

UNTRACED const char *bbm_option_name(unsigned int option)
{
	static name names[] = {"sy",  "st",    "ld",    "ish", "ishst", "ishld",
			       "osh", "oshst", "oshld", "nsh", "nshst", "nshld"};

	return NAME_OF(names, option);
}

UNTRACED const char *bbm_tlbi_name(unsigned int op)
{
	static name names[] = {"alle2",   "alle2is",   "alle1",      "alle1is",
			       "vmalle1", "vmalle1is", "vmalls12e1", "vmalls12e1is"};

	return NAME_OF(names, op);
}

UNTRACED const char *bbm_tlbi_at_name(unsigned int op)
{
	static name names[] = {
		"vae2",     "vae2is",     "vale2",     "vale2is",     /**/
		"ipas2e1",  "ipas2e1is",  "ipas2le1",  "ipas2le1is",  /**/
		"vae1",     "vae1is",     "vale1",     "vale1is",     /**/
		"vaae1",    "vaae1is",    "vaale1",    "vaale1is",    /**/
		"aside1",   "aside1is",                               /**/
		"rvae2",    "rvae2is",    "rvale2",    "rvale2is",    /**/
		"ripas2e1", "ripas2e1is", "ripas2le1", "ripas2le1is", /**/
		"rvae1",    "rvae1is",    "rvale1",    "rvale1is",    /**/
		"rvaae1",   "rvaae1is",   "rvaale1",   "rvaale1is",
	};

	return NAME_OF(names, op);
}

UNTRACED const char *bbm_register_name(unsigned int reg)
{
	static name names[] = {"ttbr0_el2", "vttbr_el2", "ttbr0_el1", "ttbr1_el1"};

	return NAME_OF(names, reg);
}

static UNTRACED char *put_text(char *at, const char *text)
{
	while (*text)
		*at++ = *text++;
	return at;
}

static UNTRACED char *put_digits(char *at, uint64_t n, unsigned int base)
{
	char digits[20];
	unsigned int count = 0;

	do
		digits[count++] = "0123456789abcdef"[n % base];
	while (n /= base);
	while (count)
		*at++ = digits[--count];
	return at;
}

static UNTRACED char *put_decimal(char *at, uint64_t n)
{
	*at++ = ' ';
	return put_digits(at, n, 10);
}

static UNTRACED char *put_hex(char *at, uint64_t n)
{
	return put_digits(put_text(at, " 0x"), n, 16);
}

/* A field that is a word, and `?` where there is none of the number. */
static UNTRACED char *put_name(char *at, const char *name_or_0)
{
	*at++ = ' ';
	return put_text(at, name_or_0 ? name_or_0 : "?");
}

static UNTRACED char *put_lock(char *at, int lock)
{
	if (lock == BBM_NO_LOCK)
		return put_text(at, " -");
	return put_decimal(at, (uint32_t)lock);
}

/* Whether a label may have the character. */
static UNTRACED int is_label_character(char c)
{
	return (c >= '0' && c <= '9') || (c >= 'a' && c <= 'z') || (c >= 'A' && c <= 'Z') ||
	       c == '.' || c == '/' || c == ':' || c == '_' || c == '-';
}

static UNTRACED char *put_label(char *at, const char *text)
{
	unsigned int i;

	if (!text[0])
		return at;
	at = put_text(at, " @");
	for (i = 0; i < BBM_LABEL_BYTES && text[i]; i++)
		*at++ = is_label_character(text[i]) ? text[i] : '_';
	return at;
}

/* The fields behind the PE. */
static UNTRACED char *put_fields(char *at, const struct bbm_slot *slot)
{
	switch ((enum bbm_word)slot->word) {
	case BBM_INIT:
	case BBM_NULL:
	case BBM_UNROOT:
		return put_hex(at, slot->first);
	case BBM_ROOT:
		return put_hex(put_lock(put_name(at, bbm_kind_name(slot->detail)), slot->lock),
			       slot->first);
	case BBM_W:
		return put_hex(put_hex(at, slot->first), slot->second);
	case BBM_DSB:
	case BBM_DMB:
		return put_name(at, bbm_option_name(slot->detail));
	case BBM_TLBI:
		return put_name(at, bbm_tlbi_name(slot->detail));
	case BBM_TLBI_AT:
		return put_hex(put_name(at, bbm_tlbi_at_name(slot->detail)), slot->first);
	case BBM_MSR:
		return put_hex(put_name(at, bbm_register_name(slot->detail)), slot->first);
	case BBM_LOCK:
	case BBM_UNLOCK:
		return put_lock(at, slot->lock);
	case BBM_CLOSE:
		return put_decimal(
			put_text(put_decimal(put_text(at, " tickets"), slot->first), " lost"),
			slot->second);
	case BBM_NOTHING:
	case BBM_ISB:
	case BBM_WORDS:
		break;
	}
	return at;
}

UNTRACED size_t bbm_line(const struct bbm_slot *slot, char *line)
{
	char *at = put_digits(line, slot->mark - 1, 10);

	at = put_decimal(put_name(at, bbm_word_name(slot->word)), slot->pe);
	at = put_text(put_label(put_fields(at, slot), (const char *)slot->label), "\n");
	return (size_t)(at - line);
}

UNTRACED size_t bbm_read(struct bbm_buffer *buffer, char *text, size_t room)
{
	size_t used = 0;

	while (buffer->room && room - used >= BBM_LINE_BYTES) {
		uint64_t read = load(&buffer->read);
		struct bbm_slot *slot = &buffer->slots[read % buffer->room];

		if (!load(&slot->mark))
			break;
		used += bbm_line(slot, text + used);
		store(&slot->mark, 0);
		store(&buffer->read, read + 1);
	}
	return used;
}

UNTRACED void bbm_label_of(struct bbm_label *label, const char *text)
{
	char *to = (char *)label;
	unsigned int length = 0, i;

	while (text[length])
		length++;
	text += BBM_LABEL_START(length);
	for (i = 0; i < BBM_LABEL_BYTES; i++) {
		to[i] = *text;
		if (*text)
			text++;
	}
}

/* ---- the header of a log */

/* The fields of TCR_EL1, TCR_EL2 and VTCR_EL2 that the header goes by. */
enum {
	TXSZ_BITS = 6,
	T0SZ_SHIFT = 0,
	SL0_SHIFT = 6, /* VTCR_EL2 */
	SL0_BITS = 2,
	TG0_SHIFT = 14,
	T1SZ_SHIFT = 16, /* TCR_EL1, as the next two */
	A1_SHIFT = 22,
	TG1_SHIFT = 30,
	TG_BITS = 2,
	TG0_4K = 0, /* the 4 KiB granule: the two fields have numbers of their own */
	TG1_4K = 2,
	DS_SHIFT_EL1 = 59, /* 52-bit addresses with the 4 KiB granule */
	DS_SHIFT_EL2 = 32, /* TCR_EL2 and VTCR_EL2 */
	TABLE_BITS = 9,    /* of an address, that a table takes */
	PAGE_BITS = 12,
	MOST_BITS = 48,
	JOINED_BITS = 4, /* at most 16 pages of a stage 2 root */
};

static UNTRACED unsigned int field(uint64_t value, unsigned int shift, unsigned int bits)
{
	return (unsigned int)(value >> shift) & ((1u << bits) - 1);
}

/* The bits of an input address that the tables from this level on leave to those above them. */
static UNTRACED unsigned int bits_below(unsigned int level)
{
	return PAGE_BITS + TABLE_BITS * (LAST_LEVEL - level);
}

UNTRACED int bbm_stage1_walk(unsigned int txsz, struct bbm_walk *walk)
{
	unsigned int bits = 64 - txsz, level;

	for (level = 0; level < LAST_LEVEL; level++)
		if (bits > bits_below(level) && bits <= MOST_BITS) {
			walk->start = level;
			walk->pages = 1;
			return 0;
		}
	return -1;
}

UNTRACED int bbm_stage2_walk(unsigned int t0sz, unsigned int sl0, struct bbm_walk *walk)
{
	unsigned int bits = 64 - t0sz, level = 2 - sl0, below;

	if (sl0 > 2 || bits > MOST_BITS)
		return -1;
	below = bits_below(level);
	if (bits <= below || bits > below + TABLE_BITS + JOINED_BITS)
		return -1;
	walk->start = level;
	walk->pages = bits > below + TABLE_BITS ? 1u << (bits - below - TABLE_BITS) : 1;
	return 0;
}

UNTRACED const char *bbm_kernel_header(char *header, unsigned int pes, uint64_t tcr_el1, int cnp)
{
	struct bbm_walk lower, upper;
	unsigned int t1sz = field(tcr_el1, T1SZ_SHIFT, TXSZ_BITS);

	if (pes < 1 || pes > BBM_PES)
		return "a log has 1 to 128 PEs";
	if (field(tcr_el1, TG0_SHIFT, TG_BITS) != TG0_4K ||
	    field(tcr_el1, TG1_SHIFT, TG_BITS) != TG1_4K)
		return "a granule of TCR_EL1 isn't 4 KiB";
	if (field(tcr_el1, DS_SHIFT_EL1, 1))
		return "TCR_EL1.DS is set: descriptors have 52-bit addresses";
	if (bbm_stage1_walk(field(tcr_el1, T0SZ_SHIFT, TXSZ_BITS), &lower) ||
	    bbm_stage1_walk(t1sz, &upper))
		return "T0SZ or T1SZ of TCR_EL1 has no start level of 0, 1 or 2";
	if (64 - t1sz != bits_below(upper.start) + TABLE_BITS)
		return "T1SZ of TCR_EL1 isn't 16, 25 or 34: the first table of the upper range "
		       "isn't a whole page";
	header = put_decimal(put_text(header, "bbmlog 4 kernel"), pes);
	header = put_decimal(put_decimal(header, lower.start), upper.start);
	header = put_text(header, field(tcr_el1, A1_SHIFT, 1) ? " ttbr1" : " ttbr0");
	*put_text(header, cnp ? " cnp" : " -") = '\0';
	return 0;
}

UNTRACED const char *bbm_hyp_header(char *header, unsigned int pes, uint64_t tcr_el2,
				    uint64_t vtcr_el2, int cnp)
{
	struct bbm_walk own, guests;

	if (pes < 1 || pes > BBM_PES)
		return "a log has 1 to 128 PEs";
	if (field(tcr_el2, TG0_SHIFT, TG_BITS) != TG0_4K ||
	    field(vtcr_el2, TG0_SHIFT, TG_BITS) != TG0_4K)
		return "a granule of TCR_EL2 or VTCR_EL2 isn't 4 KiB";
	if (field(tcr_el2, DS_SHIFT_EL2, 1) || field(vtcr_el2, DS_SHIFT_EL2, 1))
		return "DS of TCR_EL2 or VTCR_EL2 is set: descriptors have 52-bit addresses";
	if (bbm_stage1_walk(field(tcr_el2, T0SZ_SHIFT, TXSZ_BITS), &own))
		return "T0SZ of TCR_EL2 has no start level of 0, 1 or 2";
	if (bbm_stage2_walk(field(vtcr_el2, T0SZ_SHIFT, TXSZ_BITS),
			    field(vtcr_el2, SL0_SHIFT, SL0_BITS), &guests))
		return "T0SZ and SL0 of VTCR_EL2 don't go together, or start at level 3";
	header = put_decimal(put_text(header, "bbmlog 4 hyp"), pes);
	header = put_decimal(put_decimal(put_decimal(header, own.start), guests.start),
			     guests.pages);
	*put_text(header, cnp ? " cnp" : " -") = '\0';
	return 0;
}

UNTRACED const char *bbm_version_5(char *header, unsigned int words)
{
	char *end = header + sizeof "bbmlog 4 " - 1;

	if (*end == 'h' && (words & BBM_INORDER))
		return "the word inorder is of kernels alone";
	if (*end == 'k' && (words & BBM_ISOLATED))
		return "the word isolated is of hypervisors alone";
	put_text(header, "bbmlog 5");
	while (*end)
		end++;
	if (end[-1] == '-')
		end -= 2; /* the word `cnp` stands or doesn't */
	end = put_text(end, words & BBM_UNFLUSHED ? " unflushed" : "");
	end = put_text(end, words & BBM_INORDER ? " inorder" : "");
	*put_text(end, words & BBM_ISOLATED ? " isolated" : "") = '\0';
	return 0;
}
