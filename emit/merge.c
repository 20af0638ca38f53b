// SPDX-License-Identifier: Apache-2.0 OR GPL-2.0-or-later
/* Puts the dumps of all PEs, as bbm_emit.h and bbm_emit.rs make them, into one log on standard output.
 *
 *     merge [OPTION..] HEADER DUMP..
 *     merge --header kernel PES TCR_EL1 CNP [5 [unflushed] [inorder]]
 *     merge --header hyp PES TCR_EL2 VTCR_EL2 CNP [5 [unflushed] [isolated]]
 *
 * HEADER is the first line of the log, as "bbmlog 4 hyp 2 1 1 1 -". A DUMP is a file of lines "TICKET LINE", as bbm_read
 * writes them, or of the slots of a buffer as they lay in memory, little-endian. A PE's lines may be split over several
 * files, and one file may have those of several PEs. Each line is read, looked at, and written as a log spells it, in the
 * order of the tickets.
 *
 *     --strip PREFIX   of each line of text drops what comes before PREFIX, and PREFIX; lines without it are other output
 *     --tickets N      takes the first N tickets, for dumps that have no closing lines
 *     --follow         reads files that still grow, and writes each line as soon as no dump can have an earlier one
 *
 * There is no log, and standard error says why, where a ticket is lost or stands twice, a PE has no closing line, or one
 * that tells of lost events, or a line is none of a log. With --follow what was written then has no `end` line. The
 * other two forms write the header that the registers give, of version 4, or with 5 of that version.
 *
 * Exit status 0 where the log, or the header, is written; else no log came of it, and the status is as that of bbm: 2
 * what is above, or registers that no log has; 3 the words are wrong; 4 a dump can't be read; 5 a write failed; 6 there
 * is no memory.
 */
#define _POSIX_C_SOURCE 200809L
#include "bbm_emit.h"

#include <errno.h>
#include <fcntl.h>
#include <stdarg.h>
#include <stdbool.h>
#include <stdio.h>
#include <stdlib.h>
#include <string.h>
#include <time.h>
#include <unistd.h>

/* The form of a dump, which its first bytes show: a slot has a zero byte among the first eight, and a line has none. */
enum form { UNKNOWN, TEXT, SLOTS };

enum status { NO_LOG = 2, WRONG_WORDS, CANT_READ, CANT_WRITE, NO_MEMORY };

enum { FORM_BYTES = 8, MOST_FIELDS = 11, NO_PE = -1 };

struct dump {
	const char *name;
	int file;
	enum form form;
	char *bytes; /* read and not yet taken */
	size_t used, room;
	size_t line; /* lines or slots taken so far */
	int pe;      /* of the last line that could be read */
	bool closed; /* a closing line was in it */
};

/* An event, and where it stood. */
struct event {
	uint64_t ticket;
	struct bbm_slot slot;
	const struct dump *dump;
	size_t line;
};

struct header {
	const char *text;
	unsigned version, pes;
	uint64_t stage2_bytes; /* of the pages of a stage 2 root */
};

static struct {
	const char *strip;
	bool follow;
	bool has_tickets;
	uint64_t tickets; /* of --tickets, or else of the closing lines */
	bool is_closed;   /* a closing line told them */
} option;

static struct header header;
static bool pe_has_lines[BBM_PES], pe_is_closed[BBM_PES];

/* The events that aren't written yet. */
static struct event *events;
static size_t event_count, event_room;
static uint64_t written; /* tickets that are */

/* ---- what is wrong */

static __attribute__((__noreturn__, __format__(__printf__, 2, 3))) void end_with(enum status status, const char *form, ...)
{
	va_list rest;

	va_start(rest, form);
	fputs("merge: ", stderr);
	vfprintf(stderr, form, rest);
	fputc('\n', stderr);
	va_end(rest);
	exit(status);
}

#define fail(...) end_with(NO_LOG, __VA_ARGS__)

/* Where something stands: PE, file and line. In a buffer that the next call but three takes. */
static const char *place_of(int pe, const struct dump *dump, size_t line)
{
	static char places[4][512];
	static unsigned next;
	char *place = places[next++ % 4];
	const char *what = dump->form == SLOTS ? "slot" : "line";

	if (pe == NO_PE)
		snprintf(place, sizeof places[0], "%s %s %zu", dump->name, what, line);
	else
		snprintf(place, sizeof places[0], "pe %d, %s %s %zu", pe, dump->name, what, line);
	return place;
}

static const char *place_of_event(const struct event *event)
{
	return place_of(event->slot.pe, event->dump, event->line);
}

static void *grown(void *at, size_t bytes)
{
	at = realloc(at, bytes);
	if (!at)
		end_with(NO_MEMORY, "there is no memory");
	return at;
}

/* ---- numbers and words of a line */

/* A number that is all of the text, in base 10 or, behind 0x, 16. */
static bool read_number(const char *text, int base, uint64_t *n)
{
	const char *digits = "0123456789";

	if (base == 16) {
		if (strncmp(text, "0x", 2))
			return false;
		text += 2;
		digits = "0123456789abcdefABCDEF";
	}
	errno = 0;
	*n = strtoull(text, NULL, base);
	return *text && !text[strspn(text, digits)] && !errno;
}

static bool read_hex(const char *text, uint64_t *n)
{
	return text && read_number(text, 16, n);
}

static bool read_decimal(const char *text, uint64_t most, uint64_t *n)
{
	return text && read_number(text, 10, n) && *n <= most;
}

/* The number of a word, by the function that names them. */
static bool read_name(const char *text, const char *(*name_of)(unsigned), unsigned *n)
{
	const char *name;

	for (*n = 0; text && (name = name_of(*n)); ++*n)
		if (!strcmp(name, text))
			return true;
	return false;
}

/* Cuts a line at its spaces. The number of fields; those that aren't there are null. */
static unsigned cut(char *line, char *fields[MOST_FIELDS])
{
	unsigned count = 0;
	char *rest = line, *field;

	memset(fields, 0, MOST_FIELDS * sizeof *fields);
	while ((field = strtok_r(rest, " \t", &rest)) && count < MOST_FIELDS)
		fields[count++] = field;
	return count;
}

/* ---- a line of text */

static bool read_detail(const char *text, const char *(*name_of)(unsigned), struct bbm_slot *slot)
{
	unsigned n;

	if (!read_name(text, name_of, &n))
		return false;
	slot->detail = (uint16_t)n;
	return true;
}

static bool read_lock(const char *text, bool may_be_none, struct bbm_slot *slot)
{
	uint64_t n;

	if (may_be_none && text && !strcmp(text, "-")) {
		slot->lock = BBM_NO_LOCK;
		return true;
	}
	if (!read_decimal(text, BBM_LOCKS - 1, &n))
		return false;
	slot->lock = (int32_t)n;
	return true;
}

static bool read_tlbi(char *const fields[], unsigned *taken, struct bbm_slot *slot)
{
	if (read_detail(fields[0], bbm_tlbi_name, slot)) {
		slot->word = BBM_TLBI;
		*taken = 1;
		return true;
	}
	slot->word = BBM_TLBI_AT;
	*taken = 2;
	return read_detail(fields[0], bbm_tlbi_at_name, slot) && read_hex(fields[1], &slot->first);
}

static bool read_close(char *const fields[], struct bbm_slot *slot)
{
	return fields[3] && !strcmp(fields[0], "tickets") && !strcmp(fields[2], "lost") &&
	       read_decimal(fields[1], UINT64_MAX, &slot->first) && read_decimal(fields[3], UINT64_MAX, &slot->second);
}

/* The fields behind the PE, by the word. How many they are. */
static bool read_fields(char *const fields[], unsigned *taken, struct bbm_slot *slot)
{
	*taken = 1;
	switch ((enum bbm_word)slot->word) {
	case BBM_INIT:
	case BBM_NULL:
	case BBM_UNROOT:
		return read_hex(fields[0], &slot->first);
	case BBM_ROOT:
		*taken = 3;
		return read_detail(fields[0], bbm_kind_name, slot) && read_lock(fields[1], true, slot) &&
		       read_hex(fields[2], &slot->first);
	case BBM_W:
		*taken = 2;
		return read_hex(fields[0], &slot->first) && read_hex(fields[1], &slot->second);
	case BBM_DSB:
	case BBM_DMB:
		return read_detail(fields[0], bbm_option_name, slot);
	case BBM_TLBI:
	case BBM_TLBI_AT:
		return read_tlbi(fields, taken, slot);
	case BBM_MSR:
		*taken = 2;
		return read_detail(fields[0], bbm_register_name, slot) && read_hex(fields[1], &slot->first);
	case BBM_LOCK:
	case BBM_UNLOCK:
		return read_lock(fields[0], false, slot);
	case BBM_CLOSE:
		*taken = 4;
		return read_close(fields, slot);
	case BBM_ISB:
		*taken = 0;
		return true;
	case BBM_NOTHING:
	case BBM_WORDS:
		break;
	}
	return false;
}

/* Reads a line "TICKET LINE" without its newline into a slot. What can't be read, or null; the slot has a mark where its
 * PE could be read. */
static const char *read_line(char *line, struct bbm_slot *slot)
{
	char *fields[MOST_FIELDS];
	unsigned count = cut(line, fields), word, taken;
	uint64_t ticket, pe;

	memset(slot, 0, sizeof *slot);
	if (!count || !read_decimal(fields[0], UINT64_MAX - 1, &ticket))
		return "it doesn't begin with a ticket";
	if (!read_name(fields[1], bbm_word_name, &word) || word == BBM_NOTHING)
		return "no line has that word";
	if (!read_decimal(fields[2], UINT8_MAX, &pe))
		return "its PE can't be read";
	slot->mark = ticket + 1;
	slot->word = (uint8_t)word;
	slot->pe = (uint8_t)pe;
	if (!read_fields(fields + 3, &taken, slot))
		return "a field can't be read, or isn't there";
	taken += 3;
	if (taken < count && fields[taken][0] == '@' && slot->word != BBM_CLOSE)
		bbm_label_of((struct bbm_label *)slot->label, fields[taken++] + 1);
	return taken < count ? "it has a field more than that" : NULL;
}

/* ---- whether a slot is a line of this log */

static bool is_page(uint64_t address)
{
	return address < (uint64_t)1 << 48 && address % BBM_PAGE_BYTES == 0;
}

static bool is_range(unsigned op)
{
	return op >= BBM_RVAE2;
}

static const char *wrong_root(const struct bbm_slot *slot)
{
	if (!bbm_kind_name(slot->detail))
		return "no root has that kind";
	if (slot->lock < BBM_NO_LOCK || slot->lock >= BBM_LOCKS)
		return "its lock isn't 0 to 1023";
	if (slot->detail == BBM_S2 && slot->first % header.stage2_bytes)
		return "its page isn't a multiple of the bytes of a stage 2 root";
	return NULL;
}

static const char *wrong_tlbi(const struct bbm_slot *slot)
{
	if (!bbm_tlbi_at_name(slot->detail))
		return "no TLBI has that operation";
	return is_range(slot->detail) && header.version < 4 ? "a TLBI for a range needs a header of version 4 or later" : NULL;
}

/* What makes it none, or null. */
static const char *wrong_slot(const struct bbm_slot *slot)
{
	if (slot->pe >= header.pes)
		return "its PE isn't below the number of PEs of the header";
	switch ((enum bbm_word)slot->word) {
	case BBM_INIT:
	case BBM_NULL:
	case BBM_UNROOT:
	case BBM_ROOT:
		if (!is_page(slot->first))
			return "its page isn't a physical address below 2^48 and a multiple of 4096";
		return slot->word == BBM_ROOT ? wrong_root(slot) : NULL;
	case BBM_W:
		if (slot->first >= (uint64_t)1 << 48 || slot->first % sizeof(uint64_t))
			return "its place isn't a physical address below 2^48 and a multiple of 8";
		return NULL;
	case BBM_DSB:
	case BBM_DMB:
		return bbm_option_name(slot->detail) ? NULL : "no barrier has that option";
	case BBM_TLBI:
		return bbm_tlbi_name(slot->detail) ? NULL : "no TLBI has that operation";
	case BBM_TLBI_AT:
		return wrong_tlbi(slot);
	case BBM_MSR:
		return bbm_register_name(slot->detail) ? NULL : "no root register has that number";
	case BBM_LOCK:
	case BBM_UNLOCK:
		return slot->lock < 0 || slot->lock >= BBM_LOCKS ? "its lock isn't 0 to 1023" : NULL;
	case BBM_ISB:
	case BBM_CLOSE:
		return NULL;
	case BBM_NOTHING:
	case BBM_WORDS:
		break;
	}
	return "no line has a word of that number";
}

/* ---- taking what the dumps have */

static void take_close(const struct dump *dump, const struct bbm_slot *slot)
{
	if (option.has_tickets)
		return;
	if (slot->second)
		fail("%s: the buffer was full, and %llu events are lost", place_of(slot->pe, dump, dump->line),
		     (unsigned long long)slot->second);
	if (option.is_closed && option.tickets != slot->first)
		fail("%s: %llu tickets were taken, and another closing line says %llu: these aren't dumps of one log",
		     place_of(slot->pe, dump, dump->line), (unsigned long long)slot->first,
		     (unsigned long long)option.tickets);
	option.is_closed = true;
	option.tickets = slot->first;
}

static void keep(const struct dump *dump, const struct bbm_slot *slot)
{
	struct event *event;

	if (event_count == event_room) {
		event_room = event_room ? event_room * 2 : 1024;
		events = grown(events, event_room * sizeof *events);
	}
	event = &events[event_count++];
	event->ticket = slot->mark - 1;
	event->slot = *slot;
	event->dump = dump;
	event->line = dump->line;
	if (event->ticket < written)
		fail("ticket %llu stands twice, the second time at %s", (unsigned long long)event->ticket,
		     place_of_event(event));
}

static void take_slot(struct dump *dump, const struct bbm_slot *slot)
{
	const char *wrong = wrong_slot(slot);

	if (wrong)
		fail("%s: %s", place_of(slot->pe, dump, dump->line), wrong);
	dump->pe = slot->pe;
	pe_has_lines[slot->pe] = true;
	if (slot->word == BBM_CLOSE) {
		dump->closed = pe_is_closed[slot->pe] = true;
		take_close(dump, slot);
	} else if (!option.has_tickets || slot->mark <= option.tickets) {
		keep(dump, slot);
	}
}

/* Takes a line of text, which ends with a zero byte in the place of its newline. */
static void take_line(struct dump *dump, char *line)
{
	struct bbm_slot slot;
	const char *wrong;
	size_t length;

	dump->line++;
	if (option.strip) {
		line = strstr(line, option.strip);
		if (!line)
			return;
		line += strlen(option.strip);
	}
	length = strlen(line);
	while (length && strchr("\r \t", line[length - 1]))
		line[--length] = '\0';
	if (!length)
		return;
	wrong = read_line(line, &slot);
	if (wrong)
		fail("%s: %s", place_of(slot.mark ? slot.pe : dump->pe, dump, dump->line), wrong);
	take_slot(dump, &slot);
}

/* Takes the whole lines of what was read. The bytes that they have. */
static size_t take_lines(struct dump *dump)
{
	char *line = dump->bytes, *end = dump->bytes + dump->used, *newline;

	while ((newline = memchr(line, '\n', (size_t)(end - line)))) {
		*newline = '\0';
		if (strlen(line) != (size_t)(newline - line))
			fail("%s: a zero byte in a line of text", place_of(dump->pe, dump, dump->line + 1));
		take_line(dump, line);
		line = newline + 1;
	}
	return (size_t)(line - dump->bytes);
}

/* Takes the whole slots of what was read; those without a mark are empty. The bytes that they have. */
static size_t take_slots(struct dump *dump)
{
	struct bbm_slot slot;
	size_t at;

	for (at = 0; dump->used - at >= sizeof slot; at += sizeof slot) {
		memcpy(&slot, dump->bytes + at, sizeof slot);
		dump->line++;
		if (slot.mark)
			take_slot(dump, &slot);
	}
	return at;
}

static void take(struct dump *dump)
{
	size_t taken = 0;

	if (dump->form == UNKNOWN && dump->used >= FORM_BYTES)
		dump->form = memchr(dump->bytes, '\0', FORM_BYTES) ? SLOTS : TEXT;
	if (dump->form == TEXT)
		taken = take_lines(dump);
	else if (dump->form == SLOTS)
		taken = take_slots(dump);
	dump->used -= taken;
	memmove(dump->bytes, dump->bytes + taken, dump->used);
}

/* Reads what there is. Whether there was something. */
static bool read_more(struct dump *dump)
{
	bool more = false;
	ssize_t got;

	do {
		if (dump->used == dump->room) {
			dump->room = dump->room ? dump->room * 2 : 1 << 16;
			dump->bytes = grown(dump->bytes, dump->room);
		}
		got = read(dump->file, dump->bytes + dump->used, dump->room - dump->used);
		if (got > 0) {
			dump->used += (size_t)got;
			more = true;
			take(dump);
		}
	} while (got > 0 || (got < 0 && errno == EINTR));
	if (got < 0 && errno != EAGAIN)
		end_with(CANT_READ, "%s: %s", dump->name, strerror(errno));
	return more;
}

/* ---- the log */

/* Hands on what was written so far. */
static void flush_log(void)
{
	if (fflush(stdout) || ferror(stdout))
		end_with(CANT_WRITE, "standard output: %s", strerror(errno));
}

static int by_ticket(const void *a, const void *b)
{
	uint64_t s = ((const struct event *)a)->ticket, t = ((const struct event *)b)->ticket;

	return (s > t) - (s < t);
}

/* Sorts the events, and tells how many of them follow on what is written without a gap. */
static size_t ready_events(void)
{
	size_t i;

	if (event_count)
		qsort(events, event_count, sizeof *events, by_ticket);
	for (i = 0; i < event_count; i++) {
		if (i && events[i].ticket == events[i - 1].ticket)
			fail("ticket %llu stands twice: at %s, and at %s", (unsigned long long)events[i].ticket,
			     place_of_event(&events[i - 1]), place_of_event(&events[i]));
		if (events[i].ticket != written + i)
			break;
	}
	return i;
}

/* What a gap, or an end that comes too early, leaves out. */
static void fail_lost(size_t ready)
{
	unsigned long long lost = written + ready;

	if (ready < event_count)
		fail("ticket %llu is lost: no dump has it, and %s has ticket %llu", lost, place_of_event(&events[ready]),
		     (unsigned long long)events[ready].ticket);
	fail("ticket %llu is lost: no dump has it, and %llu were taken", lost, (unsigned long long)option.tickets);
}

/* That there is nothing left to come. Before the first line is written, but with --follow. */
static void check_tail(size_t ready, const struct dump *dumps, int count)
{
	int i;

	for (i = 0; i < count && !option.has_tickets; i++)
		if (!dumps[i].line)
			fail("%s has no line, not even a closing one (bbm_close)", dumps[i].name);
	for (i = 0; i < BBM_PES && !option.has_tickets; i++)
		if (pe_has_lines[i] && !pe_is_closed[i])
			fail("pe %d has no closing line (bbm_close): whether its last events are there isn't known; "
			     "--tickets N does without",
			     i);
	if (!option.has_tickets && !option.is_closed)
		fail("no dump has a closing line (bbm_close)");
	if (ready < event_count && events[ready].ticket >= option.tickets)
		fail("%s has ticket %llu, and %llu were taken", place_of_event(&events[ready]),
		     (unsigned long long)events[ready].ticket, (unsigned long long)option.tickets);
	if (ready < event_count || written + ready < option.tickets)
		fail_lost(ready);
}

static void write_event(const struct event *event)
{
	struct bbm_slot slot = event->slot;
	char line[BBM_LINE_BYTES];
	size_t length;
	const char *text;

	if (header.version < 3)
		memset(slot.label, 0, sizeof slot.label);
	length = bbm_line(&slot, line);
	text = (const char *)memchr(line, ' ', length) + 1;
	fwrite(text, 1, length - (size_t)(text - line), stdout);
}

/* Writes the first events, and forgets them. */
static void write_events(size_t count)
{
	size_t i;

	for (i = 0; i < count; i++)
		write_event(&events[i]);
	event_count -= count;
	memmove(events, events + count, event_count * sizeof *events);
	written += count;
}

static void merge_whole(struct dump *dumps, int count)
{
	size_t ready;
	int i;

	for (i = 0; i < count; i++) {
		read_more(&dumps[i]);
		if (dumps[i].used)
			fail("%s: it isn't whole", place_of(dumps[i].pe, &dumps[i], dumps[i].line + 1));
	}
	ready = ready_events();
	check_tail(ready, dumps, count);
	printf("%s\n", header.text);
	write_events(ready);
}

/* Whether the log has come to its end: each dump has a closing line, and each ticket is written; or those that were asked
 * for are. */
static bool is_at_end(const struct dump *dumps, int count)
{
	int i;

	for (i = 0; i < count && !option.has_tickets; i++)
		if (!dumps[i].closed)
			return false;
	return written >= option.tickets && !event_count;
}

/* Tickets are dense: no dump can have an earlier line once each ticket before is there, also where a PE is idle. */
static void merge_growing(struct dump *dumps, int count)
{
	const struct timespec pause = {.tv_nsec = 20 * 1000 * 1000};
	const unsigned most_idle = 100; /* pauses: two seconds */
	unsigned idle = 0;
	size_t ready;
	bool more, closed;
	int i;

	printf("%s\n", header.text);
	do {
		more = false;
		closed = !option.has_tickets;
		for (i = 0; i < count; i++) {
			more |= read_more(&dumps[i]);
			closed &= dumps[i].closed;
		}
		ready = ready_events();
		write_events(ready);
		flush_log();
		idle = more ? 0 : idle + 1;
		if (closed && idle > most_idle)
			check_tail(0, dumps, count);
		if (!more)
			nanosleep(&pause, NULL);
	} while (!is_at_end(dumps, count));
}

/* ---- the words of the command */

/* The words of version 5 behind these, each of which stands or doesn't: `unflushed`, and `inorder` of a kernel or `isolated`
 * of a hypervisor; and what stands behind them. */
static char *const *read_words(char *const *words, bool hyp, unsigned *said)
{
	*said = 0;
	if (*words && !strcmp(*words, "unflushed") && words++)
		*said |= BBM_UNFLUSHED;
	if (!hyp && *words && !strcmp(*words, "inorder") && words++)
		*said |= BBM_INORDER;
	if (hyp && *words && !strcmp(*words, "isolated") && words++)
		*said |= BBM_ISOLATED;
	return words;
}

/* Whether these are what a header of the version may say behind its numbers: up to version 4 one field, `cnp` or `-`, but
 * none under version 1; and then the words, of which `cnp` is the first. */
static bool are_words(uint64_t version, bool hyp, char *const *words)
{
	bool cnp = *words && !strcmp(*words, "cnp");
	unsigned said;

	if (version < 5)
		return version == 1 ? !*words : (cnp || (*words && !strcmp(*words, "-"))) && !words[1];
	return !*read_words(words + cnp, hyp, &said);
}

/* Reads the fields of a header, as docs/FORMAT.md has them, and writes them again, as only one text has them. */
static bool read_header_fields(char *const fields[], char *again, size_t room)
{
	uint64_t version, pes, start, other, pages = 1;
	bool hyp = !strcmp(fields[2], "hyp");
	int length;

	if (strcmp(fields[0], "bbmlog") || !read_decimal(fields[1], 5, &version) || !version)
		return false;
	if (!are_words(version, hyp, fields + 7) || !read_decimal(fields[3], version < 3 ? 64 : BBM_PES, &pes) || !pes)
		return false;
	if (!read_decimal(fields[4], 2, &start) || !read_decimal(fields[5], 2, &other))
		return false;
	if (hyp && (!read_decimal(fields[6], 16, &pages) || !pages || (pages & (pages - 1)) || (!other && pages > 1)))
		return false;
	if (!hyp && (strcmp(fields[2], "kernel") || (strcmp(fields[6], "ttbr0") && strcmp(fields[6], "ttbr1"))))
		return false;
	header.version = (unsigned)version;
	header.pes = (unsigned)pes;
	header.stage2_bytes = pages * BBM_PAGE_BYTES;
	length = snprintf(again, room, "bbmlog %u %s %u %u %u %s", header.version, fields[2], header.pes, (unsigned)start,
			  (unsigned)other, fields[6]);
	for (fields += 7; *fields; fields++)
		length += snprintf(again + length, room - (size_t)length, " %s", *fields);
	return true;
}

static bool read_header(const char *text)
{
	char copy[128], again[128], *fields[MOST_FIELDS];

	if (strlen(text) >= sizeof copy)
		return false;
	if (cut(strcpy(copy, text), fields) < 7 || !read_header_fields(fields, again, sizeof again))
		return false;
	header.text = text;
	return !strcmp(text, again);
}

static __attribute__((__noreturn__)) void usage(void)
{
	end_with(WRONG_WORDS, "usage: merge [--strip PREFIX] [--tickets N] [--follow] HEADER DUMP.. | "
		 "merge --header kernel PES TCR_EL1 CNP [5 [unflushed] [inorder]] | "
		 "merge --header hyp PES TCR_EL2 VTCR_EL2 CNP [5 [unflushed] [isolated]]");
}

/* merge --header: the header that the registers give. The words end with a null one. */
static int write_header(int count, char **words)
{
	bool hyp = count >= 5 && !strcmp(words[0], "hyp"), kernel = count >= 4 && !strcmp(words[0], "kernel");
	char *const *last = words + (hyp ? 5 : 4); /* behind CNP */
	uint64_t pes = 0, tcr = 0, vtcr = 0;
	char text[BBM_LINE_BYTES];
	unsigned said = 0;
	bool cnp, later;
	const char *wrong;

	if (!hyp && !kernel)
		usage();
	cnp = !strcmp(last[-1], "cnp");
	later = last[0] && !strcmp(last[0], "5");
	if ((!cnp && strcmp(last[-1], "-")) || *(later ? read_words(last + 1, hyp, &said) : last))
		usage();
	if (!read_decimal(words[1], UINT32_MAX, &pes) || !read_hex(words[2], &tcr) || (hyp && !read_hex(words[3], &vtcr)))
		usage();
	if (hyp)
		wrong = bbm_hyp_header(text, (unsigned)pes, tcr, vtcr, cnp);
	else
		wrong = bbm_kernel_header(text, (unsigned)pes, tcr, cnp);
	if (!wrong && later)
		wrong = bbm_version_5(text, said);
	if (wrong)
		fail("%s", wrong);
	printf("%s\n", text);
	flush_log();
	return 0;
}

/* Reads the number of tickets to take, in decimal or as a debugger prints it, where the top bit says that the log is
 * closed. */
static bool read_tickets(const char *text)
{
	const uint64_t closed = (uint64_t)1 << 63;

	if (!read_decimal(text, UINT64_MAX, &option.tickets) && !read_hex(text, &option.tickets))
		usage();
	option.tickets &= ~closed;
	return true;
}

/* Reads the options. The number of the first word behind them. */
static int read_options(int argc, char **argv)
{
	int n = 1;

	for (; n < argc && !strncmp(argv[n], "--", 2); n++) {
		if (!strcmp(argv[n], "--follow")) {
			option.follow = true;
		} else if (!strcmp(argv[n], "--strip") && n + 1 < argc && *argv[n + 1]) {
			option.strip = argv[++n];
		} else if (!strcmp(argv[n], "--tickets") && n + 1 < argc) {
			option.has_tickets = read_tickets(argv[++n]);
		} else {
			usage();
		}
	}
	return n;
}

/* With --tickets nothing tells whether there were more. */
static void warn_of_tail(void)
{
	if (option.tickets)
		fprintf(stderr, "merge: warning: the tail isn't known: whether an event came behind ticket %llu, no line says\n",
			(unsigned long long)option.tickets - 1);
	else
		fputs("merge: warning: the tail isn't known: no ticket is taken, and whether an event came, no line says\n",
		      stderr);
}

static void open_dump(struct dump *dump, const char *name)
{
	*dump = (struct dump){.name = name, .pe = NO_PE};
	dump->file = open(name, O_RDONLY | (option.follow ? O_NONBLOCK : 0));
	if (dump->file < 0)
		end_with(CANT_READ, "%s: %s", name, strerror(errno));
}

int main(int argc, char **argv)
{
	struct dump *dumps;
	int first, count, i;

	if (argc > 1 && !strcmp(argv[1], "--header"))
		return write_header(argc - 2, argv + 2);
	first = read_options(argc, argv);
	count = argc - first - 1;
	if (count < 1)
		usage();
	if (!read_header(argv[first]))
		end_with(WRONG_WORDS, "\"%s\" is no header of a log (docs/FORMAT.md); in versions 2 to 4 it ends with cnp or -", argv[first]);
	dumps = grown(NULL, (size_t)count * sizeof *dumps);
	for (i = 0; i < count; i++)
		open_dump(&dumps[i], argv[first + 1 + i]);
	if (option.has_tickets)
		warn_of_tail();
	if (option.follow)
		merge_growing(dumps, count);
	else
		merge_whole(dumps, count);
	printf("end %llu\n", (unsigned long long)written);
	flush_log();
	return 0;
}
