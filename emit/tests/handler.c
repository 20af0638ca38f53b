// SPDX-License-Identifier: Apache-2.0 OR GPL-2.0-or-later
/* A signal handler logs into the buffer in which a call is under way, as an interrupt handler would.
 *
 *     handler steps DUMP    once behind each instruction of a sequence of calls, by the trap flag of x86-64; and counts
 *                           the instructions of a labelled write
 *     handler timer DUMP    as often as a timer comes, for a quarter of a second
 *
 * DUMP gets the lines. Exit status 3 where the processor has no such flag.
 */
#define _GNU_SOURCE
#include "bbm_emit.h"

#include <signal.h>
#include <stdio.h>
#include <string.h>
#include <sys/time.h>
#include <time.h>
#include <ucontext.h>

enum { SLOTS = 1 << 18, PAGE = 0x40000000, PLACE = PAGE + 8, BLOCK = 0x80000701, MOST_INSTRUCTIONS = 150 };

static struct bbm_tickets tickets;
static struct bbm_slot slots[SLOTS];
static struct bbm_buffer buffer;

/* Instructions, or signals, that were counted; and the instruction behind which the handler logs. */
static volatile unsigned long steps, logs_at;

static void log_in_handler(void)
{
	bbm_write(&buffer, PLACE + 8, 0, BBM_LABEL("handler:write"));
	bbm_dsb(&buffer, BBM_ISH, BBM_LABEL("handler:dsb"));
}

/* One block is broken and made again. */
static void remap(void)
{
	bbm_write(&buffer, PLACE, 0, BBM_HERE);
	bbm_dsb(&buffer, BBM_ISHST, BBM_HERE);
	bbm_tlbi_at(&buffer, BBM_VAE2IS, 0x40000000 >> 12, BBM_HERE);
	bbm_dsb(&buffer, BBM_ISH, BBM_HERE);
	bbm_write(&buffer, PLACE, BLOCK, BBM_HERE);
}

static void begin(void)
{
	bbm_open(&buffer, &tickets, slots, SLOTS, 0);
	bbm_init(&buffer, PAGE, BBM_HERE);
	bbm_root(&buffer, BBM_EL2, BBM_NO_LOCK, PAGE, BBM_HERE);
	bbm_write(&buffer, PLACE, BLOCK, BBM_HERE);
}

static int save(const char *name)
{
	FILE *dump = fopen(name, "wb");
	char text[1 << 16];
	size_t used;

	bbm_close(&buffer);
	while (dump && (used = bbm_read(&buffer, text, sizeof text)))
		fwrite(text, 1, used, dump);
	return !dump || fclose(dump);
}

#ifdef __x86_64__
/* The trap flag of the processor's flags: a trap behind each instruction. */
#define TRAP_FLAG 0x100

/* A breakpoint turns the trap flag on and off; a trap behind an instruction counts it. */
static void trapped(int number, siginfo_t *info, void *context)
{
	greg_t *flags = &((ucontext_t *)context)->uc_mcontext.gregs[REG_EFL];

	(void)number;
	if (info->si_code != TRAP_TRACE) {
		*flags ^= TRAP_FLAG;
		return;
	}
	if (++steps == logs_at)
		log_in_handler();
}

static void turn_stepping(void)
{
	__asm__ volatile("int3" ::: "memory");
}

/* The instructions of a labelled write, with those that pass its arguments. */
static unsigned long count_write(void)
{
	unsigned long of_stepping;

	steps = 0;
	turn_stepping();
	turn_stepping();
	of_stepping = steps;
	steps = 0;
	turn_stepping();
	bbm_write(&buffer, PLACE + 0x10, 0, BBM_HERE);
	turn_stepping();
	return steps - of_stepping;
}

static int by_steps(const char *name)
{
	struct sigaction action = {.sa_sigaction = trapped, .sa_flags = SA_SIGINFO};
	unsigned long instructions;

	sigaction(SIGTRAP, &action, NULL);
	begin();
	instructions = count_write();
	do {
		logs_at++;
		steps = 0;
		turn_stepping();
		remap();
		turn_stepping();
	} while (steps >= logs_at);
	printf("a labelled write takes %lu instructions; the handler came behind each of %lu\n", instructions, logs_at - 1);
	return save(name) || instructions > MOST_INSTRUCTIONS;
}
#else
static int by_steps(const char *name)
{
	(void)name;
	return 3;
}
#endif

static void rung(int number)
{
	(void)number;
	steps++;
	log_in_handler();
}

static int by_timer(const char *name)
{
	const struct itimerval often = {.it_interval = {.tv_usec = 20}, .it_value = {.tv_usec = 20}};
	const struct itimerval never = {.it_value = {.tv_usec = 0}};
	struct sigaction action = {.sa_handler = rung, .sa_flags = SA_RESTART};
	struct timespec start, now;

	sigaction(SIGALRM, &action, NULL);
	begin();
	setitimer(ITIMER_REAL, &often, NULL);
	clock_gettime(CLOCK_MONOTONIC, &start);
	do {
		if (buffer.next < SLOTS * 3ull / 4)
			remap();
		clock_gettime(CLOCK_MONOTONIC, &now);
	} while ((now.tv_sec - start.tv_sec) * 1000000000 + now.tv_nsec - start.tv_nsec < 250000000);
	setitimer(ITIMER_REAL, &never, NULL);
	printf("the handler came %lu times\n", steps);
	return save(name);
}

int main(int argc, char **argv)
{
	if (argc == 3 && !strcmp(argv[1], "steps"))
		return by_steps(argv[2]);
	if (argc == 3 && !strcmp(argv[1], "timer"))
		return by_timer(argv[2]);
	return 2;
}
