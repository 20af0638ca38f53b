// SPDX-License-Identifier: Apache-2.0 OR GPL-2.0-or-later
/* Threads that log as PEs do, each into the file peN.text of a directory:
 *
 *     threads apart DIRECTORY     four PEs, each with its buffer, that move blocks of one tree under its lock
 *     threads shared DIRECTORY    two threads that log into one buffer
 *     threads live DIRECTORY      four PEs with small rings, which a thread reads out while they log
 *     threads small DIRECTORY     one PE, whose buffer is too small for the last two of its events
 */
#define _POSIX_C_SOURCE 200809L
#include "bbm_emit.h"

#include <pthread.h>
#include <sched.h>
#include <stdio.h>
#include <string.h>
#include <time.h>

enum { PES = 4, SLOTS = 1 << 15, RING = 64, ROUNDS = 2000, LIVE_ROUNDS = 400, LOCK = 5, PAGE = 0x40000000, BLOCK = 0x80000701 };

static struct bbm_tickets tickets;
static struct bbm_slot slots[PES][SLOTS];
static struct bbm_buffer buffers[PES];
static pthread_mutex_t tree = PTHREAD_MUTEX_INITIALIZER;

/* A thread: the buffer that it logs into, the descriptor that is its own, how often it moves the block, and whether it
 * waits for its ring. */
struct worker {
	struct bbm_buffer *buffer;
	unsigned index, rounds;
	int waits;
	pthread_t thread;
};

static void open_buffers(size_t room)
{
	unsigned i;

	for (i = 0; i < PES; i++)
		bbm_open(&buffers[i], &tickets, slots[i], room, i);
	bbm_init(&buffers[0], PAGE, BBM_HERE);
	bbm_root(&buffers[0], BBM_EL2, LOCK, PAGE, BBM_HERE);
}

static int is_full(struct bbm_buffer *buffer)
{
	return __atomic_load_n(&buffer->next, __ATOMIC_ACQUIRE) - __atomic_load_n(&buffer->read, __ATOMIC_ACQUIRE) >
	       RING / 2;
}

/* Moves the block of one descriptor, the tree being locked. */
static void move_block(struct bbm_buffer *buffer, unsigned index, uint64_t value)
{
	uint64_t place = PAGE + 8 * index;

	bbm_write(buffer, place, 0, BBM_LABEL("move:break"));
	bbm_dsb(buffer, BBM_ISHST, BBM_NO_LABEL);
	bbm_tlbi_at(buffer, BBM_VAE2IS, (uint64_t)index << 18, BBM_NO_LABEL);
	bbm_dsb(buffer, BBM_ISH, BBM_NO_LABEL);
	bbm_write(buffer, place, value, BBM_LABEL("move:make"));
}

static void *work(void *of)
{
	struct worker *worker = of;
	uint64_t round;

	for (round = 0; round < worker->rounds; round++) {
		while (worker->waits && is_full(worker->buffer))
			sched_yield();
		pthread_mutex_lock(&tree);
		bbm_lock(worker->buffer, LOCK, BBM_HERE);
		move_block(worker->buffer, worker->index, BLOCK + (round << 30));
		bbm_unlock(worker->buffer, LOCK, BBM_HERE);
		pthread_mutex_unlock(&tree);
	}
	return NULL;
}

/* The same without a lock, so that two calls on one buffer can meet at any step. */
static void *work_freely(void *of)
{
	struct worker *worker = of;
	uint64_t round;

	for (round = 0; round < worker->rounds; round++)
		move_block(worker->buffer, worker->index, BLOCK + (round << 30));
	return NULL;
}

static FILE *open_dump(const char *directory, unsigned pe)
{
	char path[4096];

	snprintf(path, sizeof path, "%s/pe%u.text", directory, pe);
	return fopen(path, "ab");
}

/* Writes out what a buffer has. The bytes. */
static size_t read_out(struct bbm_buffer *buffer, FILE *dump)
{
	char text[8 * BBM_LINE_BYTES];
	size_t used, sum = 0;

	while ((used = bbm_read(buffer, text, sizeof text)))
		sum += fwrite(text, 1, used, dump);
	fflush(dump);
	return sum;
}

static int save(const char *directory, unsigned count)
{
	unsigned pe;

	for (pe = 0; pe < count; pe++) {
		FILE *dump = open_dump(directory, pe);

		if (!dump)
			return 1;
		bbm_close(&buffers[pe]);
		read_out(&buffers[pe], dump);
		fclose(dump);
	}
	return 0;
}

static void start(struct worker workers[], unsigned count, void *(*job)(void *))
{
	unsigned i;

	for (i = 0; i < count; i++)
		pthread_create(&workers[i].thread, NULL, job, &workers[i]);
}

static void join(struct worker workers[], unsigned count)
{
	unsigned i;

	for (i = 0; i < count; i++)
		pthread_join(workers[i].thread, NULL);
}

static int apart(const char *directory)
{
	struct worker workers[PES];
	unsigned i;

	open_buffers(SLOTS);
	for (i = 0; i < PES; i++)
		workers[i] = (struct worker){.buffer = &buffers[i], .index = i, .rounds = ROUNDS};
	start(workers, PES, work);
	join(workers, PES);
	return save(directory, PES);
}

static int shared(const char *directory)
{
	struct worker workers[2];
	unsigned i;

	bbm_open(&buffers[0], &tickets, slots[0], SLOTS, 0);
	bbm_init(&buffers[0], PAGE, BBM_HERE);
	bbm_root(&buffers[0], BBM_EL2, BBM_NO_LOCK, PAGE, BBM_HERE);
	for (i = 0; i < 2; i++)
		workers[i] = (struct worker){.buffer = &buffers[0], .index = i, .rounds = ROUNDS};
	start(workers, 2, work_freely);
	join(workers, 2);
	return save(directory, 1);
}

/* Reads all rings out again and again, until it is told to stop. */
static int stopped;

static void *read_rings(void *directory)
{
	FILE *dumps[PES];
	unsigned i;

	for (i = 0; i < PES; i++)
		dumps[i] = open_dump(directory, i);
	while (!__atomic_load_n(&stopped, __ATOMIC_ACQUIRE))
		for (i = 0; i < PES; i++)
			read_out(&buffers[i], dumps[i]);
	for (i = 0; i < PES; i++)
		fclose(dumps[i]);
	return NULL;
}

static int live(const char *directory)
{
	struct worker workers[PES];
	pthread_t reader;
	unsigned i;

	open_buffers(RING);
	pthread_create(&reader, NULL, read_rings, (void *)(uintptr_t)directory);
	for (i = 0; i < PES; i++)
		workers[i] = (struct worker){.buffer = &buffers[i], .index = i, .rounds = LIVE_ROUNDS, .waits = 1};
	start(workers, PES, work);
	join(workers, PES);
	__atomic_store_n(&stopped, 1, __ATOMIC_RELEASE);
	pthread_join(reader, NULL);
	return save(directory, PES);
}

static int small(const char *directory)
{
	bbm_open(&buffers[0], &tickets, slots[0], 7, 0);
	bbm_init(&buffers[0], PAGE, BBM_HERE);
	bbm_root(&buffers[0], BBM_EL2, BBM_NO_LOCK, PAGE, BBM_HERE);
	bbm_write(&buffers[0], PAGE, BLOCK, BBM_HERE);
	move_block(&buffers[0], 0, BLOCK + 0x40000000);
	return save(directory, 1);
}

int main(int argc, char **argv)
{
	static const struct {
		const char *name;
		int (*run)(const char *directory);
	} tests[] = {{"apart", apart}, {"shared", shared}, {"live", live}, {"small", small}};
	unsigned i;

	for (i = 0; argc == 3 && i < sizeof tests / sizeof tests[0]; i++)
		if (!strcmp(tests[i].name, argv[1]))
			return tests[i].run(argv[2]);
	return 2;
}
