// SPDX-License-Identifier: Apache-2.0 OR GPL-2.0-or-later
/* The files of linux_module.c, with a kernel of a few lines around it: two readers of one file, one that has little room, and
 * a read that can't be given out. No line is lost.
 *
 *     readers DIRECTORY     puts what the readers got into the files 0.text and 1.text of the directory
 */
#define _GNU_SOURCE
#include <errno.h>
#include <pthread.h>
#include <sched.h>
#include <stdbool.h>
#include <stdio.h>
#include <stdlib.h>
#include <string.h>
#include <sys/types.h>

#include "bbm_emit.h"

#define ERESTARTSYS 512
#define __user
#define __init
#define __exit
#define THIS_MODULE NULL
#define smp_store_release(at, value) __atomic_store_n(at, value, __ATOMIC_RELEASE)
#define READ_ONCE(of) (*(volatile __typeof__(of) *)&(of))
#define min(a, b) ((a) < (b) ? (a) : (b))
#define for_each_possible_cpu(pe) for ((pe) = 0; (pe) < 2; (pe)++)
#define module_param(name, type, mode) void *name##_of_module(void); void *name##_of_module(void) { return &name; }
#define MODULE_PARM_DESC(name, text) struct module_text
#define MODULE_DESCRIPTION(text) struct module_text
#define MODULE_LICENSE(text) struct module_text
#define module_init(name) static int (*const start)(void) = name
#define module_exit(name) static void (*const stop)(void) = name

struct file {
	void *private_data;
};

struct file_operations {
	void *owner;
	int (*open)(void);
	ssize_t (*read)(struct file *, char *, size_t, loff_t *);
	ssize_t (*write)(struct file *, const char *, size_t, loff_t *);
};

struct mutex {
	pthread_mutex_t inner;
};

static void mutex_init(struct mutex *mutex)
{
	pthread_mutex_init(&mutex->inner, NULL);
}

static int mutex_lock_interruptible(struct mutex *mutex)
{
	return pthread_mutex_lock(&mutex->inner);
}

static void mutex_unlock(struct mutex *mutex)
{
	pthread_mutex_unlock(&mutex->inner);
}

/* The part that couldn't be copied: all of it where there is no place for it. */
static size_t copy_to_user(char *to, const char *from, size_t bytes)
{
	if (!to)
		return bytes;
	memcpy(to, from, bytes);
	return 0;
}

static int simple_open(void)
{
	return 0;
}

static struct file pe0, closing;
static const struct file_operations *of_pe0, *of_closing;

static struct dentry *debugfs_create_dir(const char *name, struct dentry *parent)
{
	(void)name;
	return parent;
}

static void debugfs_create_file(const char *name, int mode, struct dentry *parent, void *data, const struct file_operations *fops)
{
	struct file *file = !strcmp(name, "pe0") ? &pe0 : !strcmp(name, "close") ? &closing : NULL;

	(void)mode, (void)parent;
	if (file)
		file->private_data = data;
	of_pe0 = file == &pe0 ? fops : of_pe0;
	of_closing = file == &closing ? fops : of_closing;
}

static void debugfs_remove(struct dentry *directory)
{
	(void)directory;
}

static void *vmalloc(size_t bytes)
{
	return calloc(1, bytes);
}

static void vfree(void *at)
{
	free(at);
}

static void *phys_to_virt(uint64_t address)
{
	return (void *)(uintptr_t)address;
}

static unsigned int raw_smp_processor_id(void)
{
	return 0;
}

#include "linux_module.c"

enum { EVENTS = 400000, ROOM = 4096, LITTLE_ROOM = 7 };

static bool is_over;

struct reading {
	FILE *out;
	size_t room;
	pthread_t thread;
};

/* Reads once. Whether there was something. */
static bool read_once(struct reading *reading)
{
	char text[ROOM];
	ssize_t got = of_pe0->read(&pe0, text, reading->room, NULL);

	if (got < 0 || fwrite(text, 1, (size_t)got, reading->out) != (size_t)got)
		exit(1);
	return got > 0;
}

static void *keep_reading(void *reading)
{
	while (!__atomic_load_n(&is_over, __ATOMIC_ACQUIRE))
		read_once(reading);
	return NULL;
}

static void log_events(void)
{
	int i;

	for (i = 0; i < EVENTS; i++) {
		while (__atomic_load_n(&buffers[0].next, __ATOMIC_ACQUIRE) - __atomic_load_n(&buffers[0].read, __ATOMIC_ACQUIRE) > SLOTS / 2)
			sched_yield();
		bbm_isb(&buffers[0], BBM_NO_LABEL);
	}
}

int main(int argc, char **argv)
{
	struct reading readings[2];
	char path[512];
	int i;

	if (argc != 2 || start())
		return 1;
	for (i = 0; i < 2; i++) {
		snprintf(path, sizeof path, "%s/%d.text", argv[1], i);
		readings[i] = (struct reading){.out = fopen(path, "w"), .room = ROOM};
		pthread_create(&readings[i].thread, NULL, keep_reading, &readings[i]);
	}
	log_events();
	__atomic_store_n(&is_over, true, __ATOMIC_RELEASE);
	for (i = 0; i < 2; i++)
		pthread_join(readings[i].thread, NULL);
	of_closing->write(&closing, "", 1, NULL);
	if (of_pe0->read(&pe0, NULL, ROOM, NULL) != -EFAULT)
		return 1;
	readings[0].room = LITTLE_ROOM;
	while (read_once(&readings[0])) {}
	stop();
	return fclose(readings[0].out) || fclose(readings[1].out);
}
