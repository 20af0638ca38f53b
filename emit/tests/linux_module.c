// SPDX-License-Identifier: Apache-2.0 OR GPL-2.0-or-later
/*
 * A module for Linux that has a buffer for each CPU, logs the tables below an address, and gives
 * the lines out by debugfs: the files bbm/pe0, bbm/pe1 and so on, and bbm/close, a write of which
 * ends the log.
 */
#include <linux/debugfs.h>
#include <linux/fs.h>
#include <linux/io.h>
#include <linux/module.h>
#include <linux/mutex.h>
#include <linux/smp.h>
#include <linux/uaccess.h>
#include <linux/vmalloc.h>

#include "bbm_emit.h"

#define SLOTS 16384

static struct bbm_tickets tickets;
static struct bbm_buffer buffers[BBM_PES];
static struct dentry *directory;
static bool is_open; /* each buffer is */

/* What was read of a buffer and isn't given out yet. A buffer has one reader at a time. */
static struct bbm_reader {
	struct bbm_buffer *buffer;
	struct mutex lock;
	char text[4 * BBM_LINE_BYTES];
	size_t from, to;
} readers[BBM_PES];

static ulong root;
module_param(root, ulong, 0400);
MODULE_PARM_DESC(root, "the physical address of the first page of a root of TTBR1_EL1, or 0");

static ssize_t bbm_file_read(struct file *file, char __user *to, size_t room, loff_t *at)
{
	struct bbm_reader *reader = file->private_data;
	size_t given, failed;

	if (mutex_lock_interruptible(&reader->lock))
		return -ERESTARTSYS;
	if (reader->from == reader->to) {
		reader->from = 0;
		reader->to = bbm_read(reader->buffer, reader->text, sizeof(reader->text));
	}
	given = min(room, reader->to - reader->from);
	failed = copy_to_user(to, reader->text + reader->from, given);
	reader->from += given - failed;
	mutex_unlock(&reader->lock);
	return failed && failed == given ? -EFAULT : (ssize_t)(given - failed);
}

static const struct file_operations bbm_file = {
	.owner = THIS_MODULE,
	.open = simple_open,
	.read = bbm_file_read,
};

static ssize_t bbm_close_write(struct file *file, const char __user *from, size_t bytes,
			       loff_t *at)
{
	unsigned int pe;

	for (pe = 0; pe < BBM_PES; pe++)
		if (buffers[pe].slots)
			bbm_close(&buffers[pe]);
	return bytes;
}

static const struct file_operations bbm_close_file = {
	.owner = THIS_MODULE,
	.write = bbm_close_write,
};

static int read_descriptor(void *context, uint64_t place, uint64_t *value)
{
	*value = READ_ONCE(*(uint64_t *)phys_to_virt(place));
	return 0;
}

static int log_tables(void)
{
	const struct bbm_tree tree = {
		.kind = BBM_TTBR1,
		.lock = BBM_NO_LOCK,
		.page = root,
		.pages = 1,
		.start = 0,
		.descriptor = read_descriptor,
	};

	return root ? bbm_tree(&buffers[raw_smp_processor_id()], &tree, BBM_HERE) : 0;
}

static void remove_all(void)
{
	unsigned int pe;

	debugfs_remove(directory);
	for (pe = 0; pe < BBM_PES; pe++)
		vfree(buffers[pe].slots);
}

static int __init bbm_start(void)
{
	unsigned int pe;
	char name[8];

	directory = debugfs_create_dir("bbm", NULL);
	debugfs_create_file("close", 0200, directory, NULL, &bbm_close_file);
	for_each_possible_cpu(pe) {
		struct bbm_slot *slots = pe < BBM_PES ? vmalloc(SLOTS * sizeof(*slots)) : NULL;

		if (!slots) {
			remove_all();
			return -ENOMEM;
		}
		bbm_open(&buffers[pe], &tickets, slots, SLOTS, pe);
		mutex_init(&readers[pe].lock);
		readers[pe].buffer = &buffers[pe];
		snprintf(name, sizeof(name), "pe%u", pe);
		debugfs_create_file(name, 0400, directory, &readers[pe], &bbm_file);
	}
	/* Whoever sees it sees the buffers as they are now. */
	smp_store_release(&is_open, true);
	return log_tables();
}

static void __exit bbm_stop(void)
{
	remove_all();
}

module_init(bbm_start);
module_exit(bbm_stop);
MODULE_DESCRIPTION("Keeps the events of a bbm log");
MODULE_LICENSE("Dual MIT/GPL");
