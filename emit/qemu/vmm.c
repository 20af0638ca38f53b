// SPDX-License-Identifier: Apache-2.0 OR GPL-2.0-or-later
/* A small virtual machine monitor for an initrd: by its guests KVM maintains stage 2.
 *
 *     emit/qemu/run hyp KERNEL INITRD --append vmm=SCENARIO[:TURNS],..
 *
 * Linux hands what it doesn't know of its command line on as the environment, so vmm=.. is read from there; without it
 * each scenario is run. A guest has one PE, with its MMU off. It is given some addresses to load from or to store to,
 * does so, and then stores where no memory is, which ends the run. */
#define _GNU_SOURCE
#include <errno.h>
#include <fcntl.h>
#include <linux/kvm.h>
#include <sched.h>
#include <stdbool.h>
#include <stddef.h>
#include <stdint.h>
#include <stdio.h>
#include <stdlib.h>
#include <string.h>
#include <sys/ioctl.h>
#include <sys/mman.h>
#include <sys/wait.h>
#include <unistd.h>

#define PAGE UINT64_C(4096)
#define BLOCK (2 * 1024 * 1024)
enum { CODE, DATA, MORE };                                    /* the slots of memory */
enum { EXIT_AT = 0x1000, CODE_AT = 0x10000, DATA_AT = 0x40000000, MORE_AT = 0x48000000 };
enum access { LOAD, STORE };

/* x0 address, x1 how many, x2 how far apart, x3 whether to store, x4 where a store ends the run. */
extern const char guest_code[], guest_code_end[];
__asm__(".pushsection .rodata; .globl guest_code, guest_code_end\n"
	"guest_code: 1: cbz x1, 4f; cbz x3, 2f; str x1, [x0]; b 3f\n"
	"2: ldr x5, [x0]\n"
	"3: add x0, x0, x2; sub x1, x1, #1; b 1b\n"
	"4: str xzr, [x4]; b 1b\n"
	"guest_code_end: .popsection");

struct guest {
	int vm, pe;
	struct kvm_run *run;
	char *code, *data;
	size_t bytes, run_bytes; /* of data, and of run */
};

static void need(bool is_right, const char *what)
{
	if (!is_right)
		exit(printf("vmm: %s: %s\n", what, strerror(errno)) > 0);
}

/* Zeroed memory that begins at a boundary of a block, in huge pages where that is wished. */
static char *new_memory(size_t bytes, bool huge)
{
	char *at = mmap(NULL, bytes + BLOCK, PROT_READ | PROT_WRITE, MAP_PRIVATE | MAP_ANONYMOUS, -1, 0);
	need(at != MAP_FAILED, "mmap");
	at += -(uintptr_t)at % BLOCK;
	madvise(at, bytes, huge ? MADV_HUGEPAGE : MADV_NOHUGEPAGE);
	return at;
}

/* Makes a slot, changes it, or with 0 bytes takes it away. */
static void set_slot(const struct guest *guest, unsigned slot, uint64_t at, char *memory, size_t bytes, unsigned flags)
{
	struct kvm_userspace_memory_region region = {slot, flags, at, bytes, (uintptr_t)memory};
	need(!ioctl(guest->vm, KVM_SET_USER_MEMORY_REGION, &region), "KVM_SET_USER_MEMORY_REGION");
}

static void set_register(const struct guest *guest, size_t offset, uint64_t value)
{
	uint64_t id = KVM_REG_ARM64 | KVM_REG_SIZE_U64 | KVM_REG_ARM_CORE | offset / sizeof(uint32_t);
	struct kvm_one_reg one = {id, (uintptr_t)&value};
	need(!ioctl(guest->pe, KVM_SET_ONE_REG, &one), "KVM_SET_ONE_REG");
}

static struct guest begin(size_t bytes, bool huge)
{
	int kvm = open("/dev/kvm", O_RDWR | O_CLOEXEC);
	struct guest guest = {.vm = ioctl(kvm, KVM_CREATE_VM, 0ul), .bytes = bytes};
	struct kvm_vcpu_init init;
	need(guest.vm >= 0 && !ioctl(guest.vm, KVM_ARM_PREFERRED_TARGET, &init), "KVM_CREATE_VM");
	guest.pe = ioctl(guest.vm, KVM_CREATE_VCPU, 0ul);
	need(guest.pe >= 0 && !ioctl(guest.pe, KVM_ARM_VCPU_INIT, &init), "KVM_CREATE_VCPU");
	guest.run_bytes = (size_t)ioctl(kvm, KVM_GET_VCPU_MMAP_SIZE, 0ul);
	close(kvm);
	guest.run = mmap(NULL, guest.run_bytes, PROT_READ | PROT_WRITE, MAP_SHARED, guest.pe, 0);
	need(guest.run != MAP_FAILED, "the PE's page");
	guest.code = new_memory(PAGE, false);
	memcpy(guest.code, guest_code, (size_t)(guest_code_end - guest_code));
	__builtin___clear_cache(guest.code, guest.code + PAGE);
	set_slot(&guest, CODE, CODE_AT, guest.code, PAGE, 0);
	guest.data = new_memory(bytes, huge);
	set_slot(&guest, DATA, DATA_AT, guest.data, bytes, 0);
	set_register(&guest, offsetof(struct kvm_regs, regs.pc), CODE_AT);
	set_register(&guest, offsetof(struct kvm_regs, regs.regs[4]), EXIT_AT);
	return guest;
}

static void end(struct guest *guest)
{
	munmap(guest->run, guest->run_bytes);
	munmap(guest->code, PAGE);
	munmap(guest->data, guest->bytes);
	close(guest->pe), close(guest->vm);
}

/* Lets the guest make some accesses. */
static void visit(const struct guest *guest, uint64_t from, unsigned count, uint64_t apart, enum access access)
{
	const uint64_t values[] = {from, count, apart, access};
	for (unsigned i = 0; i < 4; i++)
		set_register(guest, offsetof(struct kvm_regs, regs.regs[0]) + i * sizeof *values, values[i]);
	while (ioctl(guest->pe, KVM_RUN, 0ul))
		need(errno == EINTR || errno == EAGAIN, "KVM_RUN");
	need(guest->run->exit_reason == KVM_EXIT_MMIO && guest->run->mmio.phys_addr == EXIT_AT, "the guest's exit");
}

static void run_on(unsigned pe)
{
	cpu_set_t set = {{1ul << pe}};
	sched_setaffinity(0, sizeof set, &set); /* there may be no such PE */
}

/* A guest that goes from one PE to the other. */
static void one(int turns)
{
	struct guest guest = begin(64 * PAGE, false);
	for (int i = 0; i < turns; i++) {
		run_on(i % 2);
		visit(&guest, DATA_AT + (uint64_t)i % 5 * 8 * PAGE, 24, PAGE, i % 3 ? STORE : LOAD);
	}
	end(&guest);
}

/* Slots that come, go, move and can't be written, while the guest lives. */
static void slots(int turns)
{
	struct guest guest = begin(16 * PAGE, false);
	char *more = new_memory(16 * PAGE, false);
	for (int i = 0; i < turns; i++) {
		visit(&guest, DATA_AT, 16, PAGE, STORE);
		set_slot(&guest, MORE, MORE_AT, more, 16 * PAGE, 0);
		visit(&guest, MORE_AT, 16, PAGE, STORE);
		set_slot(&guest, DATA, DATA_AT + 2 * BLOCK, guest.data, 16 * PAGE, 0);
		visit(&guest, DATA_AT + 2 * BLOCK, 16, PAGE, STORE);
		set_slot(&guest, MORE, MORE_AT, more, 0, 0);
		set_slot(&guest, MORE, DATA_AT, more, 16 * PAGE, KVM_MEM_READONLY);
		visit(&guest, DATA_AT, 16, PAGE, LOAD);
		set_slot(&guest, MORE, DATA_AT, more, 0, 0);
		set_slot(&guest, DATA, DATA_AT, guest.data, 16 * PAGE, 0);
	}
	end(&guest);
}

/* Dirty logging splits blocks, protects pages, and lets blocks come again. */
static void dirty(int turns)
{
	static uint64_t bitmap[2 * BLOCK / 4096 / 64];
	struct kvm_dirty_log log = {.slot = DATA, .dirty_bitmap = bitmap};
	struct guest guest = begin(2 * BLOCK, true);
	memset(guest.data, 1, guest.bytes);
	for (int i = 0; i < turns; i++) {
		visit(&guest, DATA_AT, 8, BLOCK / 4, STORE);
		set_slot(&guest, DATA, DATA_AT, guest.data, guest.bytes, KVM_MEM_LOG_DIRTY_PAGES);
		visit(&guest, DATA_AT, 32, 3 * PAGE, STORE);
		need(!ioctl(guest.vm, KVM_GET_DIRTY_LOG, &log), "KVM_GET_DIRTY_LOG");
		visit(&guest, DATA_AT, 32, PAGE, STORE);
		set_slot(&guest, DATA, DATA_AT, guest.data, guest.bytes, 0);
	}
	end(&guest);
}

/* The host takes pages and blocks away, splits a block, and copies pages on write. */
static void dontneed(int turns)
{
	struct guest guest = begin(2 * BLOCK, true);
	madvise(guest.data + BLOCK, BLOCK, MADV_NOHUGEPAGE);
	for (int i = 0; i < turns; i++) {
		visit(&guest, DATA_AT, 4, BLOCK / 4, STORE);
		visit(&guest, DATA_AT + BLOCK, 32, PAGE, STORE);
		madvise(guest.data + BLOCK + 4 * PAGE, 8 * PAGE, MADV_DONTNEED);
		madvise(guest.data + i % 2 * BLOCK / 2, i % 2 ? 4 * PAGE : BLOCK, MADV_DONTNEED);
		visit(&guest, DATA_AT + BLOCK, 32, PAGE, LOAD);
		if (fork() == 0)
			_exit(0);
		wait(NULL);
		visit(&guest, DATA_AT + BLOCK, 8, PAGE, STORE);
	}
	end(&guest);
}

/* Guests one after another, so that VMIDs run out, while another lives on. */
static void many(int turns)
{
	struct guest lasting = begin(64 * PAGE, false), guest;
	for (int i = 0; i < turns; i++) {
		guest = begin(4 * PAGE, false);
		visit(&guest, DATA_AT, 4, PAGE, STORE);
		visit(&lasting, DATA_AT + (uint64_t)i % 60 * PAGE, 4, PAGE, i % 2 ? STORE : LOAD);
		end(&guest);
	}
	end(&lasting);
}

/* Four processes at once that end by exit and by a signal, with their guests open. */
static void work(int which, int turns)
{
	run_on(which % 2);
	for (int i = 0; i < turns; i++) {
		struct guest guest = begin(2 * BLOCK, which % 2);
		visit(&guest, DATA_AT, 64, (uint64_t)(i % 7 + 1) * PAGE, STORE);
		madvise(guest.data + i % 9 * 16 * PAGE, 24 * PAGE, MADV_DONTNEED);
		visit(&guest, DATA_AT, 32, (uint64_t)(i % 5 + 1) * PAGE, LOAD);
		if (i % 3)
			end(&guest);
	}
	if (which / 2)
		abort();
	_exit(0);
}

static void stress(int turns)
{
	for (int i = 0; i < 4; i++)
		if (fork() == 0)
			work(i, turns);
	while (wait(NULL) > 0) {}
}

int main(void)
{
	static const struct { const char *name; void (*run)(int); int turns; } scenarios[] = {
		{"one", one, 6}, {"slots", slots, 2}, {"dirty", dirty, 2}, {"dontneed", dontneed, 3}, {"many", many, 8},
		{"stress", stress, 5},
	};
	const size_t count = sizeof scenarios / sizeof *scenarios;
	char all[] = "one,slots,dirty,dontneed,many,stress", *name = strtok(getenv("vmm") ? getenv("vmm") : all, ",");

	for (; name; name = strtok(NULL, ",")) {
		size_t length = strcspn(name, ":"), i = 0;
		while (i < count && (strncmp(name, scenarios[i].name, length) || scenarios[i].name[length]))
			i++;
		need(i < count, name);
		scenarios[i].run(name[length] ? atoi(name + length + 1) : scenarios[i].turns);
	}
	puts("vmm: done");
	return 0;
}
