// SPDX-License-Identifier: Apache-2.0 OR GPL-2.0-or-later
/* A virtual machine monitor for an initrd, whose one guest of KVM is a Linux: it boots, and ends when that powers off.
 *
 *     linux_guest IMAGE DTB INITRD
 *
 * The guest has two PEs and 128 MiB, at the addresses of linux_guest.dts. What it writes to its UART is printed. */
#define _GNU_SOURCE
#include <errno.h>
#include <fcntl.h>
#include <linux/kvm.h>
#include <pthread.h>
#include <stdbool.h>
#include <stddef.h>
#include <stdint.h>
#include <stdio.h>
#include <stdlib.h>
#include <string.h>
#include <sys/ioctl.h>
#include <sys/mman.h>
#include <unistd.h>

enum { PES = 2, INTERRUPTS = 64, BLOCK = 2 * 1024 * 1024, MEMORY = 128 * 1024 * 1024 };
enum { DISTRIBUTOR_AT = 0x8000000, REDISTRIBUTORS_AT = 0x80a0000, UART_AT = 0x9000000, MEMORY_AT = 0x40000000 };
enum { INITRD_AT = 0x44000000, DTB_AT = 0x47f00000 };
enum { UART_FLAGS = 0x18, UART_IS_EMPTY = 0x90 };

static char *memory;
static size_t run_bytes;

static void need(bool is_right, const char *what)
{
	if (!is_right)
		exit(printf("linux_guest: %s: %s\n", what, strerror(errno)) > 0);
}

static void new_memory(void)
{
	memory = mmap(NULL, MEMORY + BLOCK, PROT_READ | PROT_WRITE, MAP_PRIVATE | MAP_ANONYMOUS | MAP_NORESERVE, -1, 0);
	need(memory != MAP_FAILED, "mmap");
	memory += -(uintptr_t)memory % BLOCK;
	madvise(memory, MEMORY, MADV_HUGEPAGE);
}

static void load(const char *path, uint64_t at)
{
	int file = open(path, O_RDONLY | O_CLOEXEC);
	char *to = memory + (at - MEMORY_AT);
	ssize_t count;

	need(file >= 0, path);
	while ((count = read(file, to, memory + MEMORY - to)) > 0)
		to += count;
	need(!count, path);
	close(file);
}

static void set_register(int pe, size_t offset, uint64_t value)
{
	uint64_t id = KVM_REG_ARM64 | KVM_REG_SIZE_U64 | KVM_REG_ARM_CORE | offset / sizeof(uint32_t);
	struct kvm_one_reg one = {id, (uintptr_t)&value};

	need(!ioctl(pe, KVM_SET_ONE_REG, &one), "KVM_SET_ONE_REG");
}

static void set_attribute(int device, uint32_t group, uint64_t attribute, const void *value)
{
	struct kvm_device_attr one = {.group = group, .attr = attribute, .addr = (uintptr_t)value};

	need(!ioctl(device, KVM_SET_DEVICE_ATTR, &one), "KVM_SET_DEVICE_ATTR");
}

static void make_interrupt_controller(int vm)
{
	const uint64_t distributor = DISTRIBUTOR_AT, redistributors = REDISTRIBUTORS_AT;
	const uint32_t interrupts = INTERRUPTS;
	struct kvm_create_device made = {.type = KVM_DEV_TYPE_ARM_VGIC_V3};

	need(!ioctl(vm, KVM_CREATE_DEVICE, &made), "KVM_CREATE_DEVICE");
	set_attribute(made.fd, KVM_DEV_ARM_VGIC_GRP_ADDR, KVM_VGIC_V3_ADDR_TYPE_DIST, &distributor);
	set_attribute(made.fd, KVM_DEV_ARM_VGIC_GRP_ADDR, KVM_VGIC_V3_ADDR_TYPE_REDIST, &redistributors);
	set_attribute(made.fd, KVM_DEV_ARM_VGIC_GRP_NR_IRQS, 0, &interrupts);
	set_attribute(made.fd, KVM_DEV_ARM_VGIC_GRP_CTRL, KVM_DEV_ARM_VGIC_CTRL_INIT, NULL);
}

/* All but the first begin powered off. */
static int make_pe(int vm, unsigned number)
{
	struct kvm_vcpu_init init;
	int pe = ioctl(vm, KVM_CREATE_VCPU, (unsigned long)number);

	need(pe >= 0, "KVM_CREATE_VCPU");
	need(!ioctl(vm, KVM_ARM_PREFERRED_TARGET, &init), "KVM_ARM_PREFERRED_TARGET");
	init.features[0] = 1u << KVM_ARM_VCPU_PSCI_0_2 | (number ? 1u << KVM_ARM_VCPU_POWER_OFF : 0);
	need(!ioctl(pe, KVM_ARM_VCPU_INIT, &init), "KVM_ARM_VCPU_INIT");
	return pe;
}

static void take_access(struct kvm_run *run)
{
	uint64_t value = run->mmio.phys_addr == UART_AT + UART_FLAGS ? UART_IS_EMPTY : 0;

	if (!run->mmio.is_write)
		memcpy(run->mmio.data, &value, sizeof value);
	else if (run->mmio.phys_addr == UART_AT)
		putchar(run->mmio.data[0]);
}

static void *run_pe(void *file)
{
	int pe = (int)(intptr_t)file;
	struct kvm_run *run = mmap(NULL, run_bytes, PROT_READ | PROT_WRITE, MAP_SHARED, pe, 0);

	need(run != MAP_FAILED, "mmap of a PE");
	for (;;) {
		if (ioctl(pe, KVM_RUN, 0ul)) {
			need(errno == EINTR || errno == EAGAIN, "KVM_RUN");
			continue;
		}
		if (run->exit_reason != KVM_EXIT_MMIO)
			break;
		take_access(run);
	}
	printf("linux_guest: %s\n", run->exit_reason == KVM_EXIT_SYSTEM_EVENT ? "powered off" : "another exit");
	exit(run->exit_reason != KVM_EXIT_SYSTEM_EVENT);
}

int main(int argc, char **argv)
{
	struct kvm_userspace_memory_region region = {.guest_phys_addr = MEMORY_AT, .memory_size = MEMORY};
	int kvm = open("/dev/kvm", O_RDWR | O_CLOEXEC), vm, pes[PES], i;
	pthread_t threads[PES];

	if (argc != 4)
		return printf("linux_guest: IMAGE DTB INITRD are needed\n") > 0;
	vm = ioctl(kvm, KVM_CREATE_VM, 0ul);
	need(vm >= 0, "KVM_CREATE_VM");
	run_bytes = ioctl(kvm, KVM_GET_VCPU_MMAP_SIZE, 0ul);
	new_memory();
	load(argv[1], MEMORY_AT);
	load(argv[2], DTB_AT);
	load(argv[3], INITRD_AT);
	region.userspace_addr = (uintptr_t)memory;
	need(!ioctl(vm, KVM_SET_USER_MEMORY_REGION, &region), "KVM_SET_USER_MEMORY_REGION");
	for (i = 0; i < PES; i++)
		pes[i] = make_pe(vm, i);
	make_interrupt_controller(vm);
	set_register(pes[0], offsetof(struct kvm_regs, regs.pc), MEMORY_AT);
	set_register(pes[0], offsetof(struct kvm_regs, regs.regs[0]), DTB_AT);
	for (i = 0; i < PES; i++)
		pthread_create(&threads[i], NULL, run_pe, (void *)(intptr_t)pes[i]);
	for (i = 0; i < PES; i++)
		pthread_join(threads[i], NULL);
	return 0;
}
