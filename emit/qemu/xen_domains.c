// SPDX-License-Identifier: Apache-2.0 OR GPL-2.0-or-later
/* The init of a dom0 of Xen 4.17: makes domains by libxenctrl, so that Xen maintains their stage 2, and powers off.
 *
 *     guest-loader,addr=..,kernel=..,bootargs=console=hvc0 .. domains=TURNS
 *
 * In each of TURNS, 4 unless given, there are two at once, of which one powers off and the other is destroyed while it
 * runs. Pages are taken from both, and given again. Linux hands what it doesn't know of its command line on as the
 * environment, so domains=.. is read from there. The module of /dev/xen/privcmd has to be /bin/xen-privcmd.ko. */
#define XC_WANT_COMPAT_MAP_FOREIGN_API
#include <errno.h>
#include <fcntl.h>
#include <stdbool.h>
#include <stdio.h>
#include <stdlib.h>
#include <string.h>
#include <sys/mman.h>
#include <sys/mount.h>
#include <sys/reboot.h>
#include <sys/syscall.h>
#include <unistd.h>
#include <xencall.h>
#include <xenctrl.h>

enum { PAGES = 96, FIRST = 0x40000, STORED_TO = 32 }; /* the page of number FIRST has the code, and is the first */
static xc_interface *xen;

/* Stores to x1 pages from x0 on, x2 times, and powers off; where x2 is 0, for ever. */
extern const char domain_code[], domain_code_end[];
__asm__(".pushsection .rodata; .globl domain_code, domain_code_end\n"
	"domain_code: 1: mov x5, x0; mov x6, x1\n"
	"2: str x5, [x5]; add x5, x5, #4096; subs x6, x6, #1; b.ne 2b\n"
	"subs x2, x2, #1; b.ne 1b\n"
	"mov x0, #8; movk x0, #0x8400, lsl #16; hvc #0; b .\n"
	"domain_code_end: .popsection");

static _Noreturn void power_off(void)
{
	reboot(RB_POWER_OFF);
	_exit(1);
}

static void need(bool is_right, const char *what)
{
	if (is_right)
		return;
	printf("xen_domains: %s: %s\n", what, strerror(errno));
	power_off();
}

static void prepare(void)
{
	setvbuf(stdout, NULL, _IONBF, 0);
	need(!mount("dev", "/dev", "devtmpfs", 0, NULL), "/dev");
	need(!syscall(SYS_finit_module, open("/bin/xen-privcmd.ko", O_RDONLY), "", 0), "xen-privcmd.ko");
	xen = xc_interface_open(NULL, NULL, 0);
	need(xen != NULL, "xc_interface_open");
}

/* A domain has 32 bits unless this is said, and libxenctrl has no call for it. */
static void set_64_bits(uint32_t domain)
{
	xencall_handle *call = xencall_open(NULL, 0);
	struct xen_domctl *control = xencall_alloc_buffer(call, sizeof *control);
	memset(control, 0, sizeof *control);
	control->cmd = XEN_DOMCTL_set_address_size;
	control->interface_version = XEN_DOMCTL_INTERFACE_VERSION;
	control->domain = (domid_t)domain;
	control->u.address_size.size = 64;
	need(!xencall1(call, __HYPERVISOR_domctl, (uintptr_t)control), "set_address_size");
	xencall_free_buffer(call, control);
	xencall_close(call);
}

/* Gives a domain pages, or takes them away. */
static void change_pages(uint32_t domain, unsigned first, unsigned count, bool give)
{
	xen_pfn_t pages[PAGES];
	for (unsigned i = 0; i < count; i++)
		pages[i] = FIRST + first + i;
	need(!(give ? xc_domain_populate_physmap_exact(xen, domain, count, 0, 0, pages)
		    : xc_domain_decrease_reservation_exact(xen, domain, count, 0, pages)), give ? "give pages" : "take pages");
}

static void start(uint32_t domain, unsigned turns)
{
	static vcpu_guest_context_any_t context;
	char *code = xc_map_foreign_range(xen, domain, XC_PAGE_SIZE, PROT_READ | PROT_WRITE, FIRST);
	need(code != NULL, "xc_map_foreign_range");
	memcpy(code, domain_code, (size_t)(domain_code_end - domain_code));
	munmap(code, XC_PAGE_SIZE);
	context.c.flags = VGCF_online;
	context.c.sctlr = SCTLR_GUEST_INIT;
	context.c.user_regs.cpsr = PSR_GUEST64_INIT;
	context.c.user_regs.pc64 = (uint64_t)FIRST << XC_PAGE_SHIFT;
	context.c.user_regs.x0 = (uint64_t)(FIRST + 1) << XC_PAGE_SHIFT;
	context.c.user_regs.x1 = STORED_TO;
	context.c.user_regs.x2 = turns;
	need(!xc_vcpu_setcontext(xen, domain, 0, &context), "xc_vcpu_setcontext");
	need(!xc_domain_unpause(xen, domain), "xc_domain_unpause");
}

static uint32_t make_domain(void)
{
	struct xen_domctl_createdomain config = {
		.flags = XEN_DOMCTL_CDF_hvm | XEN_DOMCTL_CDF_hap, .max_vcpus = 1, .max_evtchn_port = 127, .max_grant_frames = 4,
		.grant_opts = XEN_DOMCTL_GRANT_version(1),
		.arch = {.gic_version = XEN_DOMCTL_CONFIG_GIC_NATIVE, .tee_type = XEN_DOMCTL_CONFIG_TEE_NONE},
	};
	uint32_t domain = 0;
	need(!xc_domain_create(xen, &domain, &config), "xc_domain_create");
	need(!xc_domain_max_vcpus(xen, domain, 1), "xc_domain_max_vcpus");
	set_64_bits(domain);
	need(!xc_domain_setmaxmem(xen, domain, 8 * 1024), "xc_domain_setmaxmem");
	need(!xc_set_paging_mempool_size(xen, domain, 1 << 20), "xc_set_paging_mempool_size");
	change_pages(domain, 0, PAGES, true);
	return domain;
}

static void wait_for_power_off(uint32_t domain)
{
	xc_dominfo_t about = {0};
	for (int i = 0; i < 2000 && !about.shutdown; i++) {
		need(xc_domain_getinfo(xen, domain, 1, &about) == 1 && about.domid == domain, "xc_domain_getinfo");
		usleep(10000);
	}
	need(about.shutdown, "the domain doesn't power off");
}

static void take_and_give(uint32_t domain)
{
	change_pages(domain, 2 * STORED_TO, 16, false);
	change_pages(domain, 2 * STORED_TO, 8, true);
}

int main(void)
{
	int turns = getenv("domains") ? atoi(getenv("domains")) : 4;
	prepare();
	for (int i = 0; i < turns; i++) {
		uint32_t one = make_domain(), other = make_domain();
		printf("xen_domains: %u, %u\n", one, other);
		start(one, 2), start(other, 0);
		take_and_give(other);
		wait_for_power_off(one);
		take_and_give(one);
		need(!xc_domain_destroy(xen, one) && !xc_domain_destroy(xen, other), "xc_domain_destroy");
	}
	puts("xen_domains: done");
	power_off();
}
