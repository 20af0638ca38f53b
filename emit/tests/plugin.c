// SPDX-License-Identifier: Apache-2.0 OR GPL-2.0-or-later
/* QEMU's plugin with a QEMU of a few lines around it: what it says at the end of a trace, and where it looks for the guest's
 * memory from several PEs at once.
 *
 *     plugin TRACE      makes the trace of a few instructions
 */
#include "../qemu/bbm_trace.c"

enum { RAM_BYTES = 1 << 20, PLACE = 0x40000000, CALLBACKS = 8, INSNS = 2, SEEKERS = 8 };
enum { DC_ZVA_X0 = 0xd50b7420, NOP = 0xd503201f, MSR_TTBR0_EL1_X0 = 0xd5182000, MSR_HCR_EL2_X0 = 0xd51c1100 };
enum { MSR_VTTBR_EL2_X0 = 0xd51c2100, AT_EL1 = 5, AT_EL2 = 9 };

/* ---- a QEMU that runs a block of two instructions */

struct qemu_plugin_insn {
	uint32_t word;
	qemu_plugin_vcpu_udata_cb_t callbacks[CALLBACKS];
	void *sites[CALLBACKS];
	unsigned count;
};

static struct qemu_plugin_insn block[INSNS];
static qemu_plugin_vcpu_tb_trans_cb_t translate_block;
static qemu_plugin_vcpu_simple_cb_t begin_pe;
static qemu_plugin_udata_cb_t end_all;
static struct flags score;
static char *ram_of_qemu;

/* The registers, by their names: the MMU of EL1 is on, with tables of 4 KiB, and its root is the empty page at PLACE. Stage 2
 * of 4 KiB starts at level 1, and is off. */
struct qemu_plugin_register {
	const char *name;
	uint64_t value;
};

static struct qemu_plugin_register registers[] = {
	{ "cpsr", AT_EL1 }, { "x0", 0 }, { "SCTLR", 1 }, { "TCR_EL1", 0x80100010 }, { "TTBR0_EL1", PLACE }, { "HCR_EL2", 0 },
	{ "VTCR_EL2", 0x80023559 },
};
enum { CPSR_AT, X0_AT, HCR_AT = 5 };

GByteArray *g_byte_array_new(void)
{
	return calloc(1, sizeof(GByteArray));
}

GByteArray *g_byte_array_set_size(GByteArray *array, unsigned length)
{
	array->len = length;
	return array;
}

GArray *qemu_plugin_get_registers(void)
{
	enum { COUNT = sizeof registers / sizeof *registers };
	static qemu_plugin_reg_descriptor all[COUNT];
	static GArray array = { (char *)all, COUNT };
	unsigned i;

	for (i = 0; i < COUNT; i++)
		all[i] = (qemu_plugin_reg_descriptor){ &registers[i], registers[i].name, "" };
	return &array;
}

int qemu_plugin_read_register(struct qemu_plugin_register *handle, GByteArray *bytes)
{
	bytes->data = (uint8_t *)&handle->value;
	bytes->len = sizeof handle->value;
	return 8;
}

void qemu_plugin_register_vcpu_init_cb(qemu_plugin_id_t id, qemu_plugin_vcpu_simple_cb_t cb)
{
	(void)id;
	begin_pe = cb;
}

void qemu_plugin_register_vcpu_tb_trans_cb(qemu_plugin_id_t id, qemu_plugin_vcpu_tb_trans_cb_t cb)
{
	(void)id;
	translate_block = cb;
}

void qemu_plugin_register_atexit_cb(qemu_plugin_id_t id, qemu_plugin_udata_cb_t cb, void *data)
{
	(void)id, (void)data;
	end_all = cb;
}

size_t qemu_plugin_tb_n_insns(const struct qemu_plugin_tb *tb)
{
	(void)tb;
	return INSNS;
}

struct qemu_plugin_insn *qemu_plugin_tb_get_insn(const struct qemu_plugin_tb *tb, size_t index)
{
	(void)tb;
	return &block[index];
}

size_t qemu_plugin_insn_data(const struct qemu_plugin_insn *insn, void *bytes, size_t length)
{
	memcpy(bytes, &insn->word, length);
	return length;
}

uint64_t qemu_plugin_insn_vaddr(const struct qemu_plugin_insn *insn)
{
	return PLACE + 4 * (uint64_t)(insn - block);
}

void *qemu_plugin_insn_haddr(const struct qemu_plugin_insn *insn)
{
	return ram_of_qemu + 4 * (insn - block);
}

void qemu_plugin_register_vcpu_insn_exec_cb(struct qemu_plugin_insn *insn, qemu_plugin_vcpu_udata_cb_t cb,
					    enum qemu_plugin_cb_flags flags, void *data)
{
	(void)flags;
	insn->callbacks[insn->count] = cb;
	insn->sites[insn->count++] = data;
}

void qemu_plugin_register_vcpu_mem_cb(struct qemu_plugin_insn *insn, qemu_plugin_vcpu_mem_cb_t cb, enum qemu_plugin_cb_flags flags,
				      enum qemu_plugin_mem_rw rw, void *data)
{
	(void)insn, (void)cb, (void)flags, (void)rw, (void)data;
}

void qemu_plugin_register_vcpu_tb_exec_cond_cb(struct qemu_plugin_tb *tb, qemu_plugin_vcpu_udata_cb_t cb, enum qemu_plugin_cb_flags flags,
					       enum qemu_plugin_cond cond, qemu_plugin_u64 entry, uint64_t value, void *data)
{
	(void)tb, (void)cb, (void)flags, (void)cond, (void)entry, (void)value, (void)data;
}

void qemu_plugin_register_vcpu_tb_exec_inline_per_vcpu(struct qemu_plugin_tb *tb, enum qemu_plugin_op op, qemu_plugin_u64 entry,
						       uint64_t value)
{
	(void)tb, (void)op, (void)entry, (void)value;
}

void qemu_plugin_register_vcpu_insn_exec_inline_per_vcpu(struct qemu_plugin_insn *insn, enum qemu_plugin_op op, qemu_plugin_u64 entry,
							 uint64_t value)
{
	(void)insn, (void)op, (void)entry, (void)value;
}

struct qemu_plugin_scoreboard *qemu_plugin_scoreboard_new(size_t element_size)
{
	(void)element_size;
	return NULL;
}

void *qemu_plugin_scoreboard_find(struct qemu_plugin_scoreboard *board, unsigned vcpu)
{
	(void)board, (void)vcpu;
	return &score;
}

unsigned qemu_plugin_mem_size_shift(qemu_plugin_meminfo_t info)
{
	return info;
}

struct qemu_plugin_hwaddr *qemu_plugin_get_hwaddr(qemu_plugin_meminfo_t info, uint64_t address)
{
	(void)info, (void)address;
	return NULL;
}

bool qemu_plugin_hwaddr_is_io(const struct qemu_plugin_hwaddr *address)
{
	return !address;
}

uint64_t qemu_plugin_hwaddr_phys_addr(const struct qemu_plugin_hwaddr *address)
{
	(void)address;
	return 0;
}

qemu_plugin_mem_value qemu_plugin_mem_get_value(qemu_plugin_meminfo_t info)
{
	return (qemu_plugin_mem_value){ .type = info };
}

/* Runs the first instructions of the block: behind a fault the next one isn't run. */
static void run_block(unsigned insns)
{
	unsigned i, k;

	for (i = 0; i < insns; i++)
		for (k = 0; k < block[i].count; k++)
			block[i].callbacks[k](0, block[i].sites[k]);
}

/* ---- what is tried */

/* PEs that translate their first blocks at once all have the address of an instruction. */
static void *translate_first(void *physical)
{
	*(uint64_t *)physical = physical_of(&block[0]);
	return NULL;
}

static bool seeks_memory_once(void)
{
	pthread_t threads[SEEKERS];
	uint64_t physical[SEEKERS];
	bool found = true;
	int i;

	for (i = 0; i < SEEKERS; i++)
		pthread_create(&threads[i], NULL, translate_first, &physical[i]);
	for (i = 0; i < SEEKERS; i++) {
		pthread_join(threads[i], NULL);
		found = found && physical[i] == PLACE;
	}
	return found;
}

/* A DC ZVA at an address without a page: two that fault and are made again, and one that completes all the same. */
static void zero_pages(void)
{
	block[0].word = DC_ZVA_X0;
	block[1].word = NOP;
	translate_block(0, NULL);
	run_block(1);
	run_block(1);
	run_block(2);
}

/* An instruction at an EL, by what X0 has. */
static void run_insn(uint32_t word, uint64_t cpsr, uint64_t x0)
{
	registers[CPSR_AT].value = cpsr;
	registers[X0_AT].value = x0;
	memset(block, 0, sizeof block);
	block[0].word = word;
	block[1].word = NOP;
	translate_block(0, NULL);
	run_block(1);
}

/* What a guest writes isn't a physical address, what it writes of EL2 is trapped, and a guest stays loaded in VTTBR_EL2 for as
 * long as stage 2 is on. */
static bool tells_guests_apart(void)
{
	bool is_kept, is_gone;

	registers[HCR_AT].value = HCR_VM;
	run_insn(MSR_TTBR0_EL1_X0, AT_EL1, PLACE + PAGE_SIZE);
	run_insn(MSR_VTTBR_EL2_X0, AT_EL1, PLACE + 2 * PAGE_SIZE);
	run_insn(MSR_HCR_EL2_X0, AT_EL2, HCR_VM);
	run_insn(MSR_VTTBR_EL2_X0, AT_EL2, PLACE + 3 * PAGE_SIZE);
	is_kept = is_loaded(PLACE + 3 * PAGE_SIZE, VTTBR_EL2) && !is_loaded(PLACE + 2 * PAGE_SIZE, VTTBR_EL2);
	run_insn(MSR_HCR_EL2_X0, AT_EL2, HCR_VM | HCR_TGE | HCR_E2H);
	is_gone = !is_loaded(PLACE + 3 * PAGE_SIZE, VTTBR_EL2);
	return is_kept && is_gone && !is_loaded(PLACE + PAGE_SIZE, TTBR0_EL1);
}

int main(int argc, char **argv)
{
	static char ram[] = "ram=", out[] = "out=";
	char ram_path[] = "/tmp/bbm_ram.XXXXXX", words[2][512];
	char *options[] = { words[0], words[1] };
	qemu_info_t info = { .target_name = "aarch64", .version = { 0, INTERFACE }, .system_emulation = true, .system = { 1, 1 } };
	struct event event = { 0, &(struct site){ .pc = PLACE } };
	int file = mkstemp(ram_path);

	if (argc != 2 || file < 0 || ftruncate(file, RAM_BYTES))
		return 1;
	ram_of_qemu = mmap(NULL, RAM_BYTES, PROT_READ, MAP_SHARED, file, 0);
	snprintf(words[0], sizeof words[0], "%s%s", ram, ram_path);
	snprintf(words[1], sizeof words[1], "%s%s", out, argv[1]);
	if (qemu_plugin_install(0, &info, 2, options))
		return 1;
	begin_pe(0, 0);
	if (!seeks_memory_once())
		return 1;
	root_loaded(&event, TTBR0_EL1, UNSET);
	root_loaded(&event, TTBR1_EL1, UNSET);
	zero_pages();
	if (!tells_guests_apart())
		return 1;
	end_all(0, NULL);
	unlink(ram_path);
	return 0;
}
