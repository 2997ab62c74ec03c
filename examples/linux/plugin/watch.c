/*
 * A plugin of QEMU's translator that watches one address space of a Linux guest, from the store that gives it its page table on: each
 * store of the guest's kernel to its page tables, what the guest's processors do with it, flushes and system calls. It writes lines to
 * QEMU's log, among those of the exceptions that QEMU logs itself (-d int,plugin). With -accel tcg,thread=single one thread of the
 * host runs all processors, so that what is logged comes one at a time, in order.
 *
 * With the setting `nested` it is no process's address space but the memory of a guest in the guest, which the guest's KVM maps by nested
 * tables: stores to these are logged, accesses of that guest, KVM's flushes, frames that are freed, and that the task that runs it has left
 * the kernel. Two copies of the plugin watch both at once; with the setting `tag` the lines of one begin with another character than @.
 * With the setting `child` a copy watches nothing but the address space that a fork makes, while the other one watches the parent's.
 *
 * Lines, numbers in hexadecimal but for levels, processors and counts:
 *
 *     @born SPACE ROOT LOADED                         the address space has a root; LOADED: the frame that CR3 has in the kernel, or 0
 *     @table FRAME LEVEL                              a table was linked, with
 *     @word FRAME INDEX WORD                          .. these words that aren't 0; before the @store of its link
 *     @callers BACK:CALLED ..                         words of the stack behind a call, with what is called there; before @released and
 *     @store CPU TASK OWN PC FRAME INDEX OLD NEW      a word of a table changed; OWN: by a processor that has the address space loaded
 *     @access CPU TASK MODE ACCESS ADDRESS PHYSICAL PC  an access went through; MODE s or u, ACCESS r, w or x
 *     @flushing CPU TASK ALL                          a flush begins, maybe of another one; ALL: by each processor that has the space
 *     @flushed CPU TASK BEGIN END                     a flush of BEGIN to END of this address space is over
 *     @released CPU TASK PC FRAME COUNT               the kernel frees so many frames, which the address space had
 *     @user CPU TASK                                  a task that had taken something away is in user mode again
 *     @entered CPU TASK NUMBER A0 A1 A2 A3            a system call begins
 *     @returned CPU TASK NUMBER A0 A1 A2 RESULT A3    one that changes mappings, or forks, ends
 *     @marked CPU TASK VALUE                          the guest stored to the page of marks
 *     @dump FRAME, @entry FRAME INDEX WORD            a table at the end, from memory
 *     @freed FRAME LEVEL                              one that is linked and that the kernel doesn't hold as a table
 *     @end WHY                                        nothing is watched any more
 *     @note TEXT                                      something that shouldn't be
 */
#include "callers.h"
#include "flushes.h"
#include "functions.h"
#include "guest.h"
#include "instructions.h"
#include "owing.h"
#include "processor.h"
#include "qemu_plugin.h"
#include "releases.h"
#include "rests.h"
#include "say.h"
#include "seen.h"
#include "system_calls.h"
#include "tables.h"

#include <inttypes.h>
#include <stdio.h>
#include <stdlib.h>
#include <string.h>

#define MARKS 0x6e7276730000u /* the page of marks: what the guest stores there is a word to the plugin */
enum mark { MARK_NEXT = 1, MARK_END = 2, MARK_WHEN_EMPTY = 3, MARK_HERE = 4, MARK_AGAIN = 5, MARK_CHILD = 6 };
enum later_mark { MARK_LATER = 0x100, MARK_CHOSEN = 0x200 };
#define NESTED_CODE 0x100000u /* the guest in the guest runs below, and no process does */
#define NESTED_ROOT 0xb0      /* of the page that controls it (AMD's VMCB): the address of its nested tables */
#define FRAME 0x000ffffffffff000u

#define HIGH_HALF(address) ((address) >> 63)
#define PRESENT 1u
#define BIRTH_BYTES 512 /* of code behind the call of pgd_alloc: there its result is stored */
#define STACK_BYTES 16384u

EXPORTED int qemu_plugin_version = PLUGIN_VERSION;

static enum { WAITING, ARMED, WATCHING, ENDED } state;
static uint64_t space; /* its mm_struct */
static int ends_when_empty;
static uint64_t earlier; /* so many address spaces are made before the one that is watched, */
static int is_later;     /* .. which isn't from its birth on, but from a mark on that comes later */
static uint64_t chosen;  /* that address space, once it is born; 0: there is none */
static uint64_t asking_task; /* by which the address space is made that is watched; 0: by any */
static uint64_t birth_call;  /* the latest call of pgd_alloc */
static uint64_t result_slot; /* where on a stack a system call's result goes */

static qemu_plugin_id_t plugin;
static int follows; /* code is followed; else, as until the guest asks for it, it runs as without the plugin: so it boots faster */

/* The functions that flush an address space, those that flush for some processors alone, and those that free frames. */
static struct functions flushers, batches, releasers;

static void end(const char *why)
{
	tables_dump();
	say("@end %s\n", why);
	state = ENDED;
}

static int is_same_stack(uint64_t address, uint64_t other)
{
	return address / STACK_BYTES == other / STACK_BYTES;
}

/* Whether a store gives an address space its tables: a process's root to its mm_struct, which is where the caller of pgd_alloc stores a
 * table that isn't to its stack, or the root of nested tables to where the processor finds it. */
static int is_birth(unsigned cpu, uint64_t address, uint64_t pc)
{
	uint64_t physical = guest_direct(address), table;

	if (guest.nested)
		return pc >= guest.nested && pc < guest.nested_end && (address & 4095) == NESTED_ROOT;
	if (pc - birth_call >= BIRTH_BYTES || physical == NOWHERE || is_same_stack(address, callers_stack(cpu)))
		return 0;
	if (asking_task && guest_task(cpu) != asking_task)
		return 0;
	table = guest_word(physical);
	return !(table & 4095) && guest_direct(table) != NOWHERE && (!earlier || !earlier--);
}

/* An address space is watched from here on: its tables are logged. */
static void begin(uint64_t watched, uint64_t root)
{
	space = watched;
	seen_begin();
	owing_begin();
	releases_begin();
	state = WATCHING;
	say("@born %" PRIx64 " %" PRIx64 " %" PRIx64 "\n", space, root, guest.nested ? 0 : root - guest.isolated);
	tables_begin(root);
}

static void begin_process(uint64_t watched)
{
	guest_enter(watched);
	begin(watched, guest_root());
}

/* An address space is born by a store there. */
static void born(unsigned cpu, uint64_t address)
{
	if (guest.nested) {
		guest_enter(guest_loaded(cpu));
		begin(guest_loaded(cpu), (guest_word(guest_direct(address)) & FRAME) >> 12);
	} else if (is_later) {
		chosen = address - guest.pgd;
		state = WAITING;
	} else {
		begin_process(address - guest.pgd);
	}
}

/* By the tables that are watched: all code of the guest in the guest goes by nested ones, and no other code does. */
static int is_access(uint64_t pc)
{
	return (pc < NESTED_CODE) == (guest.nested != 0);
}

static int is_of_process(unsigned cpu)
{
	return state == WATCHING && !guest.nested && guest_loaded(cpu) == space;
}

static void in_user_mode(unsigned cpu)
{
	if (!owing_is_none() && owing_in_user(guest_task(cpu)))
		say("@user %u %" PRIx64 "\n", cpu, guest_task(cpu));
}

static void tell_access(unsigned cpu, int is_user, enum access access, uint64_t address, uint64_t physical, uint64_t pc)
{
	say("@access %u %" PRIx64 " %c %c %" PRIx64 " %" PRIx64 " %" PRIx64 "\n", cpu, guest_task(cpu), "su"[is_user], "rwx"[access], address,
		physical, pc);
}

/* ---- stores to page tables ---- */

static void word_stored(unsigned cpu, uint64_t physical, uint64_t pc)
{
	struct change change;
	uint64_t task = guest_task(cpu);
	int own = guest_loaded(cpu) == space;

	if (!tables_stored(physical, &change))
		return;
	if (change.level > 1)
		seen_all_changed();
	else
		seen_changed(physical);
	tables_changed(&change);
	callers_tell(cpu);
	say("@store %u %" PRIx64 " %d %" PRIx64 " %" PRIx64 " %" PRIx64 " %" PRIx64 " %" PRIx64 "\n", cpu, task, own, pc, change.frame,
		change.index, change.old, change.new);
	if (change.old & PRESENT) /* what only appears needs no flush */
		owing_add(task, change.level > 1 ? NOWHERE : physical);
	if (own)
		rests_stored(&change);
	if ((ends_when_empty || guest.child) && change.frame == tables_root() && tables_is_empty())
		end("empty");
}

static void kernel_stored(unsigned cpu, uint64_t physical, unsigned bytes, uint64_t pc)
{
	for (uint64_t word = physical & ~(uint64_t)7; word < physical + bytes && state == WATCHING; word += 8)
		word_stored(cpu, word, pc);
}

/* ---- accesses ---- */

static void process_accessed(unsigned cpu, qemu_plugin_meminfo_t info, uint64_t address, uint64_t pc)
{
	const struct qemu_plugin_hwaddr *where;
	uint64_t physical;
	int is_user = !HIGH_HALF(pc);
	enum access access = qemu_plugin_mem_is_store(info) ? WRITE : READ;

	if (guest_loaded(cpu) != space)
		return;
	if (is_user)
		in_user_mode(cpu);
	if (!is_access(pc))
		return;
	if ((address & 4095) + ((uint64_t)1 << qemu_plugin_mem_size_shift(info)) > 4096 || !seen_is_new(cpu, is_user, access, address))
		return;
	where = qemu_plugin_get_hwaddr(info, address);
	if (!where || qemu_plugin_hwaddr_is_io(where))
		return;
	physical = qemu_plugin_hwaddr_phys_addr(where);
	if (is_user || physical != address) /* else VMRUN, VMSAVE and the like, whose addresses are physical */
		tell_access(cpu, is_user, access, address, physical, pc);
}

static void marked(unsigned cpu, qemu_plugin_meminfo_t info, uint64_t address)
{
	const struct qemu_plugin_hwaddr *where = qemu_plugin_get_hwaddr(info, address);
	uint64_t value = where ? guest_word(qemu_plugin_hwaddr_phys_addr(where)) : 0;

	say("@marked %u %" PRIx64 " %" PRIx64 "\n", cpu, guest_task(cpu), value);
	if (guest.child)
		value = value == MARK_CHILD ? MARK_NEXT : value == MARK_AGAIN ? value : 0;
	if ((value == MARK_NEXT || value >= MARK_LATER) && state == WAITING && !chosen) {
		state = ARMED;
		asking_task = value == MARK_NEXT ? guest_task(cpu) : 0;
		is_later = value >= MARK_CHOSEN;
		earlier = value == MARK_NEXT ? 0 : value & (MARK_LATER - 1);
	}
	if (value == MARK_HERE && state == WAITING && !guest.nested)
		begin_process(chosen ? chosen : guest_loaded(cpu));
	if (value == MARK_AGAIN) {
		state = WAITING;
		ends_when_empty = 0;
		chosen = earlier = 0;
	}
	if (value == MARK_WHEN_EMPTY)
		ends_when_empty = 1;
	if (value == MARK_END && state == WATCHING && (guest_loaded(cpu) == space || chosen))
		end("marked");
}

static void on_user_memory(unsigned cpu, qemu_plugin_meminfo_t info, uint64_t address, void *pc)
{
	cpu = processor_that_runs(cpu);
	if (address == MARKS && qemu_plugin_mem_is_store(info))
		marked(cpu, info, address);
	else if (state == WATCHING)
		process_accessed(cpu, info, address, (uint64_t)pc);
}

/* The result of a system call is stored to the registers that it returns with. */
static int is_result(uint64_t address, uint64_t pc)
{
	return pc >= guest.entry && pc < guest.entry_end && address % STACK_BYTES == result_slot;
}

static void returns(unsigned cpu, qemu_plugin_meminfo_t info, uint64_t address)
{
	const struct qemu_plugin_hwaddr *where = qemu_plugin_get_hwaddr(info, address);

	if (where && is_of_process(cpu) && system_calls_returns(cpu, qemu_plugin_hwaddr_phys_addr(where) - RESULT))
		seen_all_changed();
}

static void kernel_accessed(unsigned cpu, qemu_plugin_meminfo_t info, uint64_t address, uint64_t pc)
{
	uint64_t physical;
	int is_store = qemu_plugin_mem_is_store(info);

	if (state == ARMED && is_store && is_birth(cpu, address, pc))
		born(cpu, address);
	if (state != WATCHING)
		return;
	if (is_store && is_result(address, pc)) {
		returns(cpu, info, address);
		return;
	}
	if (is_store && guest_is_of_flush(cpu, address))
		flushes_stored(cpu);
	physical = guest_direct(address);
	if (physical != NOWHERE && is_store)
		kernel_stored(cpu, physical, 1u << qemu_plugin_mem_size_shift(info), pc);
	else if (!(address >> 56))
		process_accessed(cpu, info, address, pc);
}

static void on_kernel_memory(unsigned cpu, qemu_plugin_meminfo_t info, uint64_t address, void *pc)
{
	kernel_accessed(processor_that_runs(cpu), info, address, (uint64_t)pc);
}

static void on_call(unsigned cpu, qemu_plugin_meminfo_t info, uint64_t address, void *pc)
{
	cpu = processor_that_runs(cpu);
	if (qemu_plugin_mem_is_store(info))
		callers_called(cpu, address, (uint64_t)pc);
	kernel_accessed(cpu, info, address, (uint64_t)pc);
}

static void on_release(unsigned cpu, qemu_plugin_meminfo_t info, uint64_t address, void *pc)
{
	cpu = processor_that_runs(cpu);
	if (state == WATCHING && qemu_plugin_mem_is_store(info) && releases_stored(cpu, address, (uint64_t)pc))
		end("freed");
	kernel_accessed(cpu, info, address, (uint64_t)pc);
}

/* ---- instructions ---- */

struct code {
	uint64_t address, physical;
};

static void on_user_code(unsigned cpu, void *data)
{
	const struct code *code = data;

	cpu = processor_that_runs(cpu);
	if (state != WATCHING || guest_loaded(cpu) != space)
		return;
	in_user_mode(cpu);
	if (is_access(code->address) && seen_is_new(cpu, 1, FETCH, code->address))
		tell_access(cpu, 1, FETCH, code->address, code->physical, code->address);
}

static void on_flushing(unsigned cpu, void *functions)
{
	if (state == WATCHING)
		flushes_begin(processor_that_runs(cpu), space, functions == &flushers);
}

static void on_flushed(unsigned cpu, void *functions)
{
	(void)functions;
	if (state == WATCHING)
		flushes_end(processor_that_runs(cpu), space);
}

/* The registers lie behind the return address of the call of do_syscall_64. */
static void on_entry(unsigned cpu, void *unused)
{
	uint64_t registers;

	(void)unused;
	cpu = processor_that_runs(cpu);
	registers = callers_stack(cpu) + 8;
	result_slot = (registers + RESULT) % STACK_BYTES;
	if (is_of_process(cpu))
		system_calls_begins(cpu, guest_walk(registers));
}

static void on_birth(unsigned cpu, void *unused)
{
	(void)unused;
	birth_call = callers_call(processor_that_runs(cpu));
}

static void ask(struct qemu_plugin_insn *instruction, qemu_plugin_ran *call, void *data)
{
	qemu_plugin_register_vcpu_insn_exec_cb(instruction, call, PROCESSOR_FLAGS, data);
}

/* Where functions that flush begin and return. */
static void ask_of_flushes(struct qemu_plugin_insn *instruction, uint64_t pc, struct functions *functions)
{
	unsigned k = functions_find(functions, pc);

	if (k == functions->count)
		return;
	if (pc == functions->each[k].begin)
		ask(instruction, on_flushing, functions);
	if (instructions_is_return(instruction, functions->each[k].begin, functions->each[k].end))
		ask(instruction, on_flushed, functions);
}

static qemu_plugin_accessed *accessed_by(struct qemu_plugin_insn *instruction, uint64_t pc)
{
	if (instructions_is_call(instruction))
		return on_call;
	return functions_find(&releasers, pc) < releasers.count ? on_release : on_kernel_memory;
}

static void translate_kernel(struct qemu_plugin_insn *instruction)
{
	uint64_t pc = qemu_plugin_insn_vaddr(instruction);

	qemu_plugin_register_vcpu_mem_cb(instruction, accessed_by(instruction, pc), PROCESSOR_FLAGS, QEMU_PLUGIN_MEM_RW, (void *)pc);
	if (pc == guest.entry)
		ask(instruction, on_entry, NULL);
	if (pc == guest.birth)
		ask(instruction, on_birth, NULL);
	ask_of_flushes(instruction, pc, &flushers);
	ask_of_flushes(instruction, pc, &batches);
}

/* The first instruction of a block in user mode is logged as a fetch. */
static void translate_user(struct qemu_plugin_tb *block, struct qemu_plugin_insn *first)
{
	uint64_t physical = guest_of_host(qemu_plugin_insn_haddr(first));
	struct code *code;

	if (physical == NOWHERE)
		return;
	code = malloc(sizeof *code); /* as long as QEMU may run the block: for ever */
	if (!code)
		return;
	code->address = qemu_plugin_insn_vaddr(first);
	code->physical = physical;
	qemu_plugin_register_vcpu_tb_exec_cb(block, on_user_code, PROCESSOR_FLAGS, code);
}

static void on_translate(qemu_plugin_id_t id, struct qemu_plugin_tb *block)
{
	struct qemu_plugin_insn *instruction = qemu_plugin_tb_get_insn(block, 0);
	int is_kernel = (int)HIGH_HALF(qemu_plugin_insn_vaddr(instruction));

	(void)id;
	if (!guest_is_found())
		guest_find();
	if (!is_kernel)
		translate_user(block, instruction);
	for (size_t k = 0; k < qemu_plugin_tb_n_insns(block); k++) {
		instruction = qemu_plugin_tb_get_insn(block, k);
		if (is_kernel)
			translate_kernel(instruction);
		else
			qemu_plugin_register_vcpu_mem_cb(instruction, on_user_memory, PROCESSOR_FLAGS, QEMU_PLUGIN_MEM_RW,
				(void *)qemu_plugin_insn_vaddr(instruction));
	}
}

static void on_reset(qemu_plugin_id_t id)
{
	follows = 1;
	qemu_plugin_register_vcpu_tb_trans_cb(id, on_translate);
}

/* QEMU drops what it has translated, before the next block runs. It must not have been asked for any access until then: its helpers may
 * hold on to what was asked of the instruction that ran last, which is dropped too. */
static void on_asked(unsigned cpu, void *unused)
{
	(void)cpu;
	(void)unused;
	if (!follows)
		qemu_plugin_reset(plugin, on_reset);
}

static void on_translate_at_first(qemu_plugin_id_t id, struct qemu_plugin_tb *block)
{
	struct qemu_plugin_insn *instruction;

	(void)id;
	for (size_t k = 0; k < qemu_plugin_tb_n_insns(block); k++) {
		instruction = qemu_plugin_tb_get_insn(block, k);
		if (instructions_is_asking(instruction))
			ask(instruction, on_asked, NULL);
	}
}

/* ---- what the plugin gets to know ---- */

static int set(const char *name, const char *value)
{
	if (!strcmp(name, "tag"))
		return say_tag(value[0]);
	if (!strcmp(name, "flusher"))
		return functions_take(&flushers, value);
	if (!strcmp(name, "batch"))
		return functions_take(&batches, value);
	if (!strcmp(name, "releaser"))
		return functions_take(&releasers, value);
	return guest_set(name, value);
}

EXPORTED int qemu_plugin_install(qemu_plugin_id_t id, const void *info, int count, char **words)
{
	(void)info;
	for (int k = 0; k < count; k++) {
		char *equals = strchr(words[k], '=');

		if (equals)
			*equals++ = 0;
		if (!equals || !set(words[k], equals)) {
			fprintf(stderr, "watch: what is %s?\n", words[k]);
			return 1;
		}
	}
	plugin = id;
	processor_begin(id);
	qemu_plugin_register_vcpu_tb_trans_cb(id, on_translate_at_first);
	return 0;
}
