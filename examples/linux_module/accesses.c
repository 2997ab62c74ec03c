#include <linux/percpu.h>
#include <linux/printk.h>

#include "processors.h"
#include "record.h"
#include "slot.h"
#include "space.h"

static DEFINE_PER_CPU(unsigned long, accesses);
static DEFINE_PER_CPU(unsigned long, faults);
static atomic_long_t differ, recorded;

/* One that was made: `code` is 0, or 1 + that of the page fault; `word` was read, or is the one that was written. */
struct access {
	struct slot *slot;
	unsigned processor;
	uint64_t part, word;
	unsigned long code;
	bool is_write;
};

/* The frame that an access got to, if the page is as in a state; NONE where it can't have got there. */
static uint64_t reached(const struct access *access, struct state state)
{
	const uint64_t frame = state.frame + access->part;
	if (access->code || state.frame == NONE || (access->is_write && !(state.rights & NRVS_WRITE)))
		return NONE;
	if (access->is_write)
		return READ_ONCE(space_words(frame)[1 + access->processor]) == access->word ? frame : NONE;
	return access->word == frame ? frame : NONE;
}

static bool fits(const struct access *access, struct state state)
{
	if (access->code)
		return state.frame == NONE || (access->is_write && !(state.rights & NRVS_WRITE));
	return reached(access, state) != NONE;
}

/* The state among those from one to another that an access fits, or -1. */
static long fitting(const struct access *access, unsigned long from, unsigned long to)
{
	for (unsigned long k = from; k <= to; k++)
		if (fits(access, access->slot->was[k % HISTORY]))
			return k;
	return -1;
}

static void say_first(const struct access *access, unsigned long from, unsigned long to)
{
	const struct state is = access->slot->was[to % HISTORY];
	pr_err("nrvs_space: processor %u, %s of page %llx and %llx frames: code %lu, word %llx, states %lu to %lu, the last %llx %x\n",
	       access->processor, access->is_write ? "write" : "read", access->slot->base, access->part, access->code, access->word, from,
	       to, is.frame, is.rights);
}

static void make(struct access *access)
{
	uint64_t *at = (uint64_t *)(access->slot->base + (access->part << PAGE_SHIFT));
	if (access->is_write)
		access->code = processor_write(at + 1 + access->processor, access->word);
	else
		access->code = processor_read(at, &access->word);
	if (access->is_write && !access->code)
		WRITE_ONCE(*(access->slot->written ? &access->slot->written[access->part] : &access->slot->is_written), true);
}

/* What an access came to, as it is recorded: its fault, or its physical address; of one that got nowhere, 0. */
static nrvs_answer answer_of(const struct access *access, long fits, uint64_t offset)
{
	if (access->code)
		return nrvs_fault(access->code - 1);
	if (fits < 0)
		return nrvs_allowed(access->is_write ? 0 : (access->word & GENMASK_ULL(39, 0)) << PAGE_SHIFT);
	return nrvs_allowed((reached(access, access->slot->was[fits % HISTORY]) << PAGE_SHIFT) + offset);
}

/* The state, of those before, that a stale access fits, or -1. */
static long fitting_before(const struct access *access, unsigned long from)
{
	const unsigned long least = from > HISTORY / 2 ? from - HISTORY / 2 : 0;
	for (unsigned long k = from; k > least; k--)
		if (!access->code && fits(access, access->slot->was[(k - 1) % HISTORY]))
			return k - 1;
	return -1;
}

void slots_access(unsigned processor, struct rnd_state *random)
{
	struct slot *slot = &slots[prandom_u32_state(random) % SLOTS];
	struct access access = { .slot = slot, .processor = processor, .is_write = prandom_u32_state(random) & 1 };
	const uint64_t offset = access.is_write ? 8 * (1 + processor) : 0;
	const unsigned long from = smp_load_acquire(&slot->done);
	unsigned long to;
	uint32_t call;
	long state;
	access.part = slot_part(slot, random);
	access.word = access.is_write ? (uint64_t)prandom_u32_state(random) << 32 | prandom_u32_state(random) : 0;
	call = record_touch(processor, slot->base + (access.part << PAGE_SHIFT) + offset, access.is_write);
	make(&access);
	to = smp_load_acquire(&slot->next);
	__this_cpu_inc(accesses);
	if (access.code)
		__this_cpu_inc(faults);
	state = to - from < HISTORY / 2 ? fitting(&access, from, to) : from;
	if (state < 0) {
		if (atomic_long_inc_return(&differ) == 1)
			say_first(&access, from, to);
		if (call != NRVS_NONE)
			atomic_long_inc(&recorded);
		state = fitting_before(&access, from);
	}
	record_touched(call, answer_of(&access, state, offset));
}

void accesses_begin(void)
{
	atomic_long_set(&differ, 0);
	atomic_long_set(&recorded, 0);
}

void accesses_add(struct slots_counts *all)
{
	unsigned cpu;
	for_each_possible_cpu(cpu) {
		all->accesses += READ_ONCE(per_cpu(accesses, cpu));
		all->faults += READ_ONCE(per_cpu(faults, cpu));
	}
	all->differ = atomic_long_read(&differ);
	all->recorded = atomic_long_read(&recorded);
}
