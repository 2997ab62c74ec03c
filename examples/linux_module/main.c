/* A module of Linux whose address space is changed by plans: this processor changes it, while the others load it and access its pages.
 * Each access has to find what the pages were before the change under way, or what they are after it, and after the flush the latter; a
 * page that was written has to be dirty. All changes and some of the accesses are recorded. It does all that while it is inserted.
 */
#include <linux/cpu.h>
#include <linux/cpumask.h>
#include <linux/ktime.h>
#include <linux/module.h>
#include <linux/sched.h>
#include <asm/special_insns.h>

#include "cost.h"
#include "million.h"
#include "plant.h"
#include "processors.h"
#include "record.h"
#include "slots.h"
#include "space.h"

static ulong changes = 3000, calls = 1000000;
static uint port, rounds = 20;
uint plant;
module_param(changes, ulong, 0444);
MODULE_PARM_DESC(changes, "of pages, while the other processors access them");
module_param(calls, ulong, 0444);
MODULE_PARM_DESC(calls, "beside a list of pages, while nobody accesses them");
module_param(rounds, uint, 0444);
MODULE_PARM_DESC(rounds, "of 512 pages by plans, by ranges and by vmap, whose times are printed");
module_param(port, uint, 0444);
MODULE_PARM_DESC(port, "an I/O port by which the chain leaves");
module_param(plant, uint, 0444);
MODULE_PARM_DESC(plant, "a mistake to be planted: its number in plant.h");

/* What the processor refuses beyond the rights of a page, none of which the recorder knows. */
static bool is_processor_fit(void)
{
	return !(__read_cr4() & (X86_CR4_SMEP | X86_CR4_SMAP | X86_CR4_PKE));
}

static const char *verdict(struct slots_counts all, unsigned long frames)
{
	if (all.differ || all.lost || all.wrong)
		return "FAILED";
	return frames || space_counts.flags_met == 0 ? "FAILED: frames are out, or no flag was met" : "PASSED";
}

static void say(struct slots_counts all)
{
	pr_info("nrvs_space: maps %lu unmaps %lu protects %lu remaps %lu splits %lu joins %lu, flags cleared %lu\n", all.changes[0],
		all.changes[1], all.changes[2], all.changes[3], all.changes[4], all.changes[5], all.changes[6]);
	pr_info("nrvs_space: %lu changes of ranges; in all %lu runs of %lu pages\n", all.ranges, space_counts.runs, space_counts.run_pages);
	pr_info("nrvs_space: %lu sees, %lu gives, %lu fills, %lu stores, %lu flags met, %lu tables unlinked\n", space_counts.sees,
		space_counts.gives, space_counts.fills, space_counts.stores, space_counts.flags_met, space_counts.unlinked);
	pr_info("nrvs_space: %lu shootdowns, %llu ns each\n", space_counts.shootdowns,
		space_counts.flush_time / (space_counts.shootdowns ? space_counts.shootdowns : 1));
	pr_info("nrvs_space: %lu accesses, %lu of them faults, %lu differ, %lu dirty flags lost, %lu wrong answers\n", all.accesses,
		all.faults, all.differ, all.lost, all.wrong);
}

/* A planted mistake that was seen, also in what was recorded, needs few more changes. What is recorded of a page that isn't there are
 * accesses alone.
 */
static bool is_enough(void)
{
	const struct slots_counts all = slots_counts();
	if (is_planted(PLANT_NONE))
		return false;
	return all.recorded > 8 || ((all.lost || all.wrong) && !is_planted(PLANT_TOO_LONG));
}

static int change_pages(void)
{
	struct rnd_state random;
	const uint64_t from = ktime_get_ns();
	unsigned count;
	int status = record_begin(port);
	if (status)
		return status;
	prandom_seed_state(&random, 5);
	count = processors_begin();
	for (ulong k = 0; k < changes && !is_enough(); k++) {
		record_cut();
		slots_change(&random);
		cond_resched();
	}
	processors_end();
	if (is_planted(PLANT_NONE))
		slots_unmap_all();
	record_end();
	pr_info("nrvs_space: %u processors access, %llu ms\n", count, (ktime_get_ns() - from) / 1000000);
	return 0;
}

static int run(void)
{
	long wrong = is_planted(PLANT_NONE) ? million(calls) : 0;
	int status = wrong < 0 ? -ENOMEM : is_planted(PLANT_NONE) ? cost(rounds) : 0;
	if (!status)
		status = change_pages();
	if (status)
		return status;
	say(slots_counts());
	pr_info("nrvs_space: %s\n", wrong ? "FAILED: a call is answered wrongly" : verdict(slots_counts(), space_counts.frames_out));
	return 0;
}

static int __init begin(void)
{
	int status;
	if (!is_processor_fit()) {
		pr_err("nrvs_space: SMEP, SMAP or protection keys are on\n");
		return -EINVAL;
	}
	set_cpus_allowed_ptr(current, cpumask_of(raw_smp_processor_id()));
	status = faults_begin();
	if (status)
		return status;
	status = space_begin();
	if (!status)
		status = slots_begin();
	if (!status) {
		pr_info("nrvs_space: %u levels, physical addresses of %u bits, plant %u\n", space_target.levels, space_target.phys_bits, plant);
		status = run();
	}
	slots_end();
	space_end();
	faults_end();
	return status;
}

static void __exit end(void)
{
}

module_init(begin);
module_exit(end);
MODULE_LICENSE("GPL");
MODULE_DESCRIPTION("an address space that is changed by plans of nrvs");
