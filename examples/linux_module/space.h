/* An address space of the module's own: its root, the frames of its tables, and how a plan is carried out. */
#ifndef SPACE_H
#define SPACE_H

#include <linux/io.h>
#include <linux/mm.h>

#include "nrvs_plan.h"

/* What was done. */
struct space_counts {
	unsigned long sees, gives, stores, fills, flags_met, shootdowns, unlinked, frames_out, runs, run_pages;
	uint64_t flush_time; /* nanoseconds of all shootdowns */
};
extern struct space_counts space_counts;

extern struct nrvs_target space_target;

/* Makes a root with the running kernel's upper half. 0, or an error of Linux. */
int space_begin(void);

/* Gives all frames back: how many tables are still linked. */
unsigned long space_end(void);

/* The 512 words of a frame, in the kernel's direct map. */
uint64_t *space_words(uint64_t frame);

/* An empty frame of Linux's allocator, if there is one. */
bool space_take(uint64_t *frame);

/* Loads the space on this processor, with interrupts off; whether it is loaded. */
void space_load(void);
bool space_is_loaded(void);
void space_load_word(unsigned long cr3);

/* Calls of nrvs_plan.h over the kernel's direct map, which has all frames of memory: the plan is there, or asks for an empty frame. */
static inline const struct nrvs_words *space_memory(void)
{
	return phys_to_virt(0);
}
static inline size_t space_memory_count(void)
{
	return (virt_to_phys(high_memory - 1) >> PAGE_SHIFT) + 1;
}
static inline uint32_t space_map(struct nrvs_plan *plan, uint64_t base, unsigned size, uint64_t physical, unsigned rights)
{
	return nrvs_plan_map_in(plan, &space_target, space_memory(), space_memory_count(), 0, base, size, physical, rights, 0);
}
static inline uint32_t space_unmap(struct nrvs_plan *plan, uint64_t base)
{
	return nrvs_plan_unmap_in(plan, &space_target, space_memory(), space_memory_count(), 0, base);
}
static inline uint32_t space_protect(struct nrvs_plan *plan, uint64_t base, unsigned rights)
{
	return nrvs_plan_protect_in(plan, &space_target, space_memory(), space_memory_count(), 0, base, rights);
}
static inline uint32_t space_remap(struct nrvs_plan *plan, uint64_t base, uint64_t physical, unsigned rights)
{
	return nrvs_plan_remap_in(plan, &space_target, space_memory(), space_memory_count(), 0, base, physical, rights);
}
static inline uint32_t space_ask(struct nrvs_plan *plan, uint64_t address)
{
	return nrvs_plan_ask_in(plan, &space_target, space_memory(), space_memory_count(), 0, address);
}

/* The steps of a plan, under one lock from the first to the last: from what the first call returned to the plan; its stores; its flush on
 * all processors; the tables that it unlinked are freed. The first returns NRVS_PLANNED, or why the request is refused.
 */
uint32_t space_plan(struct nrvs_plan *plan, uint32_t step);
void space_store(struct nrvs_plan *plan);
void space_flush(const struct nrvs_plan *plan);
void space_free(const struct nrvs_plan *plan);

/* A flush of all on all processors; a frame that nobody walks any more is free. */
void space_flush_all(void);
void space_free_frame(uint64_t frame);

/* Clears the accessed and the dirty flag of the page at an address, and flushes. */
void space_clear_flags(uint64_t address);

#endif
