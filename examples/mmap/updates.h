/* What the updates of a page are, in the words of the trace. */
#ifndef UPDATES_H
#define UPDATES_H

#include "frames.h"
#include "record.h"
#include "window.h"

static inline void call_unmap(struct change *change, const struct slot *slot)
{
	const nrvs_answer removed = nrvs_removed(phys_of(slot->number), slot->size, rights_of(slot->prot));

	change_call(change, nrvs_unmap(slot->base), slot->is_mapped ? removed : nrvs_not_mapped());
}

static inline void call_map(struct change *change, const struct slot *slot, uint64_t number, int prot)
{
	change_call(change, nrvs_map(slot->base, slot->size, phys_of(number), rights_of(prot)), nrvs_done());
}

/* The page shows another frame from now on: an unmap and a map, with the same rights. */
static inline void call_replace(struct change *change, const struct slot *slot, uint64_t number)
{
	call_unmap(change, slot);
	call_map(change, slot, number, slot->prot);
}

static inline void *at(uint64_t address) { return (void *)address; }

#endif
