/* Operations on what private pages show, and on where pages are: stores, MADV_DONTNEED, mremap. */
#define _GNU_SOURCE
#include "accesses.h"
#include "operations.h"
#include "options.h"
#include "random.h"
#include "updates.h"

#include <errno.h>
#include <string.h>

#ifndef MREMAP_DONTUNMAP
#define MREMAP_DONTUNMAP 4
#endif

/*
 * A store to a private page gives it a frame of its own (copy on write), and the frame a new number: an unmap and a map. The store is a
 * touch too, since it returns the number that it overwrote.
 */
enum outcome store_to(struct worker *worker, unsigned s)
{
	const struct slot *slot = &slots[s];
	const uint64_t number = new_copy();
	struct change change;
	struct seen seen;
	uint32_t call;

	/* not to code: a processor may have fetched it before */
	if (!slot->is_mapped || slot->kind == SHARED || !(slot->prot & PROT_WRITE) || slot->prot & PROT_EXEC)
		return NOTHING;
	change_begin(&change, worker->id);
	call_replace(&change, slot, number);
	change_called(&change);
	call = touch_begin(worker->id, change.count, slot->base, NRVS_WRITES);
	seen = access_store(slot->base, number);
	touch_end(call, seen.fault ? nrvs_fault(seen.fault & ~FAULT) : nrvs_allowed(phys_of(seen.number)));
	access_store(slot->base + CODE_AT, code_of(number));
	slots[s].number = number;
	change_done(&change);
	return MADE;
}

static enum outcome make_store(struct worker *worker)
{
	const uint64_t where = draw(&worker->random, 6);
	unsigned slot = where < 2 ? SMALL_SLOTS + (unsigned)draw(&worker->random, LARGE_SLOTS) : slot_draw(&worker->random);
	const unsigned hot = hot_slot;
	struct range range;
	enum outcome outcome;

	/* behind another change of the same page, and others have accessed it in between */
	if (where > 3 && hot < SMALL_SLOTS + LARGE_SLOTS)
		slot = hot;
	range = range_of_slot(slot);
	range_lock(&range);
	/* a write of nothing before it, or not: the page is copied here or there */
	if (draw(&worker->random, 2))
		touch_slot(worker, slot);
	outcome = store_to(worker, slot);
	range_unlock(&range);
	worker->last = slot;
	hot_slot = slot;
	return outcome;
}

/* Private pages show their file again, or zeros. */
static enum outcome discard(struct worker *worker, const struct range *range)
{
	struct change change;

	if (!range_is_mapped(range))
		return NOTHING;
	change_begin(&change, worker->id);
	for (unsigned k = 0; k < range->count; k++)
		if (slots[range->first + k].number != slots[range->first + k].file_number)
			call_replace(&change, &slots[range->first + k], slots[range->first + k].file_number);
	change_called(&change);
	/* pages that are locked aren't discarded: somebody may lock them again in between */
	while (madvise(at(range->base), range->bytes, MADV_DONTNEED) != 0)
		if (errno != EINVAL || munlock(at(range->base), range->bytes) != 0)
			stop("madvise, MADV_DONTNEED: %s", strerror(errno));
	for (unsigned k = 0; k < range->count; k++)
		slots[range->first + k].number = slots[range->first + k].file_number;
	change_done(&change);
	return MADE;
}

static enum outcome make_discard(struct worker *worker)
{
	struct range range = range_draw(&worker->random);
	enum outcome outcome;

	/* of 2 MiB sometimes one page alone: a large page is split by that */
	if (range.region == &regions[LARGE] && draw(&worker->random, 2))
		range = range_of_slot(SMALL_SLOTS + (unsigned)draw(&worker->random, LARGE_SLOTS));
	if (range.region == &regions[HUGE])
		return NOTHING;
	range_lock(&range);
	outcome = discard(worker, &range);
	range_unlock(&range);
	worker->last = range.first + (unsigned)draw(&worker->random, range.count);
	hot_slot = worker->last;
	return outcome;
}

/* One page moves to where another was or wasn't; with `keep` its old place is still mapped, and shows the file, or zeros. */
static enum outcome move(struct worker *worker, struct slot *from, struct slot *to, int keep)
{
	struct change change;

	if (!from->is_mapped)
		return NOTHING;
	change_begin(&change, worker->id);
	if (!keep)
		call_unmap(&change, from);
	else if (from->number != from->file_number)
		call_replace(&change, from, from->file_number);
	if (to->is_mapped)
		call_unmap(&change, to);
	call_map(&change, to, from->number, from->prot);
	change_called(&change);
	if (mremap(at(from->base), 4096, 4096, MREMAP_MAYMOVE | MREMAP_FIXED | (keep ? MREMAP_DONTUNMAP : 0), at(to->base)) != at(to->base))
		stop("mremap of %#llx to %#llx: %s", (unsigned long long)from->base, (unsigned long long)to->base, strerror(errno));
	to->is_mapped = 1;
	to->kind = from->kind;
	to->prot = from->prot;
	to->number = from->number;
	to->file_number = from->file_number;
	if (keep)
		from->number = from->file_number;
	else
		from->is_mapped = 0;
	change_done(&change);
	return MADE;
}

static enum outcome move_some(struct worker *worker, int keep)
{
	const unsigned from = slot_draw(&worker->random), to = slot_draw(&worker->random);
	const struct range low = range_of_slot(from < to ? from : to), high = range_of_slot(from < to ? to : from);
	enum outcome outcome;

	if (from == to || options.pages == 0)
		return NOTHING;
	range_lock(&low);
	range_lock(&high);
	outcome = move(worker, &slots[from], &slots[to], keep);
	range_unlock(&high);
	range_unlock(&low);
	worker->last = from;
	hot_slot = to;
	return outcome;
}

static enum outcome make_move(struct worker *worker) { return move_some(worker, 0); }

/* Whether this kernel moves a page and leaves its place mapped, of memory of each kind. */
static int keeps(void)
{
	static atomic_int known; /* 0: not tried; 1: it does; else an errno below 0 */
	void *from, *to, *got;

	if (known == 0) {
		from = mmap(NULL, 4096, PROT_READ, MAP_SHARED, files.small, 0);
		to = mmap(NULL, 4096, PROT_NONE, MAP_PRIVATE | MAP_ANONYMOUS, -1, 0);
		got = mremap(from, 4096, 4096, MREMAP_MAYMOVE | MREMAP_FIXED | MREMAP_DONTUNMAP, to);
		known = got == to ? 1 : -errno;
		munmap(from, 4096);
		munmap(to, 4096);
	}
	errno = known < 0 ? -known : 0;
	return known == 1;
}

static enum outcome make_move_and_keep(struct worker *worker) { return keeps() ? move_some(worker, 1) : REFUSED; }

const struct operation copies[] = {
	{ "store", "a store to a private page: copy on write", make_store, 20 },
	{ "discard", "madvise, MADV_DONTNEED", make_discard, 6 },
	{ "move", "mremap to another address", make_move, 8 },
	{ "move-and-keep", "mremap, MREMAP_DONTUNMAP", make_move_and_keep, 3 },
	{ 0 },
};
