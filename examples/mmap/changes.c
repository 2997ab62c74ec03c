/* Operations that change what one sees at the pages of the window. */
#define _GNU_SOURCE
#include "operations.h"
#include "options.h"
#include "random.h"
#include "updates.h"

#include <errno.h>
#include <string.h>

#ifndef MAP_FIXED_NOREPLACE
#define MAP_FIXED_NOREPLACE 0x100000
#endif

_Noreturn static void failed(const char *what, const struct range *range)
{
	stop("%s of %llu bytes at %#llx: %s", what, (unsigned long long)range->bytes, (unsigned long long)range->base, strerror(errno));
}

/* ---- mappings ---- */

struct mapping {
	enum kind kind;
	int prot, flags, file;
	uint64_t first; /* the frame at the range's first byte; of an anonymous one 0 */
	off_t offset;
};

static enum kind kind_draw(uint64_t *random)
{
	for (;;) {
		const uint64_t which = draw(random, 16);

		if (which >= 13)
			return ANONYMOUS;
		if (!options_refuse(which < 8 ? "shared" : "private"))
			return which < 8 ? SHARED : PRIVATE;
	}
}

/* A mapping of a range, as it may be drawn. */
static struct mapping mapping_draw(struct worker *worker, const struct range *range)
{
	struct mapping it = { .kind = kind_draw(&worker->random), .file = files.small, .first = FIRST_SMALL };
	const int is_large = range->region == &regions[LARGE], is_huge = range->region == &regions[HUGE];
	uint64_t page = draw(&worker->random, is_large ? 1 : is_huge ? HUGE_PAGES + 1 - range->count : SMALL_FRAMES + 1 - range->count);

	if (is_huge) {
		it.kind = SHARED;
		page *= 512;
	}
	if (is_huge || is_large) {
		it.file = is_huge ? files.huge : files.large;
		it.first = is_huge ? FIRST_HUGE : FIRST_LARGE;
	}
	it.first += page;
	it.offset = (off_t)(page * 4096);
	it.flags = it.kind == SHARED ? MAP_SHARED : MAP_PRIVATE;
	it.prot = prots[draw(&worker->random, prot_count)];
	if (it.kind == ANONYMOUS) {
		it.prot = prots_of_data[draw(&worker->random, prot_of_data_count)];
		it.flags |= MAP_ANONYMOUS;
		it.file = -1;
		it.first = 0;
		it.offset = 0;
	}
	if (draw(&worker->random, 4) == 0)
		it.flags |= MAP_POPULATE;
	return it;
}

static uint64_t number_at(const struct mapping *mapping, const struct range *range, const struct slot *slot)
{
	return mapping->kind == ANONYMOUS ? 0 : mapping->first + (slot->base - range->base) / 4096;
}

static void *map_there(const struct mapping *mapping, const struct range *range, int how)
{
	return mmap(at(range->base), range->bytes, mapping->prot, mapping->flags | how, mapping->file, mapping->offset);
}

static void set_mapped(const struct mapping *mapping, const struct range *range)
{
	for (unsigned k = 0; k < range->count; k++) {
		struct slot *slot = &slots[range->first + k];

		slot->is_mapped = 1;
		slot->kind = mapping->kind;
		slot->prot = mapping->prot;
		slot->number = slot->file_number = number_at(mapping, range, slot);
	}
}

/* ---- the operations, each with the locks of its range ---- */

static enum outcome map(struct worker *worker, const struct range *range)
{
	const struct mapping mapping = mapping_draw(worker, range);
	struct change change;
	void *got;

	if (!range_is_free(range))
		return NOTHING;
	change_begin(&change, worker->id);
	for (unsigned k = 0; k < range->count; k++)
		call_map(&change, &slots[range->first + k], number_at(&mapping, range, &slots[range->first + k]), mapping.prot);
	change_called(&change);
	got = map_there(&mapping, range, MAP_FIXED_NOREPLACE);
	if (got != at(range->base))
		failed("mmap", range);
	set_mapped(&mapping, range);
	change_done(&change);
	return MADE;
}

/* A page is in the way, so that mmap has to refuse. */
static enum outcome map_refused(struct worker *worker, const struct range *range)
{
	struct mapping mapping = mapping_draw(worker, range);
	struct slot *slot = &slots[range->first];
	struct change change;
	int error;
	void *got;

	if (range->count != 1 || !slot->is_mapped)
		return NOTHING;
	change_begin(&change, worker->id);
	call_map(&change, slot, number_at(&mapping, range, slot), mapping.prot);
	change.answers[0] = nrvs_overlap(slot->base);
	got = map_there(&mapping, range, MAP_FIXED_NOREPLACE);
	if (got == at(range->base)) {
		/* it replaced the page all the same: the auditor has to see that */
		change.answers[0] = nrvs_done();
		set_mapped(&mapping, range);
	} else if (got != MAP_FAILED) {
		/* this kernel takes the address for a hint */
		munmap(got, range->bytes);
		errno = EOPNOTSUPP;
	}
	error = errno;
	change_done(&change);
	errno = error;
	return got == at(range->base) || error == EEXIST ? MADE : REFUSED;
}

static enum outcome unmap(struct worker *worker, const struct range *range)
{
	struct change change;

	if (range->count > 1 && range_is_free(range))
		return NOTHING;
	change_begin(&change, worker->id);
	for (unsigned k = 0; k < range->count; k++)
		call_unmap(&change, &slots[range->first + k]);
	change_called(&change);
	if (munmap(at(range->base), range->bytes) != 0)
		failed("munmap", range);
	for (unsigned k = 0; k < range->count; k++)
		slots[range->first + k].is_mapped = 0;
	change_done(&change);
	return MADE;
}

static int has_anonymous(const struct range *range)
{
	for (unsigned k = 0; k < range->count; k++)
		if (slots[range->first + k].kind == ANONYMOUS)
			return 1;
	return 0;
}

static enum outcome protect(struct worker *worker, const struct range *range)
{
	const int is_mapped = range_is_mapped(range), is_data = has_anonymous(range);
	const int prot = is_data ? prots_of_data[draw(&worker->random, prot_of_data_count)] : prots[draw(&worker->random, prot_count)];
	struct change change;
	int status;

	if (!is_mapped && range->count > 1)
		return NOTHING;
	if (options.slip == FORGOTTEN_CHANGE && is_mapped && draw(&worker->random, 64) == 0)
		return mprotect(at(range->base), range->bytes, PROT_NONE) == 0 ? MADE : NOTHING;
	change_begin(&change, worker->id);
	for (unsigned k = 0; k < range->count; k++) {
		struct slot *slot = &slots[range->first + k];

		change_call(&change, nrvs_protect(slot->base, rights_of(prot)),
			    is_mapped ? nrvs_changed(rights_of(slot->prot)) : nrvs_not_mapped());
	}
	change_called(&change);
	status = mprotect(at(range->base), range->bytes, prot);
	if (is_mapped ? status != 0 : status == 0 || errno != ENOMEM)
		failed("mprotect", range);
	for (unsigned k = 0; k < range->count && is_mapped; k++)
		slots[range->first + k].prot = prot;
	change_done(&change);
	return MADE;
}

/* One page over another by one call: an unmap and a map, which are both under way. */
static enum outcome map_over(struct worker *worker, const struct range *range)
{
	const struct mapping mapping = mapping_draw(worker, range);
	struct change change;

	change_begin(&change, worker->id);
	for (unsigned k = 0; k < range->count; k++) {
		struct slot *slot = &slots[range->first + k];

		if (slot->is_mapped)
			call_unmap(&change, slot);
		call_map(&change, slot, number_at(&mapping, range, slot), mapping.prot);
	}
	change_called(&change);
	if (map_there(&mapping, range, MAP_FIXED) != at(range->base))
		failed("mmap with MAP_FIXED", range);
	set_mapped(&mapping, range);
	change_done(&change);
	return MADE;
}

/* ---- with a range that is drawn, and locked meanwhile ---- */

static enum outcome with_range(struct worker *worker, enum outcome (*make)(struct worker *, const struct range *))
{
	const struct range range = range_draw(&worker->random);
	enum outcome outcome;

	range_lock(&range);
	outcome = make(worker, &range);
	range_unlock(&range);
	worker->last = range.first + (unsigned)draw(&worker->random, range.count);
	hot_slot = worker->last;
	return outcome;
}

static enum outcome make_map(struct worker *worker) { return with_range(worker, map); }
static enum outcome make_map_refused(struct worker *worker) { return with_range(worker, map_refused); }
static enum outcome make_unmap(struct worker *worker) { return with_range(worker, unmap); }
static enum outcome make_protect(struct worker *worker) { return with_range(worker, protect); }
static enum outcome make_map_over(struct worker *worker) { return with_range(worker, map_over); }

const struct operation changes[] = {
	{ "map", "mmap, MAP_FIXED_NOREPLACE", make_map, 24 },
	{ "map-refused", "the same over a page: EEXIST", make_map_refused, 2 },
	{ "unmap", "munmap", make_unmap, 12 },
	{ "protect", "mprotect", make_protect, 20 },
	{ "map-over", "mmap, MAP_FIXED over a page", make_map_over, 10 },
	{ 0 },
};
