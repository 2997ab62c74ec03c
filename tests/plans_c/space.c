/* What a page table is to translate: a plain list of pages. */
#include "space.h"

#include <stdio.h>
#include <stdlib.h>
#include <string.h>

enum { PARTS = 512, FLAGS = 0x60 };

static uint64_t bytes_of(unsigned size)
{
	return UINT64_C(4096) << 9 * size;
}

static uint64_t last_of(const struct page *page)
{
	return page->base + (bytes_of(page->size) - 1);
}

/* How many pages begin below an address. */
static unsigned count_below(const struct space *space, uint64_t address)
{
	unsigned from = 0, to = space->count;
	while (from < to) {
		unsigned at = from + (to - from) / 2;
		if (space->pages[at].base < address)
			from = at + 1;
		else
			to = at;
	}
	return from;
}

const struct page *space_page(const struct space *space, uint64_t address)
{
	unsigned at = count_below(space, address);
	if (at < space->count && space->pages[at].base == address)
		return &space->pages[at];
	return at > 0 && last_of(&space->pages[at - 1]) >= address ? &space->pages[at - 1] : NULL;
}

void space_copy(struct space *to, const struct space *from)
{
	memcpy(to->pages, from->pages, from->count * sizeof from->pages[0]);
	to->count = from->count;
}

static struct answered of_code(unsigned code, uint64_t number)
{
	struct answered a;
	memset(&a, 0, sizeof a);
	a.reply.code = (uint8_t)code;
	a.reply.number = number;
	return a;
}

static struct answered of_page(unsigned code, const struct page *page, uint64_t number)
{
	struct answered a = of_code(code, number);
	a.reply.rights = (uint8_t)page->rights;
	a.reply.size = (uint8_t)(code == NRVS_CHANGED ? 0 : page->size);
	a.bits = page->bits;
	return a;
}

/* So many places more, or fewer, from one on. */
static struct page *make_room(struct space *space, unsigned at, int places)
{
	unsigned from = places < 0 ? at + (unsigned)-places : at;
	if (space->count + (unsigned)places > MOST_PAGES) {
		printf("too many pages\n");
		exit(2);
	}
	memmove(&space->pages[at + (places > 0 ? (unsigned)places : 0)], &space->pages[from], (space->count - from) * sizeof space->pages[0]);
	space->count += (unsigned)places;
	return &space->pages[at];
}

struct answered space_map(struct space *space, struct page page)
{
	const struct page *under = space_page(space, page.base);
	unsigned at = count_below(space, page.base);
	if (under)
		return of_code(NRVS_OVERLAP, under->base);
	if (at < space->count && space->pages[at].base <= last_of(&page))
		return of_code(NRVS_OVERLAP, space->pages[at].base);
	*make_room(space, at, 1) = page;
	return of_code(NRVS_DONE, 0);
}

/* The page that begins at the base: its index; or what is answered. */
static int find(const struct space *space, uint64_t base, unsigned *at, struct answered *answer)
{
	const struct page *page = space_page(space, base);
	if (!page || page->base != base) {
		*answer = page ? of_code(NRVS_INSIDE, page->base) : of_code(NRVS_NOT_MAPPED, 0);
		return 0;
	}
	*at = (unsigned)(page - space->pages);
	*answer = of_page(NRVS_CHANGED, page, 0);
	return 1;
}

struct answered space_unmap(struct space *space, uint64_t base)
{
	struct answered a;
	unsigned at;
	if (!find(space, base, &at, &a))
		return a;
	a = of_page(NRVS_REMOVED, &space->pages[at], space->pages[at].physical);
	make_room(space, at, -1);
	return a;
}

struct answered space_protect(struct space *space, uint64_t base, unsigned rights)
{
	struct answered a;
	unsigned at;
	if (find(space, base, &at, &a))
		space->pages[at].rights = rights;
	return a;
}

struct answered space_remap(struct space *space, uint64_t base, uint64_t physical, unsigned rights, unsigned phys_bits)
{
	struct answered a;
	uint64_t bytes, end = UINT64_C(1) << (phys_bits > 51 ? 51 : phys_bits);
	unsigned at;
	if (!find(space, base, &at, &a))
		return a;
	bytes = bytes_of(space->pages[at].size);
	if (physical % bytes)
		return of_code(NRVS_MISPLACED, 0);
	if (physical > end - bytes)
		return of_code(NRVS_BEYOND, 0);
	space->pages[at].physical = physical;
	space->pages[at].rights = rights;
	return a;
}

/* A part of a page. */
static struct page part_of(struct page page, unsigned number)
{
	page.size--;
	page.base += number * bytes_of(page.size);
	page.physical += number * bytes_of(page.size);
	return page;
}

struct answered space_split(struct space *space, uint64_t base)
{
	struct answered a;
	struct page page;
	unsigned at, k;
	if (!find(space, base, &at, &a))
		return a;
	page = space->pages[at];
	if (page.size == NRVS_4K)
		return of_code(NRVS_SMALLEST, 0);
	make_room(space, at, PARTS - 1);
	for (k = 0; k < PARTS; k++)
		space->pages[at + k] = part_of(page, k);
	return a;
}

/* The number of the first page that isn't the next part of a page; PARTS where all are. */
static unsigned first_apart(const struct space *space, unsigned at, struct page whole)
{
	unsigned k;
	for (k = 0; k < PARTS; k++) {
		struct page part = part_of(whole, k), page;
		if (at + k >= space->count)
			return k;
		page = space->pages[at + k];
		if (page.base != part.base || page.size != part.size || page.physical != part.physical || page.rights != part.rights ||
		    ((page.bits ^ part.bits) & ~(uint64_t)FLAGS))
			return k;
	}
	return k;
}

struct answered space_join(struct space *space, uint64_t base)
{
	struct answered a;
	struct page page;
	unsigned at, apart;
	uint64_t bytes;
	if (!find(space, base, &at, &a))
		return a;
	page = space->pages[at];
	if (page.size == NRVS_1G)
		return of_code(NRVS_LARGEST, 0);
	page.size++;
	bytes = bytes_of(page.size);
	if (page.base % bytes)
		return of_code(NRVS_NOT_FIRST, 0);
	if (page.physical % bytes)
		return of_code(NRVS_MISPLACED, 0);
	apart = first_apart(space, at, page);
	if (apart < PARTS)
		return of_code(NRVS_APART, apart);
	page.bits |= FLAGS;
	*make_room(space, at, 1 - PARTS) = page;
	return a;
}

/* A split, and then an unmap of each of these parts. */
struct answered space_unmap_part(struct space *space, uint64_t base, uint64_t first, uint64_t count)
{
	struct answered a = space_split(space, base);
	uint64_t k, bytes;
	if (a.reply.code != NRVS_CHANGED)
		return a;
	bytes = bytes_of(space_page(space, base)->size);
	for (k = first; k < first + count; k++)
		space_unmap(space, base + k * bytes);
	return a;
}

/* The number of the first page that isn't there or isn't like the first, but for its physical address and flags; PARTS where all are. */
static unsigned first_unlike(const struct space *space, unsigned at, struct page whole)
{
	unsigned k;
	for (k = 0; k < PARTS && at + k < space->count; k++) {
		struct page part = part_of(whole, k), page = space->pages[at + k];
		if (page.base != part.base || page.size != part.size || page.rights != part.rights || ((page.bits ^ part.bits) & ~(uint64_t)FLAGS))
			return k;
	}
	return k;
}

struct answered space_collapse(struct space *space, uint64_t base, uint64_t physical, unsigned rights, unsigned phys_bits)
{
	struct answered a;
	struct page page;
	unsigned at, unlike;
	uint64_t bytes, end = UINT64_C(1) << (phys_bits > 51 ? 51 : phys_bits);
	if (!find(space, base, &at, &a))
		return a;
	page = space->pages[at];
	if (page.size == NRVS_1G)
		return of_code(NRVS_LARGEST, 0);
	page.size++;
	bytes = bytes_of(page.size);
	if (page.base % bytes)
		return of_code(NRVS_NOT_FIRST, 0);
	if (physical % bytes)
		return of_code(NRVS_MISPLACED, 0);
	if (physical > end - bytes)
		return of_code(NRVS_BEYOND, 0);
	unlike = first_unlike(space, at, page);
	if (unlike < PARTS)
		return of_code(NRVS_APART, unlike);
	page.bits |= FLAGS;
	page.physical = physical;
	page.rights = rights;
	*make_room(space, at, 1 - PARTS) = page;
	return a;
}

struct answered space_ask(const struct space *space, uint64_t address)
{
	const struct page *page = space_page(space, address);
	return page ? of_page(NRVS_MAPPED, page, page->physical + (address - page->base)) : of_code(NRVS_NOT_MAPPED, 0);
}

struct walked space_walk(const struct space *space, uint64_t address)
{
	struct walked w = {ENDS_ABSENT, 0, 0, 0};
	const struct page *page = space_page(space, address);
	if (page) {
		w.end = ENDS_MAPPED;
		w.size = page->size;
		w.rights = page->rights;
		w.physical = page->physical + (address - page->base);
	}
	return w;
}
