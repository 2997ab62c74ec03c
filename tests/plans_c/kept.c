/* What a processor may keep of walks. */
#include "kept.h"
#include "nrvs_plan.h"

#include <string.h>

static uint64_t bytes_of(unsigned size)
{
	return UINT64_C(4096) << 9 * size;
}

/* How much a table of this level covers. */
static uint64_t table_bytes(unsigned level)
{
	return UINT64_C(1) << (12 + 9 * level);
}

static int covers(uint64_t base, uint64_t bytes, uint64_t address)
{
	return address - base < bytes;
}

static void keep_page(struct kept *kept, struct translation page)
{
	unsigned at = kept->page_count < MOST_KEPT ? kept->page_count++ : (unsigned)draw(&kept->seed, MOST_KEPT);
	kept->pages[at] = page;
}

static void keep_link(struct kept *kept, struct link link)
{
	unsigned at = kept->link_count < MOST_KEPT ? kept->link_count++ : (unsigned)draw(&kept->seed, MOST_KEPT);
	kept->links[at] = link;
}

void keep_walk(struct kept *kept, const struct memory *memory, uint64_t levels, uint64_t root, uint64_t address)
{
	unsigned level = (unsigned)levels, rights = 7, i;
	uint64_t frame = root;
	/* from an entry that is kept, in one of two walks */
	for (i = 0; i < kept->link_count && draw(&kept->seed, 2); i++)
		if (covers(kept->links[i].base, table_bytes(kept->links[i].level), address)) {
			level = kept->links[i].level;
			rights = kept->links[i].rights;
			frame = kept->links[i].frame;
		}
	for (;; level--) {
		const uint64_t *words = memory_words(memory, frame);
		uint64_t word = words ? words[address >> (3 + 9 * level) & 511] : 0;
		if (!(word & 1))
			return;
		rights &= (unsigned)(word >> 1 & 3) | (word >> 63 ? 0 : 4u);
		frame = word >> 12 & ((UINT64_C(1) << 40) - 1);
		if (level == 1 || (level < 4 && word & 128)) {
			struct translation page = {address & ~(bytes_of(level - 1) - 1), (frame << 12) & ~(bytes_of(level - 1) - 1), level - 1, rights};
			keep_page(kept, page);
			return;
		}
		{
			struct link link = {address & ~(table_bytes(level - 1) - 1), frame, level - 1, rights};
			keep_link(kept, link);
		}
	}
}

void forget(struct kept *kept, unsigned flush, uint64_t base, unsigned size)
{
	unsigned i;
	if (flush == NRVS_FLUSH_NOTHING)
		return;
	for (i = 0; i < kept->page_count;)
		if (covers(kept->pages[i].base, bytes_of(kept->pages[i].size), base) || covers(base, bytes_of(size), kept->pages[i].base))
			kept->pages[i] = kept->pages[--kept->page_count];
		else
			i++;
	for (i = 0; flush >= NRVS_FLUSH_PAGE_AND_TABLES && i < kept->link_count;)
		if (covers(kept->links[i].base, table_bytes(kept->links[i].level), base) ||
		    (flush == NRVS_FLUSH_RANGE && covers(base, bytes_of(size), kept->links[i].base)))
			kept->links[i] = kept->links[--kept->link_count];
		else
			i++;
}

static int same(struct walked a, struct walked b)
{
	return a.end == b.end && (a.end != ENDS_MAPPED || (a.physical == b.physical && a.size == b.size && a.rights == b.rights));
}

int agrees(const struct kept *kept, const struct memory *memory, uint64_t levels, uint64_t root, uint64_t address)
{
	struct walked now = memory_walk(memory, levels, root, address);
	unsigned i;
	for (i = 0; i < kept->page_count; i++) {
		const struct translation *page = &kept->pages[i];
		struct walked as_kept = {ENDS_MAPPED, page->size, page->rights, page->physical + (address - page->base)};
		if (covers(page->base, bytes_of(page->size), address) && !same(as_kept, now))
			return 0;
	}
	for (i = 0; i < kept->link_count; i++) {
		const struct link *link = &kept->links[i];
		if (covers(link->base, table_bytes(link->level), address) &&
		    !same(memory_walk_from(memory, link->level, link->frame, link->rights, address), now))
			return 0;
	}
	return 1;
}

int leads_to(const struct kept *kept, uint64_t frame)
{
	unsigned i;
	for (i = 0; i < kept->link_count; i++)
		if (kept->links[i].frame == frame)
			return 1;
	return 0;
}
