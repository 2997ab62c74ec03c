#define _GNU_SOURCE
#include "window.h"
#include "frames.h"
#include "options.h"
#include "random.h"

#include <string.h>
#include <sys/mman.h>

struct slot slots[SLOTS];
struct region regions[REGIONS] = {
	[SMALL] = { "pages of 4 KiB", WINDOW, SMALL_SLOTS * 4096, 0, SMALL_SLOTS, 1 },
	[LARGE] = { "2 MiB that may become a large page", WINDOW + HUGE_BYTES, HUGE_BYTES, SMALL_SLOTS, LARGE_SLOTS, 1 },
	[HUGE] = { "pages of 2 MiB", WINDOW + 2 * HUGE_BYTES, HUGE_SLOTS * HUGE_BYTES, SMALL_SLOTS + LARGE_SLOTS, HUGE_SLOTS, 0 },
	[WATCHED] = { "pages that userfaultfd watches", WINDOW + 5 * HUGE_BYTES, WATCHED_SLOTS * 4096, SLOTS - WATCHED_SLOTS, WATCHED_SLOTS, 0 },
};

/* The pages of LARGE that are slots: at both ends, side by side, and some in between. */
static uint64_t large_page(unsigned k) { return k < 4 ? k : k >= LARGE_SLOTS - 4 ? 512 - LARGE_SLOTS + k : k * 37; }

void window_begin(int has_huge)
{
	regions[HUGE].is_there = has_huge;
	regions[SMALL].count = options.pages;
	regions[SMALL].bytes = options.pages * 4096u;
	for (unsigned r = 0; r < REGIONS; r++) {
		for (unsigned k = 0; k < regions[r].count; k++) {
			struct slot *slot = &slots[regions[r].first + k];

			pthread_mutex_init(&slot->lock, NULL);
			slot->base = regions[r].base + (r == HUGE ? k * HUGE_BYTES : 4096 * (r == LARGE ? large_page(k) : k));
			slot->size = r == HUGE ? NRVS_2M : NRVS_4K;
		}
	}
}

int slot_is_there(unsigned slot)
{
	for (unsigned r = 0; r < REGIONS; r++)
		if (slot >= regions[r].first && slot - regions[r].first < regions[r].count)
			return regions[r].is_there;
	return 0;
}

void range_lock(const struct range *range)
{
	for (unsigned k = 0; k < range->count; k++) {
		pthread_mutex_lock(&slots[range->first + k].lock);
		atomic_fetch_add(&slots[range->first + k].version, 1);
	}
}

void range_unlock(const struct range *range)
{
	for (unsigned k = 0; k < range->count; k++) {
		atomic_fetch_add(&slots[range->first + k].version, 1);
		pthread_mutex_unlock(&slots[range->first + k].lock);
	}
}

unsigned slot_draw(uint64_t *random)
{
	const struct region *region = &regions[options.pages ? SMALL : LARGE];

	return region->first + (unsigned)draw(random, region->count);
}

struct range range_of_slot(unsigned slot)
{
	const struct range range = { &regions[SMALL], slot, 1, slots[slot].base, 4096 };

	return range;
}

struct range range_draw(uint64_t *random)
{
	const uint64_t where = draw(random, 16), length = draw(random, 32);
	const int is_huge = where == 1 && regions[HUGE].is_there, is_large = where == 0 || options.pages == 0;
	const struct region *region = &regions[is_huge ? HUGE : is_large ? LARGE : SMALL];
	struct range range = { region, region->first, region->count, region->base, region->bytes };

	if (region == &regions[LARGE])
		return range;
	range.count = length == 0 ? region->count : length < 8 ? (unsigned)draw(random, 8) + 1 : 1;
	if (range.count > region->count)
		range.count = region->count;
	range.first += (unsigned)draw(random, region->count - range.count + 1);
	range.base = slots[range.first].base;
	range.bytes = region->bytes / region->count * range.count;
	return range;
}

int range_is_mapped(const struct range *range)
{
	unsigned mapped = 0;

	for (unsigned k = 0; k < range->count; k++)
		mapped += slots[range->first + k].is_mapped != 0;
	return mapped == range->count;
}

int range_is_free(const struct range *range)
{
	for (unsigned k = 0; k < range->count; k++)
		if (slots[range->first + k].is_mapped)
			return 0;
	return 1;
}

unsigned rights_of(int prot)
{
	if (prot == PROT_NONE)
		return 0;
	return NRVS_USER | (prot & PROT_WRITE ? NRVS_WRITE : 0) | (prot & PROT_EXEC ? NRVS_EXEC : 0);
}

/* ---- as page tables ---- */

enum { MOST_TABLES = 8 };
#define FIRST_TABLE 0x40000000u /* the frames of the tables: none of these is a page's */
#define TO_TABLE ((uint64_t)7)  /* present, write, user */
#define LARGE_PAGE ((uint64_t)1 << 7)
#define NO_EXEC ((uint64_t)1 << 63)

static uint64_t tables[MOST_TABLES][512];
static unsigned table_count;

static unsigned add_table(void)
{
	memset(tables[table_count], 0, sizeof(tables[0]));
	return table_count++;
}

/* The table below this entry, which is made where it isn't there. */
static unsigned below(unsigned table, uint64_t index)
{
	uint64_t *entry = &tables[table][index];

	if (*entry == 0)
		*entry = (uint64_t)(FIRST_TABLE + add_table()) << 12 | TO_TABLE;
	return (unsigned)((*entry >> 12) - FIRST_TABLE);
}

static void add_page(const struct slot *slot)
{
	const unsigned rights = rights_of(slot->prot);
	const uint64_t bits = 1u | (rights & NRVS_WRITE ? 2u : 0) | (rights & NRVS_USER ? 4u : 0) | (rights & NRVS_EXEC ? 0 : NO_EXEC);
	const unsigned directory = below(below(0, slot->base >> 39 & 511), slot->base >> 30 & 511);

	if (slot->size == NRVS_2M)
		tables[directory][slot->base >> 21 & 511] = phys_of(slot->number) | bits | LARGE_PAGE;
	else
		tables[below(directory, slot->base >> 21 & 511)][slot->base >> 12 & 511] = phys_of(slot->number) | bits;
}

uint64_t window_tables(void)
{
	table_count = 0;
	add_table();
	for (unsigned k = 0; k < SLOTS; k++)
		if (slots[k].is_mapped)
			add_page(&slots[k]);
	return FIRST_TABLE;
}

int window_lend(void *context, uint64_t number, const uint64_t **words)
{
	(void)context;
	*words = number >= FIRST_TABLE && number < FIRST_TABLE + table_count ? tables[number - FIRST_TABLE] : NULL;
	return 0;
}
