#include "page_table.h"

#include "bugs.h"

#include <stdlib.h>
#include <string.h>

#define PRESENT 1u
#define LARGE 0x80u
#define NO_EXEC ((uint64_t)1 << 63)
#define ADDRESS (((uint64_t)1 << 52) - 4096)

/* The entries met on the way to an address, by level: 4 is the root's. */
typedef uint64_t *entries[5];

/* The bytes that an entry of a table at that level covers: 4 KiB at level 1. */
static uint64_t span(int level) { return (uint64_t)1 << (3 + 9 * level); }

static unsigned index_at(uint64_t address, int level) { return address / span(level) % 512; }

static uint64_t *words_of(struct page_table *table, uint64_t entry)
{
	return table->memory[(entry & ADDRESS) / 4096 - FIRST_FRAME];
}

static int is_page(uint64_t entry, int level) { return level == 1 || (level < 4 && entry & LARGE); }

static uint64_t entry_rights(unsigned rights)
{
	return (rights & NRVS_WRITE ? 2u : 0u) | (rights & NRVS_USER ? 4u : 0u) | (rights & NRVS_EXEC ? 0 : NO_EXEC);
}

static unsigned rights_of(uint64_t entry)
{
	return (entry & 2 ? NRVS_WRITE : 0) | (entry & 4 ? NRVS_USER : 0) | (entry & NO_EXEC ? 0 : NRVS_EXEC);
}

/* ---- frames ---- */

static uint64_t take_frame(struct page_table *table)
{
	unsigned k;

	if (table->free_count == 0)
		abort(); /* the limit is met first, but for a leak that goes on */
	k = table->free[--table->free_count];
	table->in_use[k] = 1;
	table->tables++;
	memset(table->memory[k], 0, sizeof(table->memory[k]));
	return FIRST_FRAME + k;
}

static void give_frame(struct page_table *table, uint64_t number)
{
	unsigned k = (unsigned)(number - FIRST_FRAME);

	table->tables--;
	if (bug(LEAKED_TABLE, 16, k))
		return;
	table->in_use[k] = 0;
	table->free[table->free_count++] = (uint16_t)k;
}

int page_table_make(struct page_table *table, uint32_t limit)
{
	memset(table, 0, sizeof(*table));
	table->memory = calloc(FRAME_ROOM, sizeof(*table->memory));
	if (!table->memory)
		return 0;
	for (unsigned k = FRAME_ROOM; k-- > 0;)
		table->free[table->free_count++] = (uint16_t)k;
	table->limit = limit;
	table->root = take_frame(table);
	return 1;
}

void page_table_drop(struct page_table *table) { free(table->memory); }

/* ---- the four requests ---- */

/* Walks to the address. Returns the level at which the walk ends: there is an absent entry, or a page. */
static int walk(struct page_table *table, uint64_t address, entries way)
{
	uint64_t *words = table->memory[table->root - FIRST_FRAME];

	for (int level = 4;; level--) {
		way[level] = &words[index_at(address, level)];
		if (!(*way[level] & PRESENT) || is_page(*way[level], level))
			return level;
		words = words_of(table, *way[level]);
	}
}

/* The base of the first page below a table that covers addresses from base on. */
static uint64_t first_page(struct page_table *table, uint64_t entry, int level, uint64_t base)
{
	const uint64_t *words = words_of(table, entry);
	unsigned k = 0;

	while (k < 511 && !(words[k] & PRESENT))
		k++;
	base += k * span(level);
	return is_page(words[k], level) || !(words[k] & PRESENT) ? base : first_page(table, words[k], level - 1, base);
}

nrvs_answer page_table_map(struct page_table *table, uint64_t address, nrvs_size size, uint64_t phys, unsigned rights)
{
	const int leaf = (int)size + 1;
	entries way;
	int level = walk(table, address, way);

	if (level < leaf)
		return nrvs_overlap(first_page(table, *way[leaf], leaf - 1, address));
	if (*way[level] & PRESENT)
		return nrvs_overlap(address - address % span(level));
	if (table->tables + (uint32_t)(level - leaf) > table->limit)
		return nrvs_full(table->tables + (uint32_t)(level - leaf));

	for (; level > leaf; level--) {
		uint64_t frame = take_frame(table);

		*way[level] = frame * 4096 | PRESENT | entry_rights(NRVS_WRITE | NRVS_USER | NRVS_EXEC);
		if (bug(LEAF_RIGHTS, 1, 0))
			*way[level] = frame * 4096 | PRESENT | entry_rights(rights);
		if (bug(SHARED_TABLE, 1, 0))
			way[level][1] = *way[level];
		way[level - 1] = &table->memory[frame - FIRST_FRAME][index_at(address, level - 1)];
	}
	if (leaf > 1 && bug(UNALIGNED_LARGE_PAGE, 1, 0))
		phys += 2 * 4096;
	if (bug(LOST_UPDATE, 8, index_at(address, 1)))
		return nrvs_done();
	*way[leaf] = phys | PRESENT | entry_rights(rights) | (leaf > 1 ? LARGE : 0);
	return nrvs_done();
}

/* Frees the tables that became empty, from the one that has the entry at this level upwards. */
static void free_empty(struct page_table *table, uint64_t address, entries way, int level)
{
	for (; level < 4; level++) {
		const uint64_t *words = way[level] - index_at(address, level);
		uint64_t frame = (*way[level + 1] & ADDRESS) / 4096;

		for (unsigned k = 0; k < 512; k++)
			if (words[k] & PRESENT)
				return;
		if (!bug(FREED_TABLE, 1, 0))
			*way[level + 1] = 0;
		give_frame(table, frame);
	}
}

/* What a page's entry says: its physical address, less what the bits below its size are used for. */
static uint64_t page_address(uint64_t entry, int level) { return (entry & ADDRESS) / span(level) * span(level); }

nrvs_answer page_table_unmap(struct page_table *table, uint64_t address)
{
	entries way;
	int level = walk(table, address, way);
	uint64_t entry = *way[level];

	if (!(entry & PRESENT))
		return nrvs_not_mapped();
	if (address % span(level) != 0)
		return nrvs_inside(address - address % span(level));
	*way[level] = 0;
	if (index_at(address, level) < 511 && bug(UNMAP_NEIGHBOUR, 1, 0))
		way[level][1] = 0;
	free_empty(table, address, way, level);
	return nrvs_removed(page_address(entry, level), (nrvs_size)(level - 1), rights_of(entry));
}

nrvs_answer page_table_protect(struct page_table *table, uint64_t address, unsigned rights)
{
	entries way;
	int level = walk(table, address, way);
	uint64_t entry = *way[level];

	if (!(entry & PRESENT))
		return nrvs_not_mapped();
	if (address % span(level) != 0)
		return nrvs_inside(address - address % span(level));
	*way[level] = (entry & (ADDRESS | LARGE)) | PRESENT | entry_rights(rights);
	return nrvs_changed(rights_of(entry));
}

nrvs_answer page_table_resolve(struct page_table *table, uint64_t address)
{
	entries way;
	int level = walk(table, address, way);
	unsigned rights = rights_of(*way[level]);

	if (!(*way[level] & PRESENT))
		return nrvs_not_mapped();
	if (!bug(LEAF_RIGHTS, 1, 0))
		for (int above = level + 1; above <= 4; above++)
			rights &= rights_of(*way[above]);
	return nrvs_mapped(page_address(*way[level], level) + address % span(level), (nrvs_size)(level - 1), rights);
}
