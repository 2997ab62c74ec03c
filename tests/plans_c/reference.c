/* Plans in plain C, written from docs/FORMATS.md and nrvs_plan.h: the second model of tests/plans. It is one file, so that nothing of it can
 * be seen but its calls.
 */
#include "reference.h"

#include <string.h>

enum { MAP = 1, UNMAP = 2, PROTECT = 3, ASK = 4, REMAP = 5, SPLIT = 6, JOIN = 7, PRUNE = 8, UNMAP_PART = 9, COLLAPSE = 10 };
#define PRESENT UINT64_C(1)
#define WRITE UINT64_C(2)
#define USER UINT64_C(4)
#define LARGE UINT64_C(128)
#define NX (UINT64_C(1) << 63)
#define FLAGS UINT64_C(0x60)
#define ADDRESS UINT64_C(0x000ffffffffff000)

/* A table that was shown: its frame, the word at the index of the address, and whether all other words are 0. */
struct shown {
	uint64_t frame, word, alone;
};

/* What is kept between two calls. Level l has index l - 1. */
struct kept {
	uint64_t kind, levels, phys_bits, pinned, size, rights, step, level, searching, missing, given_count;
	uint64_t address, physical, bits, base, given[4];
	struct shown shown[5];
};

/* In `own` of the plan: small numbers by bytes, then the others; one is in `way`. */
static struct kept load(const struct nrvs_plan *plan)
{
	const uint64_t *own = plan->own;
	struct kept k;
	unsigned i;
	k.kind = own[0] & 255, k.levels = own[0] >> 8 & 255, k.phys_bits = own[0] >> 16 & 255, k.pinned = own[0] >> 24 & 255;
	k.size = own[0] >> 32 & 255, k.rights = own[0] >> 40 & 255, k.step = own[0] >> 48 & 255, k.level = own[0] >> 56;
	k.searching = own[1] & 255, k.missing = own[1] >> 8 & 255, k.given_count = own[1] >> 16 & 255;
	k.address = own[2], k.physical = own[3], k.bits = own[4], k.base = plan->way[0];
	for (i = 0; i < 4; i++)
		k.given[i] = own[5 + i];
	for (i = 0; i < 5; i++) {
		k.shown[i].frame = own[9 + i];
		k.shown[i].word = own[14 + i];
		k.shown[i].alone = own[1] >> (24 + i) & 1;
	}
	return k;
}

static uint32_t keep(struct nrvs_plan *plan, const struct kept *k)
{
	uint64_t *own = plan->own;
	unsigned i;
	own[0] = k->kind | k->levels << 8 | k->phys_bits << 16 | k->pinned << 24 | k->size << 32 | k->rights << 40 | k->step << 48 |
		 k->level << 56;
	own[1] = k->searching | k->missing << 8 | k->given_count << 16;
	own[2] = k->address, own[3] = k->physical, own[4] = k->bits, plan->way[0] = k->base;
	for (i = 0; i < 4; i++)
		own[5 + i] = k->given[i];
	for (i = 0; i < 5; i++) {
		own[9 + i] = k->shown[i].frame;
		own[14 + i] = k->shown[i].word;
		own[1] |= k->shown[i].alone << (24 + i);
	}
	return (uint32_t)k->step;
}

static uint64_t bytes_of(uint64_t level)
{
	return UINT64_C(1) << (3 + 9 * level);
}

static uint64_t index_at(uint64_t level, uint64_t address)
{
	return address >> (3 + 9 * level) & 511;
}

static int canonical(uint64_t levels, uint64_t address)
{
	uint64_t high = address >> (11 + 9 * levels);
	return high == 0 || high == UINT64_MAX >> (11 + 9 * levels);
}

static int is_leaf(uint64_t level, uint64_t word)
{
	return level == 1 || (level < 4 && word & LARGE);
}

/* Bits that are reserved in a present entry, without those beyond the physical addresses (docs/FORMATS.md). */
static int has_reserved(uint64_t level, uint64_t word)
{
	if (level > 3)
		return (word & LARGE) != 0;
	return level > 1 && word & LARGE && word & (bytes_of(level) - 1) & ~UINT64_C(0x1fff);
}

static uint64_t rights_of(uint64_t word)
{
	return (word & WRITE ? NRVS_WRITE : 0) | (word & USER ? NRVS_USER : 0) | (word & NX ? 0 : NRVS_EXEC);
}

static uint64_t bits_of_rights(uint64_t rights)
{
	return (rights & NRVS_WRITE ? WRITE : 0) | (rights & NRVS_USER ? USER : 0) | (rights & NRVS_EXEC ? 0 : NX);
}

/* Attributes at the places of an entry of this level, and from there. */
static uint64_t placed(uint64_t level, uint64_t bits)
{
	return level == 1 ? bits : (bits & ~LARGE) | (bits & LARGE) << 5 | LARGE;
}

static uint64_t attributes(uint64_t level, uint64_t word)
{
	return level == 1 ? word & NRVS_ATTRIBUTES : (word & NRVS_ATTRIBUTES & ~LARGE) | (word & UINT64_C(1) << 12) >> 5;
}

static uint64_t physical_of(uint64_t level, uint64_t word)
{
	return word & ADDRESS & ~(bytes_of(level) - 1);
}

/* What is wrong with a target, before and behind the numbers of a request; then with an address. */
static uint32_t levels_fault(const struct nrvs_target *target)
{
	if (target->levels != 4 && target->levels != 5)
		return NRVS_BAD_LEVELS;
	return target->phys_bits > 52 ? NRVS_PHYS_BITS : NRVS_OK;
}

static uint32_t base_fault(const struct nrvs_target *target, uint64_t base, uint64_t bytes)
{
	if (target->phys_bits < 36)
		return NRVS_PHYS_BITS;
	if (target->root >> (target->phys_bits - 12))
		return NRVS_BAD_ROOT;
	if (!canonical(target->levels, base))
		return NRVS_NOT_CANONICAL;
	return base % bytes ? NRVS_UNALIGNED : NRVS_OK;
}

static uint32_t begin(struct nrvs_plan *plan, const struct nrvs_target *target, struct kept k)
{
	memset(plan, 0, sizeof *plan);
	k.levels = k.level = target->levels;
	k.phys_bits = target->phys_bits;
	k.pinned = target->pinned > target->levels ? 0 : target->pinned;
	plan->frame = target->root;
	k.step = NRVS_SEE;
	return keep(plan, &k);
}

uint32_t reference_map(struct nrvs_plan *plan, const struct nrvs_target *target, uint64_t base, uint32_t size, uint64_t physical,
		       uint32_t rights, uint64_t bits)
{
	struct kept k = {.kind = MAP, .address = base, .size = size, .physical = physical, .rights = rights, .bits = bits};
	uint64_t bytes, end;
	uint32_t status = levels_fault(target);
	if (status != NRVS_OK)
		return status;
	if (size > 2)
		return NRVS_BAD_SIZE;
	if (rights > 7)
		return NRVS_BAD_RIGHTS;
	bytes = bytes_of(size + 1);
	if ((status = base_fault(target, base, bytes)) != NRVS_OK)
		return status;
	if (physical % bytes)
		return NRVS_PHYS_UNALIGNED;
	end = UINT64_C(1) << (target->phys_bits > 51 ? 51 : target->phys_bits);
	if (physical > end - bytes)
		return NRVS_PHYS_RANGE;
	return bits & ~NRVS_ATTRIBUTES ? NRVS_BAD_BITS : begin(plan, target, k);
}

uint32_t reference_ask(struct nrvs_plan *plan, const struct nrvs_target *target, uint64_t address)
{
	struct kept k = {.kind = ASK, .address = address};
	uint32_t status = levels_fault(target);
	if (status == NRVS_OK)
		status = base_fault(target, address, 1);
	return status != NRVS_OK ? status : begin(plan, target, k);
}

static uint32_t begin_at(struct nrvs_plan *plan, const struct nrvs_target *target, struct kept k)
{
	uint32_t status = levels_fault(target);
	if (status == NRVS_OK)
		status = k.rights > 7 ? NRVS_BAD_RIGHTS : base_fault(target, k.address, 4096);
	return status != NRVS_OK ? status : begin(plan, target, k);
}

uint32_t reference_unmap(struct nrvs_plan *plan, const struct nrvs_target *target, uint64_t base)
{
	struct kept k = {.kind = UNMAP, .address = base};
	return begin_at(plan, target, k);
}

uint32_t reference_protect(struct nrvs_plan *plan, const struct nrvs_target *target, uint64_t base, uint32_t rights)
{
	struct kept k = {.kind = PROTECT, .address = base, .rights = rights};
	return begin_at(plan, target, k);
}

uint32_t reference_remap(struct nrvs_plan *plan, const struct nrvs_target *target, uint64_t base, uint64_t physical, uint32_t rights)
{
	struct kept k = {.kind = REMAP, .address = base, .physical = physical, .rights = rights};
	return begin_at(plan, target, k);
}

uint32_t reference_split(struct nrvs_plan *plan, const struct nrvs_target *target, uint64_t base)
{
	struct kept k = {.kind = SPLIT, .address = base};
	return begin_at(plan, target, k);
}

uint32_t reference_join(struct nrvs_plan *plan, const struct nrvs_target *target, uint64_t base)
{
	struct kept k = {.kind = JOIN, .address = base};
	return begin_at(plan, target, k);
}

uint32_t reference_prune(struct nrvs_plan *plan, const struct nrvs_target *target, uint64_t address)
{
	struct kept k = {.kind = PRUNE, .address = address};
	uint32_t status = levels_fault(target);
	if (status == NRVS_OK)
		status = base_fault(target, address, 1);
	return status != NRVS_OK ? status : begin(plan, target, k);
}

uint32_t reference_unmap_part(struct nrvs_plan *plan, const struct nrvs_target *target, uint64_t base, uint64_t first, uint64_t count)
{
	struct kept k = {.kind = UNMAP_PART, .address = base, .physical = first, .bits = count};
	uint32_t status = levels_fault(target);
	if (status == NRVS_OK)
		status = base_fault(target, base, 4096);
	if (status == NRVS_OK && (count - 1 > 510 || first > 511 || first + count > 512))
		status = NRVS_BAD_PART;
	return status != NRVS_OK ? status : begin(plan, target, k);
}

uint32_t reference_collapse(struct nrvs_plan *plan, const struct nrvs_target *target, uint64_t base, uint64_t physical, uint32_t rights)
{
	struct kept k = {.kind = COLLAPSE, .address = base, .physical = physical, .rights = rights};
	return begin_at(plan, target, k);
}

/* The end: an answer without a page. */
static uint32_t answers(struct nrvs_plan *plan, struct kept *k, unsigned code, uint64_t number)
{
	plan->reply.code = (uint8_t)code;
	plan->reply.number = number;
	k->step = NRVS_PLANNED;
	return keep(plan, k);
}

static void stores(struct nrvs_plan *plan, uint64_t frame, uint64_t index, uint64_t old_word, uint64_t new_word)
{
	struct nrvs_store *store = &plan->stores[plan->store_count++];
	store->frame = frame;
	store->index = index;
	store->old_word = old_word;
	store->new_word = new_word;
}

/* What all entries from the root down to this level allow. */
static uint64_t rights_down_to(const struct kept *k, uint64_t level)
{
	uint64_t l, rights = 7;
	for (l = level; l <= k->levels; l++)
		rights &= rights_of(k->shown[l - 1].word);
	return rights;
}

static void flushes(struct nrvs_plan *plan, uint32_t what, uint64_t level, uint64_t base)
{
	plan->flush = what;
	plan->flush_size = (uint32_t)(level - 1);
	plan->flush_base = base;
}

/* Whether a table of this level stays: the root does, and those to which entries lead of the level that is pinned, or above. */
static int stays(const struct kept *k, uint64_t level)
{
	return level == k->levels || (k->pinned && level + 1 >= k->pinned);
}

/* The page is removed, and tables that have nothing else are unlinked, from below. */
static void removes(struct nrvs_plan *plan, const struct kept *k)
{
	uint64_t level = k->level;
	stores(plan, k->shown[level - 1].frame, index_at(level, k->address), k->shown[level - 1].word, 0);
	while (level < k->levels && k->shown[level - 1].alone && !stays(k, level)) {
		plan->unlinked[plan->unlinked_count++] = k->shown[level - 1].frame;
		level++;
		stores(plan, k->shown[level - 1].frame, index_at(level, k->address), k->shown[level - 1].word, 0);
	}
	flushes(plan, plan->unlinked_count ? NRVS_FLUSH_PAGE_AND_TABLES : NRVS_FLUSH_PAGE, k->level, k->address);
}

/* Why the page can't be remapped, divided, joined or replaced, whatever the entries are; 0: it can. */
static unsigned refusal(const struct kept *k, uint64_t word)
{
	uint64_t bytes = bytes_of(k->level), end = UINT64_C(1) << (k->phys_bits > 51 ? 51 : k->phys_bits);
	if (k->kind == REMAP)
		return k->physical % bytes ? NRVS_MISPLACED : k->physical > end - bytes ? NRVS_BEYOND : 0;
	if (k->kind == SPLIT || k->kind == UNMAP_PART)
		return k->level == 1 ? NRVS_SMALLEST : 0;
	if (k->kind != JOIN && k->kind != COLLAPSE)
		return 0;
	if (k->level == 3)
		return NRVS_LARGEST;
	bytes = bytes_of(k->level + 1);
	if (k->kind == COLLAPSE)
		return k->address % bytes ? NRVS_NOT_FIRST : k->physical % bytes ? NRVS_MISPLACED : k->physical > end - bytes ? NRVS_BEYOND : 0;
	return k->address % bytes ? NRVS_NOT_FIRST : physical_of(k->level, word) % bytes ? NRVS_MISPLACED : 0;
}

/* The page's entry gets this word, by one store. */
static uint32_t changes(struct nrvs_plan *plan, struct kept *k, uint64_t word)
{
	const struct shown *at = &k->shown[k->level - 1];
	plan->bits = attributes(k->level, at->word);
	plan->reply.rights = (uint8_t)rights_down_to(k, k->level);
	if (word != at->word) {
		stores(plan, at->frame, index_at(k->level, k->address), at->word, word);
		flushes(plan, NRVS_FLUSH_PAGE, k->level, k->address);
	}
	return answers(plan, k, NRVS_CHANGED, 0);
}

/* A split or an unmap of parts that has its frame: the entries of the parts that stay, then the link. */
static uint32_t splits(struct nrvs_plan *plan, struct kept *k, uint64_t frame)
{
	const struct shown *at = &k->shown[k->level - 1];
	uint64_t low = k->level - 1;
	plan->fills = 1;
	plan->fill.frame = frame;
	plan->fill.first_word = physical_of(k->level, at->word) | PRESENT | bits_of_rights(rights_of(at->word)) |
				placed(low, attributes(k->level, at->word));
	plan->fill.step = bytes_of(low);
	plan->fill.gap = k->kind == UNMAP_PART ? k->physical : 0;
	plan->fill.gap_count = k->kind == UNMAP_PART ? k->bits : 0;
	plan->bits = attributes(k->level, at->word);
	plan->reply.rights = (uint8_t)rights_down_to(k, k->level);
	stores(plan, at->frame, index_at(k->level, k->address), at->word, frame << 12 | PRESENT | WRITE | USER);
	flushes(plan, NRVS_FLUSH_RANGE, k->level, k->address);
	return answers(plan, k, NRVS_CHANGED, 0);
}

/* The pages of a table are joined, where each follows on from the first one. */
static uint32_t joins(struct nrvs_plan *plan, struct kept *k, const uint64_t words[512])
{
	const struct shown *at = &k->shown[k->level - 1], *above = &k->shown[k->level];
	uint64_t i, rights = rights_of(at->word) & rights_of(above->word);
	for (i = 0; i < 512; i++)
		if ((words[i] & ~FLAGS) != (at->word & ~FLAGS) + i * bytes_of(k->level))
			return answers(plan, k, NRVS_APART, i);
	plan->bits = attributes(k->level, at->word);
	plan->reply.rights = (uint8_t)rights_down_to(k, k->level);
	stores(plan, above->frame, index_at(k->level + 1, k->address), above->word,
	       physical_of(k->level, at->word) | PRESENT | bits_of_rights(rights) | placed(k->level + 1, plan->bits | FLAGS));
	plan->unlinked[plan->unlinked_count++] = at->frame;
	flushes(plan, NRVS_FLUSH_RANGE, k->level + 1, k->address);
	return answers(plan, k, NRVS_CHANGED, 0);
}

/* One page is put in the place of those of a table, where each has the rights and the attributes of the first one. */
static uint32_t collapses(struct nrvs_plan *plan, struct kept *k, const uint64_t words[512])
{
	const struct shown *at = &k->shown[k->level - 1], *above = &k->shown[k->level];
	uint64_t i, other = FLAGS | (ADDRESS & ~(bytes_of(k->level) - 1));
	for (i = 0; i < 512; i++)
		if ((words[i] ^ at->word) & ~other)
			return answers(plan, k, NRVS_APART, i);
	plan->bits = attributes(k->level, at->word);
	plan->reply.rights = (uint8_t)rights_down_to(k, k->level);
	stores(plan, above->frame, index_at(k->level + 1, k->address), above->word,
	       k->physical | PRESENT | bits_of_rights(k->rights) | placed(k->level + 1, plan->bits | FLAGS));
	plan->unlinked[plan->unlinked_count++] = at->frame;
	flushes(plan, NRVS_FLUSH_RANGE, k->level + 1, k->address);
	return answers(plan, k, NRVS_CHANGED, 0);
}

/* The table in which the way ends is unlinked, where it may be and nothing is present in it. */
static uint32_t prunes(struct nrvs_plan *plan, struct kept *k, const uint64_t words[512])
{
	const struct shown *at = &k->shown[k->level - 1], *above = at + 1;
	unsigned i;
	for (i = 0; i < 512; i++)
		if (words[i] & PRESENT)
			return answers(plan, k, NRVS_DONE, 0);
	if (stays(k, k->level))
		return answers(plan, k, NRVS_DONE, 0);
	stores(plan, above->frame, index_at(k->level + 1, k->address), above->word, 0);
	plan->unlinked[plan->unlinked_count++] = at->frame;
	flushes(plan, NRVS_FLUSH_PAGE_AND_TABLES, 1, k->address);
	return answers(plan, k, NRVS_DONE, 0);
}

/* The page's entry was found on the way of all but a map. */
static uint32_t found(struct nrvs_plan *plan, struct kept *k, const uint64_t words[512])
{
	const struct shown *at = &k->shown[k->level - 1];
	uint64_t bytes = bytes_of(k->level), base = k->address & ~(bytes - 1), word;
	if (k->kind != ASK && base != k->address)
		return answers(plan, k, NRVS_INSIDE, base);
	if (refusal(k, at->word))
		return answers(plan, k, refusal(k, at->word), 0);
	if ((k->kind == PROTECT || k->kind == REMAP || k->kind == COLLAPSE) && k->rights & ~rights_down_to(k, k->level + 1))
		return answers(plan, k, NRVS_NARROW, 0);
	word = (at->word & ~(WRITE | USER | NX)) | bits_of_rights(k->rights);
	if (k->kind == PROTECT)
		return changes(plan, k, word);
	if (k->kind == REMAP)
		return changes(plan, k, (word & ~(ADDRESS & ~(bytes - 1))) | k->physical);
	if (k->kind == JOIN)
		return stays(k, k->level) ? answers(plan, k, NRVS_PINNED, 0) : joins(plan, k, words);
	if (k->kind == COLLAPSE)
		return stays(k, k->level) ? answers(plan, k, NRVS_PINNED, 0) : collapses(plan, k, words);
	if (k->kind == SPLIT || k->kind == UNMAP_PART) {
		k->step = NRVS_GIVE;
		return keep(plan, k);
	}
	plan->bits = attributes(k->level, at->word);
	plan->reply.rights = (uint8_t)rights_down_to(k, k->level);
	plan->reply.size = (uint8_t)(k->level - 1);
	if (k->kind == UNMAP) {
		removes(plan, k);
		return answers(plan, k, NRVS_REMOVED, physical_of(k->level, at->word));
	}
	return answers(plan, k, NRVS_MAPPED, physical_of(k->level, at->word) + (k->address & (bytes - 1)));
}

/* A map that has all frames that it needs: the leaf, then the links upwards. */
static uint32_t maps(struct nrvs_plan *plan, struct kept *k)
{
	uint64_t low = k->size + 1, level, frame;
	uint64_t word = k->physical | PRESENT | bits_of_rights(k->rights) | placed(low, k->bits);
	for (level = low; level <= k->missing; level++) {
		frame = level == k->missing ? k->shown[level - 1].frame : k->given[level - low];
		stores(plan, frame, index_at(level, k->address), level == k->missing ? k->shown[level - 1].word : 0, word);
		word = frame << 12 | PRESENT | WRITE | USER;
	}
	return answers(plan, k, NRVS_DONE, 0);
}

/* No entry on the way of a map at this level. */
static uint32_t absent(struct nrvs_plan *plan, struct kept *k)
{
	k->missing = k->level;
	if (k->rights & ~rights_down_to(k, k->level + 1))
		return answers(plan, k, NRVS_NARROW, 0);
	if (k->missing == k->size + 1)
		return maps(plan, k);
	k->step = NRVS_GIVE;
	return keep(plan, k);
}

/* An entry can't be used. */
static uint32_t reserved(struct nrvs_plan *plan, struct kept *k, uint64_t index)
{
	plan->bits = index;
	return answers(plan, k, NRVS_RESERVED, plan->frame);
}

/* Goes down by the link at an index. */
static uint32_t down(struct nrvs_plan *plan, struct kept *k, uint64_t word, uint64_t index)
{
	if ((word & ADDRESS) >> k->phys_bits)
		return reserved(plan, k, index);
	plan->frame = (word & ADDRESS) >> 12;
	k->level--;
	return keep(plan, k);
}

/* The least page below a table that a map would replace. */
static uint32_t searches(struct nrvs_plan *plan, struct kept *k, const uint64_t words[512])
{
	uint64_t index = 0, word;
	while (index < 512 && !(words[index] & PRESENT))
		index++;
	if (index == 512) {
		plan->bits = k->base;
		return answers(plan, k, NRVS_EMPTY, plan->frame);
	}
	word = words[index];
	if (has_reserved(k->level, word))
		return reserved(plan, k, index);
	k->base += index * bytes_of(k->level);
	return is_leaf(k->level, word) ? answers(plan, k, NRVS_OVERLAP, k->base) : down(plan, k, word, index);
}

static int alone(const uint64_t words[512], uint64_t index)
{
	uint64_t i;
	for (i = 0; i < 512; i++)
		if (i != index && words[i])
			return 0;
	return 1;
}

uint32_t reference_see(struct nrvs_plan *plan, const uint64_t words[512])
{
	struct kept k = load(plan);
	uint64_t index = index_at(k.level, k.address), word = words[index];
	if (k.step != NRVS_SEE)
		return NRVS_NOT_ASKED;
	if (k.searching)
		return searches(plan, &k, words);
	k.shown[k.level - 1].frame = plan->frame;
	k.shown[k.level - 1].word = word;
	k.shown[k.level - 1].alone = k.kind == UNMAP && k.level < k.levels && alone(words, index);
	if (k.kind == PRUNE && (!(word & PRESENT) || has_reserved(k.level, word) || is_leaf(k.level, word)))
		return prunes(plan, &k, words);
	if (!(word & PRESENT))
		return k.kind == MAP ? absent(plan, &k) : answers(plan, &k, NRVS_NOT_MAPPED, 0);
	if (has_reserved(k.level, word))
		return reserved(plan, &k, index);
	if (is_leaf(k.level, word))
		return k.kind == MAP ? answers(plan, &k, NRVS_OVERLAP, k.address & ~(bytes_of(k.level) - 1)) : found(plan, &k, words);
	if (k.kind == MAP && k.level == k.size + 1) {
		k.searching = 1;
		k.base = k.address;
	}
	return down(plan, &k, word, index);
}

uint32_t reference_give(struct nrvs_plan *plan, uint64_t frame)
{
	struct kept k = load(plan);
	if (k.step != NRVS_GIVE)
		return NRVS_NOT_ASKED;
	if (frame >> (k.phys_bits - 12))
		return answers(plan, &k, NRVS_FRAME_RANGE, frame);
	if (k.kind == SPLIT || k.kind == UNMAP_PART)
		return splits(plan, &k, frame);
	k.given[k.given_count++] = frame;
	return k.given_count == k.missing - (k.size + 1) ? maps(plan, &k) : keep(plan, &k);
}

uint32_t reference_give_none(struct nrvs_plan *plan)
{
	struct kept k = load(plan);
	return k.step == NRVS_GIVE ? answers(plan, &k, NRVS_NO_FRAME, 0) : NRVS_NOT_ASKED;
}

uint32_t reference_again(struct nrvs_plan *plan, uint64_t index, uint64_t now)
{
	struct kept k = load(plan);
	struct nrvs_store *store;
	if (k.step != NRVS_PLANNED || index >= plan->store_count)
		return NRVS_NOT_ASKED;
	store = &plan->stores[index];
	if ((store->old_word ^ now) & ~FLAGS || !(now & PRESENT))
		return NRVS_NOT_ASKED;
	store->old_word = now;
	if (k.kind == PROTECT || k.kind == REMAP)
		store->new_word = (store->new_word & ~FLAGS) | (now & FLAGS);
	if (k.kind == SPLIT || k.kind == UNMAP_PART)
		plan->fill.first_word = (plan->fill.first_word & ~FLAGS) | (now & FLAGS);
	if (index == 0 && k.kind != MAP && k.kind != JOIN && k.kind != PRUNE && k.kind != COLLAPSE)
		plan->bits = (plan->bits & ~FLAGS) | (now & FLAGS);
	return NRVS_OK;
}
