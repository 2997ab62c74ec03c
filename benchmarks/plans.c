/* The calls of plans beside a plain page table in C of the same calls, which tests what is asked, answers and prunes alike; and beside the
 * page table of nrvs.h: nanoseconds a call.
 *
 *     plans WHICH CALLS: plan, direct, plain or table; maps, protects and unmaps of drawn pages of 4 KiB, a third each
 *
 * `plan` shows each frame that is asked for; `direct` hands over all of them, as a direct map has them.
 */
#define _POSIX_C_SOURCE 200809L
#include "nrvs_plan.h"

#include <stdio.h>
#include <stdlib.h>
#include <string.h>
#include <time.h>

enum { FRAMES = 2048, PAGES = 1 << 16 };

/* As a kernel has them: frames in a direct map, those that are empty in a list. */
static uint64_t *memory, none[FRAMES];
static unsigned none_count;
static struct nrvs_target target = {0, 4, 46, 0};

static uint64_t *words_of(uint64_t frame)
{
	return memory + frame * 512;
}

static void begin_memory(void)
{
	unsigned i;
	memory = (uint64_t *)aligned_alloc(4096, FRAMES * 4096);
	if (!memory)
		exit(2);
	memset(memory, 0, FRAMES * 4096);
	for (i = 1; i < FRAMES; i++)
		none[none_count++] = FRAMES - i;
	target.root = none[--none_count];
}

/* ---- by plans ---- */

static uint32_t carry_out(struct nrvs_plan *plan, uint32_t step)
{
	uint64_t i;
	while (step == NRVS_SEE)
		step = nrvs_plan_see(plan, words_of(plan->frame));
	while (step == NRVS_GIVE)
		step = nrvs_plan_give(plan, none[--none_count]);
	for (i = 0; i < plan->store_count; i++)
		__atomic_store_n(&words_of(plan->stores[i].frame)[plan->stores[i].index], plan->stores[i].new_word, __ATOMIC_RELAXED);
	for (i = 0; i < plan->unlinked_count; i++)
		none[none_count++] = plan->unlinked[i];
	return plan->reply.code;
}

static uint32_t by_plan(unsigned kind, uint64_t base, uint32_t rights)
{
	struct nrvs_plan plan;
	if (kind == 0)
		return carry_out(&plan, nrvs_plan_map(&plan, &target, base, NRVS_4K, base, rights, 0));
	if (kind == 1)
		return carry_out(&plan, nrvs_plan_protect(&plan, &target, base, rights));
	return carry_out(&plan, nrvs_plan_unmap(&plan, &target, base));
}

static uint32_t by_direct_map(unsigned kind, uint64_t base, uint32_t rights)
{
	const struct nrvs_words *frames = (const struct nrvs_words *)(const void *)memory;
	struct nrvs_plan plan;
	if (kind == 0)
		return carry_out(&plan, nrvs_plan_map_in(&plan, &target, frames, FRAMES, 0, base, NRVS_4K, base, rights, 0));
	if (kind == 1)
		return carry_out(&plan, nrvs_plan_protect_in(&plan, &target, frames, FRAMES, 0, base, rights));
	return carry_out(&plan, nrvs_plan_unmap_in(&plan, &target, frames, FRAMES, 0, base));
}

/* ---- in plain C: with the same tests of what is asked, and the same answers ---- */

struct answer {
	struct nrvs_reply reply;
	uint64_t bits, flush_base, unlinked_count, unlinked[NRVS_MOST_UNLINKED];
	uint32_t flush, flush_size;
};

/* A table on the way and the entry in it; what the entries above allow. */
struct way {
	uint64_t tables[6], *at;
	uint32_t level, rights;
};

static uint64_t *entry(uint64_t table, unsigned level, uint64_t base)
{
	return &words_of(table)[base >> (3 + 9 * level) & 511];
}

static uint64_t bits_of(uint32_t rights)
{
	return (rights & NRVS_WRITE ? 2 : 0) | (rights & NRVS_USER ? 4 : 0) | (rights & NRVS_EXEC ? 0 : UINT64_C(1) << 63);
}

static uint32_t rights_of(uint64_t word)
{
	return (word & 2 ? NRVS_WRITE : 0) | (word & 4 ? NRVS_USER : 0) | (word >> 63 ? 0 : NRVS_EXEC);
}

static int is_empty(uint64_t table)
{
	const uint64_t *words = words_of(table);
	unsigned i;
	for (i = 0; i < 512; i++)
		if (words[i])
			return 0;
	return 1;
}

static uint32_t test_target(const struct nrvs_target *of, uint64_t base)
{
	const uint64_t high = base >> (11 + 9 * of->levels);
	if (of->levels != 4 && of->levels != 5)
		return NRVS_BAD_LEVELS;
	if (of->phys_bits < 36 || of->phys_bits > 52)
		return NRVS_PHYS_BITS;
	if (of->root >> (of->phys_bits - 12))
		return NRVS_BAD_ROOT;
	if (high != 0 && high != UINT64_MAX >> (11 + 9 * of->levels))
		return NRVS_NOT_CANONICAL;
	return base % 4096 ? NRVS_UNALIGNED : NRVS_OK;
}

static void answers(struct answer *to, uint8_t code, uint64_t number)
{
	struct nrvs_reply reply = {code, 0, 0, number};
	to->reply = reply;
}

/* Goes to the entry of the page at a base, or to the first that leads no further. */
static void find(const struct nrvs_target *of, uint64_t base, struct way *way)
{
	way->tables[of->levels] = of->root;
	way->rights = 7;
	for (way->level = of->levels;; way->level--) {
		way->at = entry(way->tables[way->level], way->level, base);
		if (way->level == 1 || !(*way->at & 1) || (way->level < 4 && *way->at & 128))
			return;
		way->rights &= rights_of(*way->at);
		way->tables[way->level - 1] = *way->at >> 12 & ((UINT64_C(1) << 40) - 1);
	}
}

static void begin_answer(struct answer *to)
{
	to->bits = to->flush_base = to->unlinked_count = 0;
	to->flush = to->flush_size = NRVS_FLUSH_NOTHING;
}

static uint32_t plain_map(const struct nrvs_target *of, uint64_t base, uint64_t physical, uint32_t rights, uint64_t bits, struct answer *to)
{
	struct way way;
	uint32_t status = rights > 7 ? NRVS_BAD_RIGHTS : test_target(of, base);
	uint64_t word = physical | 1 | bits_of(rights) | bits;
	if (status != NRVS_OK)
		return status;
	if (physical % 4096)
		return NRVS_PHYS_UNALIGNED;
	if (physical >> of->phys_bits || physical >> 51)
		return NRVS_PHYS_RANGE;
	if (bits & ~NRVS_ATTRIBUTES)
		return NRVS_BAD_BITS;
	begin_answer(to);
	find(of, base, &way);
	if (*way.at & 1) {
		answers(to, NRVS_OVERLAP, base & ~((UINT64_C(4096) << 9 * (way.level - 1)) - 1));
		return NRVS_OK;
	}
	if (rights & ~way.rights) {
		answers(to, NRVS_NARROW, 0);
		return NRVS_OK;
	}
	for (unsigned level = 1; level < way.level; level++) {
		const uint64_t table = none[--none_count];
		__atomic_store_n(entry(table, level, base), word, __ATOMIC_RELAXED);
		word = table << 12 | 7;
	}
	__atomic_store_n(way.at, word, __ATOMIC_RELAXED);
	answers(to, NRVS_DONE, 0);
	return NRVS_OK;
}

/* The page that begins at the base, of 4 KiB or larger; or what is answered. */
static int has_page(const struct way *way, uint64_t base, struct answer *to)
{
	const uint64_t bytes = UINT64_C(4096) << 9 * (way->level - 1);
	if (!(*way->at & 1)) {
		answers(to, NRVS_NOT_MAPPED, 0);
		return 0;
	}
	if (base & (bytes - 1)) {
		answers(to, NRVS_INSIDE, base & ~(bytes - 1));
		return 0;
	}
	return 1;
}

/* What is said of the page's entry, and what is flushed. */
static void tell(const struct way *way, uint64_t base, struct answer *to)
{
	to->bits = way->level == 1 ? *way->at & NRVS_ATTRIBUTES : (*way->at & NRVS_ATTRIBUTES & ~UINT64_C(128)) | (*way->at >> 5 & 128);
	to->reply.rights = (uint8_t)(way->rights & rights_of(*way->at));
	to->flush = NRVS_FLUSH_PAGE;
	to->flush_base = base;
	to->flush_size = way->level - 1;
}

static uint32_t plain_unmap(const struct nrvs_target *of, uint64_t base, struct answer *to)
{
	struct way way;
	const uint32_t status = test_target(of, base);
	unsigned level;
	if (status != NRVS_OK)
		return status;
	begin_answer(to);
	find(of, base, &way);
	if (!has_page(&way, base, to))
		return NRVS_OK;
	answers(to, NRVS_REMOVED, *way.at & UINT64_C(0xffffffffff000) & ~((UINT64_C(4096) << 9 * (way.level - 1)) - 1));
	tell(&way, base, to);
	to->reply.size = (uint8_t)(way.level - 1);
	__atomic_store_n(way.at, 0, __ATOMIC_RELAXED);
	for (level = way.level; level < (of->pinned ? of->pinned - 1 : of->levels) && is_empty(way.tables[level]); level++) {
		__atomic_store_n(entry(way.tables[level + 1], level + 1, base), 0, __ATOMIC_RELAXED);
		to->unlinked[to->unlinked_count++] = way.tables[level];
		to->flush = NRVS_FLUSH_PAGE_AND_TABLES;
	}
	return NRVS_OK;
}

static uint32_t plain_protect(const struct nrvs_target *of, uint64_t base, uint32_t rights, struct answer *to)
{
	struct way way;
	const uint32_t status = rights > 7 ? NRVS_BAD_RIGHTS : test_target(of, base);
	if (status != NRVS_OK)
		return status;
	begin_answer(to);
	find(of, base, &way);
	if (!has_page(&way, base, to))
		return NRVS_OK;
	if (rights & ~way.rights) {
		answers(to, NRVS_NARROW, 0);
		return NRVS_OK;
	}
	answers(to, NRVS_CHANGED, 0);
	tell(&way, base, to);
	__atomic_store_n(way.at, (*way.at & UINT64_C(0x7ffffffffffffff9)) | bits_of(rights), __ATOMIC_RELAXED);
	return NRVS_OK;
}

static uint32_t in_plain_c(unsigned kind, uint64_t base, uint32_t rights)
{
	struct answer answer;
	uint32_t status;
	if (kind == 0)
		status = plain_map(&target, base, base, rights, 0, &answer);
	else
		status = kind == 1 ? plain_protect(&target, base, rights, &answer) : plain_unmap(&target, base, &answer);
	if (status != NRVS_OK)
		return status;
	for (uint64_t i = 0; i < answer.unlinked_count; i++)
		none[none_count++] = answer.unlinked[i];
	return answer.reply.code;
}

/* ---- by the page table of nrvs.h ---- */

static struct nrvs_table table;
static struct nrvs_mark marks[FRAMES];

static uint32_t by_table(unsigned kind, uint64_t base, uint32_t rights)
{
	struct nrvs_words *words = (struct nrvs_words *)(void *)memory;
	struct nrvs_reply reply;
	if (kind == 0)
		nrvs_table_map(&table, words, FRAMES, marks, FRAMES, base, NRVS_4K, base, rights, &reply);
	else if (kind == 1)
		nrvs_table_protect(&table, words, FRAMES, marks, FRAMES, base, rights, &reply);
	else
		nrvs_table_unmap(&table, words, FRAMES, marks, FRAMES, base, &reply);
	return reply.code;
}

int main(int count, char **words)
{
	const char *which = count > 1 ? words[1] : "plan";
	unsigned long calls = count > 2 ? (unsigned long)atol(words[2]) : 3000000, i, codes[16] = {0};
	uint32_t (*call)(unsigned, uint64_t, uint32_t) = by_plan;
	struct timespec from, to;
	uint64_t seed = 1;
	if (strcmp(which, "direct") == 0)
		call = by_direct_map;
	else if (strcmp(which, "plan") != 0)
		call = strcmp(which, "plain") == 0 ? in_plain_c : by_table;
	begin_memory();
	if (call == by_table)
		nrvs_table_new(&table, (struct nrvs_words *)(void *)memory, FRAMES, marks, FRAMES, 4, 0);
	clock_gettime(CLOCK_PROCESS_CPUTIME_ID, &from);
	for (i = 0; i < calls; i++) {
		seed = seed * UINT64_C(6364136223846793005) + 1442695040888963407u;
		codes[call((unsigned)(seed >> 40) % 3, (seed >> 44) % PAGES << 12, (unsigned)(seed >> 33) & 7) & 15]++;
	}
	clock_gettime(CLOCK_PROCESS_CPUTIME_ID, &to);
	printf("%s: %.1f ns a call; %lu maps, %lu protects, %lu unmaps\n", which,
	       ((double)(to.tv_sec - from.tv_sec) * 1e9 + (double)(to.tv_nsec - from.tv_nsec)) / (double)calls, codes[NRVS_DONE],
	       codes[NRVS_CHANGED], codes[NRVS_REMOVED]);
	return 0;
}
