/* Ranges of pages beside plain loops in C that test what is asked and each word, and beside plans page by page: 511 pages of 4 KiB of one
 * table, whose last page stays.
 *
 *     ranges WHICH KIND ROUNDS: run, shown, pages, loop or none; map, protect, unmap or harvest
 *
 * `run` hands over all frames, as a direct map has them; `shown` shows each that is asked for; `pages` makes a plan for each page. `none`
 * does only what comes before each round: the table is set up again.
 */
#define _POSIX_C_SOURCE 200809L
#include "nrvs_plan.h"

#include <stdio.h>
#include <stdlib.h>
#include <string.h>
#include <time.h>

enum { FRAMES = 16, PAGES = 511, TABLE = 4, FLAGS = 0x60 };
#define BASE (UINT64_C(0x40000000) + (UINT64_C(5) << 21))
#define PHYSICAL (UINT64_C(1) << 30)

static struct nrvs_words frames[FRAMES], filled;
static struct nrvs_target target = {1, 4, 46, 0};
static uint64_t found[512];

/* Frames 1 to 4 are the way; another table lies beside each but the root. */
static void begin_memory(const char *kind)
{
	unsigned i;
	for (i = 1; i < 4; i++)
		frames[i].word[BASE >> (48 - 9 * i) & 511] = (uint64_t)(i + 1) << 12 | 7;
	for (i = 2; i < 4; i++)
		frames[i].word[(BASE >> (48 - 9 * i) & 511) ^ 1] = UINT64_C(9) << 12 | 7;
	for (i = 0; i < 512; i++)
		filled.word[i] = strcmp(kind, "map") == 0 && i < PAGES ? 0 : (PHYSICAL + i * 4096) | FLAGS | 3;
}

/* ---- by runs ---- */

static int carry_out(struct nrvs_run *run, uint32_t step)
{
	while (step == NRVS_SEE)
		step = nrvs_run_see(run, frames[run->plan.frame].word);
	if (step != NRVS_RUN && step != NRVS_HARVEST)
		return 0;
	if (step == NRVS_HARVEST)
		nrvs_run_carry_out(run, frames[run->frame].word, found);
	else
		nrvs_run_carry_out(run, frames[run->frame].word, NULL);
	return run->count == PAGES;
}

static int run_map(void)
{
	struct nrvs_run run;
	return carry_out(&run, nrvs_plan_map_range_in(&run, &target, frames, FRAMES, 0, BASE, NRVS_4K, PHYSICAL, NRVS_WRITE, 0, PAGES * 4096));
}

static int run_protect(void)
{
	struct nrvs_run run;
	return carry_out(&run, nrvs_plan_protect_range_in(&run, &target, frames, FRAMES, 0, BASE, PAGES * 4096, NRVS_USER));
}

static int run_unmap(void)
{
	struct nrvs_run run;
	return carry_out(&run, nrvs_plan_unmap_range_in(&run, &target, frames, FRAMES, 0, BASE, PAGES * 4096));
}

static int run_harvest(void)
{
	struct nrvs_run run;
	return carry_out(&run, nrvs_plan_harvest_range_in(&run, &target, frames, FRAMES, 0, BASE, PAGES * 4096));
}

static int shown_map(void)
{
	struct nrvs_run run;
	return carry_out(&run, nrvs_plan_map_range(&run, &target, BASE, NRVS_4K, PHYSICAL, NRVS_WRITE, 0, PAGES * 4096));
}

static int shown_protect(void)
{
	struct nrvs_run run;
	return carry_out(&run, nrvs_plan_protect_range(&run, &target, BASE, PAGES * 4096, NRVS_USER));
}

static int shown_unmap(void)
{
	struct nrvs_run run;
	return carry_out(&run, nrvs_plan_unmap_range(&run, &target, BASE, PAGES * 4096));
}

static int shown_harvest(void)
{
	struct nrvs_run run;
	return carry_out(&run, nrvs_plan_harvest_range(&run, &target, BASE, PAGES * 4096));
}

/* ---- page by page ---- */

static int store_of(const struct nrvs_plan *plan, uint32_t step)
{
	if (step != NRVS_PLANNED || plan->store_count != 1)
		return 0;
	__atomic_exchange_n(&frames[plan->stores[0].frame].word[plan->stores[0].index], plan->stores[0].new_word, __ATOMIC_SEQ_CST);
	return 1;
}

static int pages_map(void)
{
	struct nrvs_plan plan;
	uint64_t i;
	for (i = 0; i < PAGES; i++)
		if (!store_of(&plan, nrvs_plan_map_in(&plan, &target, frames, FRAMES, 0, BASE + i * 4096, NRVS_4K, PHYSICAL + i * 4096,
						      NRVS_WRITE, 0)))
			return 0;
	return 1;
}

static int pages_protect(void)
{
	struct nrvs_plan plan;
	uint64_t i;
	for (i = 0; i < PAGES; i++)
		if (!store_of(&plan, nrvs_plan_protect_in(&plan, &target, frames, FRAMES, 0, BASE + i * 4096, NRVS_USER)))
			return 0;
	return 1;
}

static int pages_unmap(void)
{
	struct nrvs_plan plan;
	uint64_t i;
	for (i = 0; i < PAGES; i++)
		if (!store_of(&plan, nrvs_plan_unmap_in(&plan, &target, frames, FRAMES, 0, BASE + i * 4096)))
			return 0;
	return 1;
}

/* ---- plain loops: what is asked is tested, then each word, and then they are written ---- */

static int is_asked(uint64_t base, uint64_t physical)
{
	const uint64_t high = base >> 47;
	return (target.levels == 4 || target.levels == 5) && target.phys_bits >= 36 && target.phys_bits <= 52 &&
	       !(target.root >> (target.phys_bits - 12)) && (high == 0 || high == UINT64_MAX >> 47) && base % 4096 == 0 &&
	       physical % 4096 == 0 && !((physical + PAGES * 4096 - 1) >> target.phys_bits);
}

static uint64_t *words_at(uint64_t base)
{
	uint64_t frame = target.root, level, *at;
	for (level = target.levels; level > 1; level--) {
		at = &frames[frame].word[base >> (3 + 9 * level) & 511];
		if (!(*at & 1) || (level < 4 && *at & 128))
			return NULL;
		frame = *at >> 12 & ((UINT64_C(1) << 40) - 1);
	}
	return &frames[frame].word[base >> 12 & 511];
}

static int loop_map(void)
{
	uint64_t *at = is_asked(BASE, PHYSICAL) ? words_at(BASE) : NULL, i;
	for (i = 0; at && i < PAGES; i++)
		if (at[i] & 1)
			return 0;
	for (i = 0; at && i < PAGES; i++)
		__atomic_store_n(&at[i], (PHYSICAL + i * 4096) | UINT64_C(1) << 63 | 3, __ATOMIC_RELEASE);
	return at != NULL;
}

static int loop_protect(void)
{
	uint64_t *at = is_asked(BASE, 0) ? words_at(BASE) : NULL, i, was;
	for (i = 0; at && i < PAGES; i++) {
		was = __atomic_load_n(&at[i], __ATOMIC_RELAXED);
		if (!(was & 1))
			return 0;
		while (!__atomic_compare_exchange_n(&at[i], &was, (was & UINT64_C(0x7ffffffffffffff9)) | UINT64_C(1) << 63 | 4, 0, __ATOMIC_SEQ_CST,
						    __ATOMIC_RELAXED))
			;
	}
	return at != NULL;
}

static int loop_unmap(void)
{
	uint64_t *at = is_asked(BASE, 0) ? words_at(BASE) : NULL, i;
	for (i = 0; at && i < PAGES; i++)
		if (!(__atomic_exchange_n(&at[i], 0, __ATOMIC_SEQ_CST) & 1))
			return 0;
	for (i = 0; at && i < 512; i++)
		if (frames[TABLE].word[i])
			return 1;
	return 0;
}

static int loop_harvest(void)
{
	uint64_t *at = is_asked(BASE, 0) ? words_at(BASE) : NULL, i;
	for (i = 0; at && i < PAGES; i++) {
		if (!(at[i] & 1))
			return 0;
		found[i] = __atomic_fetch_and(&at[i], ~(uint64_t)FLAGS, __ATOMIC_SEQ_CST);
	}
	return at != NULL;
}

static int nothing(void)
{
	return 1;
}

static const char *const KINDS[] = {"map", "protect", "unmap", "harvest"};
static const struct {
	const char *name;
	int (*each[4])(void);
} ALL[] = {
	{"run", {run_map, run_protect, run_unmap, run_harvest}},
	{"shown", {shown_map, shown_protect, shown_unmap, shown_harvest}},
	{"pages", {pages_map, pages_protect, pages_unmap, nothing}},
	{"loop", {loop_map, loop_protect, loop_unmap, loop_harvest}},
	{"none", {nothing, nothing, nothing, nothing}},
};

int main(int count, char **words)
{
	const char *which = count > 1 ? words[1] : "run", *kind = count > 2 ? words[2] : "map";
	unsigned long rounds = count > 3 ? (unsigned long)atol(words[3]) : 100000, i, k, wrong = 0;
	int (*call)(void) = nothing;
	struct timespec from, to;
	for (i = 0; i < sizeof ALL / sizeof ALL[0]; i++)
		for (k = 0; k < 4; k++)
			if (strcmp(ALL[i].name, which) == 0 && strcmp(KINDS[k], kind) == 0)
				call = ALL[i].each[k];
	begin_memory(kind);
	clock_gettime(CLOCK_PROCESS_CPUTIME_ID, &from);
	for (i = 0; i < rounds; i++) {
		memcpy(&frames[TABLE], &filled, sizeof filled);
		wrong += !call();
	}
	clock_gettime(CLOCK_PROCESS_CPUTIME_ID, &to);
	printf("%s %s: %.2f ns a page, %lu wrong\n", which, kind,
	       ((double)(to.tv_sec - from.tv_sec) * 1e9 + (double)(to.tv_nsec - from.tv_nsec)) / (double)rounds / PAGES, wrong);
	return wrong != 0;
}
