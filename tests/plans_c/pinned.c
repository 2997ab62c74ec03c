/* Where each table stays (`pinned` 1 or 2) a plan looks at the entries on its walk alone, and at each once. Of each frame that is shown
 * only the word of that entry can be read, so any other look ends the program.
 */
#define _DEFAULT_SOURCE
#include "calls.h"

#include <sys/mman.h>

enum { PAGE = 4096, PRESENT = 1, LINK = 7, LARGE = 0x80 };

static unsigned char *room; /* a page that can be read, between two that can't be */

/* The words of a frame whose first word alone can be read, or its last. */
static uint64_t *words_at(unsigned index)
{
	return (uint64_t *)(void *)(index == 0 ? room + 2 * PAGE - 8 : room + PAGE - 511 * 8);
}

/* A plan whose walk ends in an entry of this level with this word, at the first address or at the last; how many frames it asks for. */
static unsigned seen(unsigned pinned, unsigned levels, unsigned kind, unsigned level, uint64_t word, unsigned index, struct nrvs_plan *plan)
{
	const struct nrvs_target target = {1, levels, 40, pinned};
	const struct request request = {kind, level - 1, 0, index == 0 ? 0 : ~UINT64_C(0) << (3 + 9 * level), 0, 0};
	uint64_t *const words = words_at(index);
	unsigned at = levels, count = 0;
	uint32_t step = begin(&LIBRARY, plan, &target, request);
	for (; step == NRVS_SEE && count < 2 * levels; count++) {
		CHECK(plan->frame == 1 + levels - at);
		words[index] = at > level ? (plan->frame + 1) << 12 | LINK : word;
		at = at > level ? at - 1 : levels;
		step = nrvs_plan_see(plan, words);
	}
	CHECK(step == NRVS_PLANNED && plan->unlinked_count == 0);
	return count;
}

int main(void)
{
	static const unsigned KINDS[] = {UNMAPS, PROTECTS, ASKS, REMAPS};
	struct nrvs_plan plan;
	unsigned pinned, levels, level, index, k;
	room = mmap(NULL, 3 * PAGE, PROT_NONE, MAP_PRIVATE | MAP_ANONYMOUS, -1, 0);
	CHECK(room != MAP_FAILED && mprotect(room + PAGE, PAGE, PROT_READ | PROT_WRITE) == 0);
	for (pinned = 1; pinned <= 2 && !failed; pinned++)
		for (levels = 4; levels <= 5; levels++)
			for (level = 1; level <= 3; level++)
				for (index = 0; index < 512; index += 511) {
					const uint64_t page = PRESENT | (level > 1 ? LARGE : 0);
					for (k = 0; k < sizeof KINDS / sizeof KINDS[0]; k++) {
						CHECK(seen(pinned, levels, KINDS[k], level, page | 2, index, &plan) == levels - level + 1);
						CHECK(plan.store_count == (KINDS[k] == UNMAPS || KINDS[k] == PROTECTS || KINDS[k] == REMAPS));
						CHECK(seen(pinned, levels, KINDS[k], level, 0, index, &plan) == levels - level + 1);
						CHECK(plan.reply.code == NRVS_NOT_MAPPED && plan.store_count == 0);
					}
					if (level == 1) {
						CHECK(seen(pinned, levels, MAPS, level, 0, index, &plan) == levels);
						CHECK(plan.reply.code == NRVS_DONE && plan.store_count == 1);
					}
				}
	return counts();
}
