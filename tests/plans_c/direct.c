/* Plans by one call over frames that lie one after another: each is that of the calls that are shown one frame after another. Where the
 * frames asked for lie elsewhere the plan waits for them, and goes on.
 */
#include "calls.h"

#include <string.h>

enum { FRAMES = 96, FIRST = 0x12345 };

static struct nrvs_words frames[FRAMES];
static uint64_t none[FRAMES], seed = 5;
static unsigned none_count, refused, gave, elsewhere, unlinked;
static struct nrvs_target target = {FIRST, 4, 46, 0};

static uint32_t begin_in(struct nrvs_plan *plan, struct request r, size_t count)
{
	switch (r.kind) {
	case MAPS:
		return nrvs_plan_map_in(plan, &target, frames, count, FIRST, r.address, r.size, r.physical, r.rights, r.bits);
	case UNMAPS:
		return nrvs_plan_unmap_in(plan, &target, frames, count, FIRST, r.address);
	case PROTECTS:
		return nrvs_plan_protect_in(plan, &target, frames, count, FIRST, r.address, r.rights);
	case REMAPS:
		return nrvs_plan_remap_in(plan, &target, frames, count, FIRST, r.address, r.physical, r.rights);
	default:
		return nrvs_plan_ask_in(plan, &target, frames, count, FIRST, r.address);
	}
}

/* From this step on: frames are shown, and given from the end of those that are empty. */
static uint32_t goes_on(struct nrvs_plan *plan, uint32_t step, unsigned *given)
{
	while (step == NRVS_SEE)
		step = nrvs_plan_see(plan, frames[plan->frame - FIRST].word);
	while (step == NRVS_GIVE)
		step = *given < none_count ? nrvs_plan_give(plan, none[none_count - ++*given]) : nrvs_plan_give_none(plan);
	return step;
}

static struct request any_request(void)
{
	struct request r = {(unsigned)draw(&seed, 5), (unsigned)draw(&seed, 5) % 3, (unsigned)draw(&seed, 8), 0, 0, 0};
	uint64_t bytes = UINT64_C(4096) << 9 * r.size;
	r.address = (draw(&seed, 3) << 30) + (draw(&seed, 3) << 21) + (draw(&seed, 4) << 12);
	r.physical = draw(&seed, 1 << 10) * bytes;
	if (r.kind == MAPS)
		r.address &= ~(bytes - 1);
	if (draw(&seed, 16) == 0)
		r.address |= draw(&seed, 2) ? 1 : UINT64_C(1) << 60; /* refused, but for a question */
	return r;
}

static void one_call(void)
{
	struct request r = any_request();
	struct nrvs_plan plan, second, third, before;
	unsigned i, given = 0, more = 0, again = 0;
	uint32_t step, begun;
	memset(&plan, 0xAB, sizeof plan);
	before = second = third = plan;
	step = begin_in(&plan, r, FRAMES);
	begun = begin(&LIBRARY, &second, &target, r);
	if (begun != NRVS_SEE) {
		CHECK(step == begun && memcmp(&plan, &before, sizeof plan) == 0);
		refused++;
		return;
	}
	CHECK(step == NRVS_PLANNED || step == NRVS_GIVE);
	CHECK(goes_on(&plan, step, &given) == NRVS_PLANNED && goes_on(&second, begun, &more) == NRVS_PLANNED);
	CHECK(same_plans(&plan, &second) && given == more);
	step = begin_in(&third, r, draw(&seed, 4)); /* few frames: what lies elsewhere is asked for */
	CHECK(step != NRVS_SEE || third.frame - FIRST < FRAMES);
	elsewhere += step == NRVS_SEE;
	gave += given != 0;
	unlinked += plan.unlinked_count != 0;
	CHECK(goes_on(&third, step, &again) == NRVS_PLANNED && same_plans(&plan, &third));
	for (i = 0; i < plan.store_count; i++) {
		uint64_t *at = &frames[plan.stores[i].frame - FIRST].word[plan.stores[i].index];
		CHECK(*at == plan.stores[i].old_word);
		*at = plan.stores[i].new_word;
	}
	none_count -= plan.store_count ? given : 0;
	for (i = 0; i < plan.unlinked_count; i++)
		none[none_count++] = plan.unlinked[i];
}

int main(void)
{
	unsigned i;
	for (i = 1; i < FRAMES; i++)
		none[none_count++] = FIRST + FRAMES - i;
	for (i = 0; i < 20000; i++)
		one_call();
	CHECK(refused > 99 && gave > 99 && elsewhere > 99 && unlinked > 99);
	return counts();
}
