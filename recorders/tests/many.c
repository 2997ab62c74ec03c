/*
 * Dumps of as many frames as a chain may have, and of one more; their numbers rise, fall or are mixed up. Ends with 0 where the first
 * are copied, each frame once and by rising number, and the others are refused.
 */
#include "../nrvs_trace.h"

#include <stdio.h>
#include <stdlib.h>

enum { MOST = 65535, ROOM = MOST + 1 };

#define BITS40 (((uint64_t)1 << 40) - 1)

static nrvs_trace trace;
static uint64_t factor, words[512];
static uint64_t frames_there;

/* Frame k of the tree is the root (0), the one below it (1), one of the 512 below that, or one of 128 below each of these. */
static uint64_t number_of(uint64_t k) { return (k + 1) * factor & BITS40; }

static uint64_t inverse(uint64_t odd)
{
	uint64_t it = odd;

	for (unsigned k = 0; k < 6; k++)
		it *= 2 - odd * it;
	return it;
}

static int lend(void *context, uint64_t number, const uint64_t **lent)
{
	uint64_t k = (number * inverse(factor) & BITS40) - 1;
	uint64_t first = k < 2 ? k + 1 : 514 + (k - 2) * 128, below = k == 0 ? 1 : k == 1 ? 512 : k < 514 ? 128 : 0;

	(void)context;
	for (uint64_t i = 0; i < 512; i++)
		words[i] = i < below && first + i < frames_there ? number_of(first + i) * 4096 + 7 : 0;
	*lent = words;
	return 0;
}

static int are_rising(uint32_t count)
{
	const nrvs_tables *dump = &trace.dumps[0];
	const nrvs_frame *frames = trace.config.frames + dump->first;
	uint64_t last = 0;
	uint32_t met = 0;

	for (uint16_t k = nrvs_least(frames, dump->top); k != NRVS_NO_NODE; k = nrvs_following(frames, k)) {
		if (frames[k].number <= last)
			return 0;
		last = frames[k].number;
		met++;
	}
	return met == count && dump->count == count;
}

static int is_right(uint64_t by)
{
	nrvs_config config = { .levels = 4, .replicas = 1, .threads = 1, .tables = 1, .frame_room = ROOM };
	nrvs_status more, most;

	config.frames = calloc(ROOM, sizeof(nrvs_frame));
	if (!config.frames || nrvs_begin_chain(&trace, &config) != NRVS_OK)
		return 0;
	factor = by;
	frames_there = MOST + 1;
	more = nrvs_dump(&trace, 0, 0, number_of(0), lend, NULL);
	frames_there = MOST;
	most = nrvs_dump(&trace, 0, 0, number_of(0), lend, NULL);
	more = more == NRVS_TOO_MANY_FRAMES && are_rising(MOST) ? more : NRVS_OK;
	free(config.frames);
	return more == NRVS_TOO_MANY_FRAMES && most == NRVS_OK;
}

int main(void)
{
	static const uint64_t factors[] = { 1, BITS40, 0x9e3779b97f };

	for (unsigned k = 0; k < 3; k++) {
		if (!is_right(factors[k])) {
			printf("wrong by %llx\n", (unsigned long long)factors[k]);
			return 1;
		}
	}
	return 0;
}
