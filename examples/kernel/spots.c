#include "spots.h"

#include "random.h"
#include "say.h"

#define MIB (UINT64_C(1) << 20)
#define GIB (UINT64_C(1) << 30)

/* QEMU's PC with 4 GiB has 3 GiB from 0 on, and 1 GiB from 4 GiB on. */
const uint64_t regions[REGIONS] = { 0, 1 * GIB, 2 * GIB, 4 * GIB };

const uint64_t spots[SPOTS] = {
	512 * MIB, 1 * GIB - 2 * MIB,
	1 * GIB, 1 * GIB + 512 * MIB, 2 * GIB - 2 * MIB,
	2 * GIB, 2 * GIB + 512 * MIB, 3 * GIB - 2 * MIB,
	4 * GIB, 4 * GIB + 512 * MIB, 5 * GIB - 2 * MIB,
};

int spots_are_there(void)
{
	unsigned k;

	for (k = 0; k < SPOTS; k++)
		*(volatile uint64_t *)(spots[k] + SPOT_BYTES - 8) = k + 1;
	for (k = 0; k < SPOTS; k++)
		if (*(volatile uint64_t *)(spots[k] + SPOT_BYTES - 8) != k + 1)
			return 0;
	return 1;
}

int is_in_spot(uint64_t physical)
{
	for (unsigned k = 0; k < SPOTS; k++)
		if (physical - spots[k] < SPOT_BYTES)
			return 1;
	return 0;
}

uint64_t spot_address(uint64_t physical, uint64_t bytes)
{
	unsigned first = random_below(SPOTS), k, n;

	if (bytes <= SPOT_BYTES)
		return physical + random_word() % bytes / 8 * 8;
	for (k = 0; k < SPOTS; k++) {
		n = (first + k) % SPOTS;
		if (spots[n] - physical < bytes)
			return spots[n] + random_word() % SPOT_BYTES / 8 * 8;
	}
	stop("no spot in the page at", physical);
}
