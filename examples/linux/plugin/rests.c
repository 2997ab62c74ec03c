#include "rests.h"

#include "guest.h"

#include <unistd.h>

#define REST 110000 /* microseconds: QEMU goes to the next processor 10 times a second */
#define PRESENT 1u
#define WRITABLE 2u

static uint64_t places;

static void rest_at(unsigned kinds)
{
	if (guest.rest && guest.rest_at & kinds && places++ % guest.rest == 0)
		usleep(REST);
}

void rests_stored(const struct change *change)
{
	int takes_away = change->old & PRESENT && change->old & ~change->new & (PRESENT | WRITABLE);

	rest_at((takes_away ? REST_AT_STORE : 0) | (change->level > 1 ? REST_AT_UPPER_STORE : 0));
}

void rests_flushing(int own)
{
	rest_at(REST_AT_FLUSH | (own ? 0 : REST_AT_OTHERS_FLUSH));
}
