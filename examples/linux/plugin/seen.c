#include "seen.h"

#include "guest.h"
#include "numbers.h"
#include "tables.h"

/* Changes are counted. By access: the count when it was logged. By word: the count of its latest change. */
static struct numbers *told, *changed;
static uint64_t count, of_all;

void seen_begin(void)
{
	told = numbers_new(told);
	changed = numbers_new(changed);
	count = 1;
	of_all = 0;
}

void seen_changed(uint64_t word)
{
	*numbers_at(changed, word + 1) = ++count;
}

void seen_all_changed(void)
{
	of_all = ++count;
}

int seen_is_new(unsigned cpu, int is_user, enum access access, uint64_t address)
{
	uint64_t *last = numbers_at(told, (address >> 12) * 64 + cpu % 8 * 8 + (uint64_t)is_user * 4 + access + 1);
	uint64_t word, before = *last;

	if (before == count)
		return 0;
	*last = count;
	if (!before || before < of_all)
		return 1;
	word = tables_last_word(address);
	return word == NOWHERE || before < *numbers_at(changed, word + 1);
}
