/* A page table with a lock for each table that records itself: updates of two tables run at the same time.
   cc -std=c11 -O2 -pthread -I recorders -o table_locks examples/minimal/table_locks.c && ./table_locks | nrvs audit
   Mistakes, to be named: late-place, early-place, late-at, at-behind-link. */
#include "recipe.h"

static pthread_mutex_t locks[TABLES];

static void request(unsigned thread, unsigned count, unsigned random)
{
	uint64_t address = drawn(count, random), phys = ((uint64_t)random + count) << 12;
	int maps = random / 8 % 4 == 0, unmaps = random / 8 % 4 == 1, is_update = maps || unmaps;
	nrvs_answer answer = nrvs_not_mapped();
	uint32_t call, at;
	must(nrvs_call(&trace, 0, thread, maps ? nrvs_map(address, NRVS_4K, phys, RIGHTS) : unmaps ? nrvs_unmap(address) : nrvs_resolve(address),
	               &call));
	/* A read that finds no link holds no table's lock. So it takes its `at` before it looks for the link. */
	at = updates;
	if (is("early-place") && is_update) at = nrvs_add(&updates);
	unsigned table = leaf(address, is_update);
	linger(table ? random / 1024 : 0);
	if (is("at-behind-link")) at = updates;
	if (table) {
		pthread_mutex_lock(&locks[table]);
		_Atomic uint64_t *word = &tables[table][address >> 12 & 511];
		uint64_t found = *word;
		answer = maps ? found ? nrvs_overlap(address) : nrvs_done() : !found ? nrvs_not_mapped()
		         : unmaps ? nrvs_removed(PHYS(found), NRVS_4K, RIGHTS) : nrvs_mapped(PHYS(found), NRVS_4K, RIGHTS);
		if (maps && !found) *word = ENTRY(phys);
		if (unmaps) *word = 0;
		/* Under the table's lock an update's place is drawn by one fetch_add, and a read looks at what is drawn next. */
		if (is_update && !is("late-place") && !is("early-place")) at = nrvs_add(&updates);
		if (!is_update && !is("late-at")) at = updates;
		pthread_mutex_unlock(&locks[table]);
		linger(random / 2048);
		if (is_update && is("late-place")) at = nrvs_add(&updates);
		if (!is_update && is("late-at")) at = updates;
	}
	if (is_update) must(nrvs_place(&trace, at, call));
	must(nrvs_reply(&trace, call, at, answer));
}

int main(int count, char **words)
{
	for (unsigned table = 0; table < TABLES; table++) pthread_mutex_init(&locks[table], 0);
	return record(count, words, nrvs_begin);
}
