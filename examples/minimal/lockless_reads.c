/* A page table with a lock for each table, and reads without any lock, that records itself.
   cc -std=c11 -O2 -pthread -I recorders -o lockless_reads examples/minimal/lockless_reads.c && ./lockless_reads | nrvs audit
   Mistakes, to be named: one-count, count-once, at-outside. */
#include "recipe.h"

static pthread_mutex_t locks[TABLES];
static _Atomic unsigned counts[TABLES]; /* odd while an update is at work in the table */
static _Atomic unsigned count_of_all;   /* the mistake: one count for all tables */

static uint32_t update(unsigned table, uint64_t address, uint64_t entry, uint64_t *found, unsigned random)
{
	pthread_mutex_lock(&locks[table]);
	counts[table]++;
	count_of_all++;
	uint32_t at = nrvs_add(&updates); /* a place, by one fetch_add, while the count is odd */
	linger(random);
	*found = tables[table][address >> 12 & 511];
	if (!entry || !*found) tables[table][address >> 12 & 511] = entry;
	counts[table]++;
	count_of_all++;
	pthread_mutex_unlock(&locks[table]);
	return at;
}

/* The entry, and how many updates were drawn at a moment at which it was so: the table's count is even, and the same before and after. */
static uint32_t look(unsigned table, uint64_t address, uint64_t *found, unsigned random)
{
	_Atomic unsigned *counted = is("one-count") ? &count_of_all : &counts[table];
	unsigned before;
	uint32_t at;
	do {
		before = *counted;
		at = is("one-count") ? before / 2 : updates;
		if (!is("one-count")) linger(random);
		*found = tables[table][address >> 12 & 511];
	} while (!is("count-once") && (before % 2 || *counted != before));
	if (is("at-outside")) linger(random / 16), at = updates;
	return at;
}

static void request(unsigned thread, unsigned count, unsigned random)
{
	uint64_t address = drawn(count, random), phys = ((uint64_t)random + count) << 12, found = 0;
	int maps = random / 8 % 4 == 0, unmaps = random / 8 % 4 == 1;
	uint32_t call, at;
	must(nrvs_call(&trace, 0, thread, maps ? nrvs_map(address, NRVS_4K, phys, RIGHTS) : unmaps ? nrvs_unmap(address) : nrvs_resolve(address),
	               &call));
	at = updates; /* for a read that finds no link: taken before it looks for the link */
	unsigned table = leaf(address, maps || unmaps);
	if (maps || unmaps)
		must(nrvs_place(&trace, at = update(table, address, maps ? ENTRY(phys) : 0, &found, random / 1024), call));
	else if (table)
		at = look(table, address, &found, random / 1024);
	must(nrvs_reply(&trace, call, at, maps ? found ? nrvs_overlap(address) : nrvs_done() : !found ? nrvs_not_mapped()
	                : unmaps ? nrvs_removed(PHYS(found), NRVS_4K, RIGHTS) : nrvs_mapped(PHYS(found), NRVS_4K, RIGHTS)));
}

int main(int count, char **words)
{
	for (unsigned table = 0; table < TABLES; table++) pthread_mutex_init(&locks[table], 0);
	return record(count, words, nrvs_begin);
}
