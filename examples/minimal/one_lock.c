/* A page table with one lock that records itself: minimal.c, with mistakes.
   cc -std=c11 -O2 -pthread -I recorders -o one_lock examples/minimal/one_lock.c && ./one_lock | nrvs audit
   Mistakes, to be named: late-call, late-place, late-at, uncounted. */
#include "recipe.h"

static pthread_mutex_t lock = PTHREAD_MUTEX_INITIALIZER;

static void request(unsigned thread, unsigned count, unsigned random)
{
	uint64_t address = drawn(count, random), phys = ((uint64_t)random + count) << 12;
	int maps = random / 8 % 4 == 0, unmaps = random / 8 % 4 == 1, is_update = maps || unmaps;
	nrvs_request asked = maps ? nrvs_map(address, NRVS_4K, phys, RIGHTS) : unmaps ? nrvs_unmap(address) : nrvs_resolve(address);
	uint32_t call = 0, at;
	if (!is("late-call")) must(nrvs_call(&trace, 0, thread, asked, &call));
	pthread_mutex_lock(&lock);
	_Atomic uint64_t *word = &tables[leaf(address, 1)][address >> 12 & 511];
	uint64_t found = *word;
	nrvs_answer answer = maps ? found ? nrvs_overlap(address) : nrvs_done() : !found ? nrvs_not_mapped()
	                     : unmaps ? nrvs_removed(PHYS(found), NRVS_4K, RIGHTS) : nrvs_mapped(PHYS(found), NRVS_4K, RIGHTS);
	if (maps && !found) *word = ENTRY(phys);
	if (unmaps) *word = 0;
	/* Under the lock an update gets its place, whether it changes anything or not, and a read sees how many there are. */
	int has_place = is_update && !(is("uncounted") && (maps ? found != 0 : !found)), is_late = is(is_update ? "late-place" : "late-at");
	at = has_place && !is_late ? updates++ : updates;
	pthread_mutex_unlock(&lock);
	linger(random / 1024);
	if (is_late) at = is_update ? nrvs_add(&updates) : updates;
	if (is("late-call")) must(nrvs_call(&trace, 0, thread, asked, &call));
	if (has_place) must(nrvs_place(&trace, at, call));
	must(nrvs_reply(&trace, call, at, answer));
}

int main(int count, char **words) { return record(count, words, nrvs_begin); }
