/* A page table that flushes TLBs outside of its lock and records a chain: accesses through the TLBs, and memory that is freed.
   cc -std=c11 -O2 -pthread -I recorders -o late_flush examples/minimal/late_flush.c && ./late_flush | nrvs audit --chain --quiet
   Mistakes, to be named: reply-first, free-first, no-flush. */
#include "recipe.h"

static pthread_mutex_t lock = PTHREAD_MUTEX_INITIALIZER;
static struct { pthread_mutex_t lock; uint64_t kept[TABLES]; } tlbs[THREADS]; /* of each thread; an entry for each leaf table */

/* The entry by which a thread accesses a page: the one that its TLB has, or that of the table, which the TLB keeps from then on. */
static uint64_t walked(unsigned thread, unsigned table, uint64_t address)
{
	pthread_mutex_lock(&tlbs[thread].lock);
	if (!tlbs[thread].kept[table]) tlbs[thread].kept[table] = tables[table][address >> 12 & 511];
	uint64_t entry = tlbs[thread].kept[table];
	pthread_mutex_unlock(&tlbs[thread].lock);
	return entry;
}

static void flush(unsigned table)
{
	for (unsigned thread = 0; thread < THREADS && !is("no-flush"); thread++) {
		pthread_mutex_lock(&tlbs[thread].lock);
		tlbs[thread].kept[table] = 0;
		pthread_mutex_unlock(&tlbs[thread].lock);
	}
}

/* The memory is somebody else's from here on. The thread's own call may be open, so this is one of a second thread number. */
static void release(unsigned thread, uint64_t phys)
{
	uint32_t call;
	must(nrvs_call(&trace, 0, THREADS + thread, nrvs_release(phys, NRVS_4K), &call));
	must(nrvs_reply(&trace, call, 0, nrvs_done()));
}

static void request(unsigned thread, unsigned count, unsigned random)
{
	uint64_t address = drawn(count, random), phys = (uint64_t)(1 + thread * REQUESTS + count) << 12; /* memory that nothing else has */
	int maps = random / 8 % 4 == 0, unmaps = random / 8 % 4 == 1;
	uint32_t call, at = 0;
	must(nrvs_call(&trace, 0, thread, maps ? nrvs_map(address, NRVS_4K, phys, RIGHTS) : unmaps ? nrvs_unmap(address)
	               : nrvs_touch(address, NRVS_USER_MODE, NRVS_WRITES), &call));
	unsigned table = leaf(address, 1);
	if (!maps && !unmaps) {
		uint64_t entry = walked(thread, table, address);
		must(nrvs_reply(&trace, call, 0, entry ? nrvs_allowed(PHYS(entry)) : nrvs_fault(6)));
		return;
	}
	pthread_mutex_lock(&lock);
	_Atomic uint64_t *word = &tables[table][address >> 12 & 511];
	uint64_t found = *word;
	if (unmaps || !found) *word = maps ? ENTRY(phys) : 0;
	must(nrvs_place(&trace, at = nrvs_add(&updates), call));
	pthread_mutex_unlock(&lock);
	/* Who gives flushes nothing, and is answered here. Who takes away flushes each TLB, is answered then, and frees the memory. */
	nrvs_answer answer = maps ? found ? nrvs_overlap(address) : nrvs_done() : found ? nrvs_removed(PHYS(found), NRVS_4K, RIGHTS)
	                     : nrvs_not_mapped();
	int is_early = maps || is("reply-first");
	if (is_early) must(nrvs_reply(&trace, call, at, answer));
	if (unmaps && found && is("free-first")) release(thread, PHYS(found));
	linger(random / 1024);
	if (unmaps && found) flush(table);
	if (!is_early) must(nrvs_reply(&trace, call, at, answer));
	if (unmaps && found && !is("free-first")) release(thread, PHYS(found));
}

int main(int count, char **words)
{
	for (unsigned thread = 0; thread < THREADS; thread++) pthread_mutex_init(&tlbs[thread].lock, 0);
	return record(count, words, nrvs_begin_chain);
}
