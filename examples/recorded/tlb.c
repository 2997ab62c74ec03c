#include "tlb.h"

#include <string.h>

static const nrvs_answer nothing = { 4, 0, 0, 0 };

void tlb_make(struct tlb *tlb)
{
	memset(tlb->entries, 0, sizeof(tlb->entries));
	tlb->next = 0;
	pthread_mutex_init(&tlb->lock, NULL);
}

int tlb_find(struct tlb *tlb, uint64_t address, nrvs_mode mode, nrvs_act act, nrvs_answer *answer)
{
	int is_there = 0;

	pthread_mutex_lock(&tlb->lock);
	for (unsigned k = 0; k < TLB_ENTRIES; k++) {
		uint64_t into = address - tlb->entries[k].base;

		if (into < tlb->entries[k].bytes) {
			*answer = access_answer(nrvs_mapped(tlb->entries[k].phys + into, NRVS_4K, tlb->entries[k].rights), mode, act);
			is_there = 1;
			if (answer->code == nrvs_fault(0).code)
				tlb->entries[k].bytes = 0; /* a fault drops it, and the next access walks */
		}
	}
	pthread_mutex_unlock(&tlb->lock);
	return is_there;
}

void tlb_keep(struct tlb *tlb, uint64_t address, nrvs_answer found)
{
	uint64_t bytes = (uint64_t)4096 << (9 * found.size);

	if (found.code == nothing.code)
		return;
	pthread_mutex_lock(&tlb->lock);
	tlb->entries[tlb->next].base = address / bytes * bytes;
	tlb->entries[tlb->next].bytes = bytes;
	tlb->entries[tlb->next].phys = found.value / bytes * bytes;
	tlb->entries[tlb->next].rights = found.rights;
	tlb->next = (tlb->next + 1) % TLB_ENTRIES;
	pthread_mutex_unlock(&tlb->lock);
}

void tlb_flush(struct tlb *tlb, uint64_t base, uint64_t bytes)
{
	pthread_mutex_lock(&tlb->lock);
	for (unsigned k = 0; k < TLB_ENTRIES; k++)
		if (base - tlb->entries[k].base < tlb->entries[k].bytes || tlb->entries[k].base - base < bytes)
			tlb->entries[k].bytes = 0;
	pthread_mutex_unlock(&tlb->lock);
}

nrvs_answer access_answer(nrvs_answer found, nrvs_mode mode, nrvs_act act)
{
	unsigned asked = (mode == NRVS_USER_MODE ? NRVS_USER : 0) | (act == NRVS_WRITES ? NRVS_WRITE : 0) |
			 (act == NRVS_FETCHES ? NRVS_EXEC : 0);
	unsigned code = (act == NRVS_WRITES ? 2u : 0) | (mode == NRVS_USER_MODE ? 4u : 0) | (act == NRVS_FETCHES ? 16u : 0);

	if (found.code == nothing.code)
		return nrvs_fault(code);
	return (asked & found.rights) == asked ? nrvs_allowed(found.value) : nrvs_fault(code | 1);
}
