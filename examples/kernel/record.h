/* What is recorded: a chain of all calls on the page table and all accesses that are tried, which begins with the boot tables. */
#ifndef RECORD_H
#define RECORD_H

#include <stdint.h>

/* An answer of the library, with its codes. */
struct answer {
	unsigned code, size, rights;
	uint64_t number;
};

enum record_kind { RECORD_MAP, RECORD_UNMAP, RECORD_PROTECT, RECORD_RESOLVE, RECORD_ACCESS, RECORD_TOUCH };

#define RECORD_NO_CALL 0xffffffffu

/* Begins the chain, with the tables of this root as its start: they are in memory at their own addresses. The page table that comes has
 * at most so many tables. The chain is sent, or nobody listens.
 */
void record_begin(unsigned levels, uint64_t root, unsigned tables, int is_sent);

/* Before a call; of an access and a touch, size is what it does and rights is the mode. RECORD_NO_CALL: no chain has such a call. */
uint32_t record_call(enum record_kind kind, unsigned size, unsigned rights, uint64_t address, uint64_t physical);

/* After it: of an update, after the flush. */
void record_answer(enum record_kind kind, uint32_t call, struct answer answer);

/* While no call is open: sends the segment that ends here, and begins the next. */
void record_cut(void);

/* After the last call: sends the last segment with a dump of the tables of this root. */
void record_end(uint64_t root);

#endif
