/* Accesses of addresses that may fault. */
#ifndef ACCESSES_H
#define ACCESSES_H

#include <stdint.h>

/* What an access found: the number in the page, or the error code of the page fault. */
struct seen {
	uint64_t number;
	uint64_t fault; /* 0: there was none; else the code, with bit 63 */
};

#define FAULT ((uint64_t)1 << 63)

/* A load of the word there; an atomic addition of 0 to it; a call of the code there, which returns the number in its page. */
struct seen access_read(uint64_t address);
struct seen access_write(uint64_t address);
struct seen access_fetch(uint64_t address);
/* An exchange: stores the number there, and finds the one before it. */
struct seen access_store(uint64_t address, uint64_t number);

/*
 * From here on faults of these accesses are answers; code is fetched from [begin, end) alone, where nothing is mapped yet. 0 where signals
 * don't have the trap's error code: then the bits 1, 2 and 4 are those that the access should have.
 */
int accesses_begin(uint64_t begin, uint64_t end);

/*
 * The error code of a page fault (SDM 3A, "Page-Fault Exceptions"): bit 0 from the signal's si_code, bits 1, 2 and 4 as the trap had
 * them. The bit 0 of the trap says whether a page-table entry was there, which Linux may not have made yet.
 */
uint64_t fault_code(int si_code, uint64_t trap);

#endif
