/* Accesses that are tried on the processor, beside what the library says of them and what was asked for. */
#ifndef TRIES_H
#define TRIES_H

#include <stdint.h>

struct try {
	uint64_t address; /* a multiple of 8 */
	unsigned mode, access;
};

extern uint64_t tries_made, tries_differ;

/* Tries one access. If a page covers the address, its memory there is the kernel's own or of a spot (spots.h). */
void try_access(struct try try);

/* Tries accesses while the processor walks the boot tables. */
void try_boot_pages(void);

/* Tries all accesses of an address: both modes, and reads, stores and fetches. */
void try_all(uint64_t address);

/* A word that is code too: it puts the word's number in EAX, and ends the access. Nothing else is ever put where tries are made, so
 * that a fetch from the wrong place ends as well.
 */
uint64_t word_of(uint64_t random);

#endif
