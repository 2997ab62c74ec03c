/* The page tables of the address space that is watched: what they hold, as the guest's stores made it. */
#ifndef TABLES_H
#define TABLES_H

#include <stdint.h>

/* From the root on; each table that is linked is logged. */
void tables_begin(uint64_t root);
uint64_t tables_root(void);

/* A change of a word: what it was and is, at which level. What the processor sets itself, accessed and dirty, is no change. */
struct change {
	uint64_t frame, index, old, new;
	unsigned level;
};

/* Looks at the aligned word at `physical`, which was stored to; 1 where it is of a table and has changed. */
int tables_stored(uint64_t physical, struct change *change);

/* Follows what a change links, and leaves what it unlinks. */
void tables_changed(const struct change *change);

int tables_is_empty(void);

/* The physical address of the last word of the walk of an address, by what is in memory now; NOWHERE where it leads out of it. */
uint64_t tables_last_word(uint64_t address);

/* Logs the tables as they are in memory. */
void tables_dump(void);

#endif
