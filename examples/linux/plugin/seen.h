/* Which accesses are logged: one page's again, by the same processor and in the same way, only where the page has changed since. */
#ifndef SEEN_H
#define SEEN_H

#include <stdint.h>

enum access { READ, WRITE, FETCH };

void seen_begin(void);

/* The word at a physical address has changed or was flushed, or any word may have. */
void seen_changed(uint64_t word);
void seen_all_changed(void);

/* Whether this access has to be logged; it counts as logged. */
int seen_is_new(unsigned cpu, int is_user, enum access access, uint64_t address);

#endif
