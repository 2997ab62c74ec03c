/* Pages that come, change and go, and accesses tried before and after. */
#ifndef ROUNDS_H
#define ROUNDS_H

#include <stdint.h>

/* Words of the kernel's own, in its code, its constants and its data: an access of each is tried. */
extern uint64_t spare_text[], spare_constant[], spare_data[];

/* The largest size of page that the processor has. */
extern unsigned largest_size;

/* Maps a page of each size and all rights, in both halves of the address space. */
void rounds_map_first_pages(void);

/* Tries all accesses of these, and of the kernel's own pages, and of addresses that aren't canonical. */
void rounds_try_first_pages(void);

/* One round: an update, with tries before and after it. */
void rounds_do(void);

#endif
