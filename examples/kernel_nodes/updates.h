/* What becomes of the slots' pages, by two processors at once. Each changes slots of its own, whose accesses are compared with what it did.
 * Both also change some that nobody keeps a list of: the auditor judges what is answered there, and found. All is recorded as one chain.
 */
#ifndef UPDATES_H
#define UPDATES_H

#include <stdint.h>

enum { CHANGERS = 2 };

/* The slots, and the chain. */
void updates_begin(unsigned levels, int is_sent);

/* One change of a changer, or one look at an address. */
void updates_make(unsigned processor, uint64_t *seed);

/* While the other processors are held, so that their nodes apply nothing by themselves. Each is seen to learn of a map by a fault, and to
 * have heard of an unmap once that is answered. A full ring is met too. Those accesses are made that are wished.
 */
void updates_stall(uint64_t *seed);
extern struct wish updates_wish;

/* Ends the segment, while no processor makes a call; and the chain, with the tables of each node. */
void updates_cut(void);
void updates_end(void);

/* How many calls of the log were answered otherwise than they had to be. */
uint64_t updates_wrong(void);

#endif
