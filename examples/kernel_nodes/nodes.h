/* An address space with a copy of its page tables on each memory node: updates are appended to one log, and each node applies them to its
 * own tables, by plans, with frames of its own memory.
 */
#ifndef NODES_H
#define NODES_H

#include "firmware.h"
#include "nrvs_trace.h"
#include "plans.h"

enum { BATCH = 16 };

/* What an update is answered, and its place in the log. */
struct told {
	nrvs_answer answer;
	uint64_t place;
};

/* A copy on each node, of all memory at its own address. */
void nodes_begin(unsigned levels, const void *tables);

unsigned nodes_count(void);
unsigned node_of(unsigned processor);
const struct nrvs_target *node_target(unsigned node);

/* At most BATCH maps, unmaps and protects, one after another in the log. They are over for the caller's node. */
void nodes_update(unsigned node, const nrvs_request *requests, unsigned count, struct told *told);

/* Waits until each node is done with a place: so nobody finds what the update there took away. */
void nodes_wait(uint64_t place);

/* The flags of pages that an unmap at this place found, on any node; once each node is done with it. */
uint64_t nodes_flags(uint64_t place);

/* Looks at an address, on a node; how many entries that had applied. */
nrvs_answer nodes_look(unsigned node, uint64_t address, uint64_t *at);

/* How many updates are completed. */
uint64_t nodes_completed(void);

/* All nodes apply all entries; no processor keeps a translation. */
void nodes_level(void);
void nodes_forget(void);

/* How many accesses were made again after a fault, and how many times one waited for a node that held up its ring. */
extern uint64_t nodes_again, nodes_held_up;
void nodes_say(void);

#endif
