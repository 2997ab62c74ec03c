/* Pages that come and go: where each may be, what it was, and what an access has to find. */
#ifndef SLOTS_H
#define SLOTS_H

#include "nrvs_plan.h"

#include <stdint.h>

enum { SLOTS = 16, HISTORY = 64, PARTS = 512, ALL_SPACES = 2, DIRTY = 0x40 };

/* An address of memory that no slot's page leads to. */
#define NO_PAGE UINT64_C(0x3e00000)

/* What is at a slot: its page, or that page in parts, of which some may be missing. It leads to one of two places in memory. */
struct state {
	uint8_t mapped, writable, which, in_parts;
	uint16_t gap, gap_count; /* the missing ones, from one on */
};

static inline int is_missing(struct state state, uint64_t part)
{
	return state.in_parts && part - state.gap < state.gap_count;
}

/* The place of a page, and all that it was: state `next` is there once the call under way is done, and none before `done` is left. */
struct slot {
	uint64_t base;
	unsigned size, space; /* ALL_SPACES: of the half in common */
	unsigned parts;       /* accesses are made below this part: so many pages of 4 KiB one behind the other, or of 512 parts of a larger one */
	int is_contended;     /* nobody knows its states: its accesses are recorded alone */
	struct state was[HISTORY];
	uint64_t next, done;
	uint32_t written;
};

extern struct slot slots[SLOTS];

/* Slots of one page in both halves of an address space of so many levels. Then some may be changed; then what their pages lead to is
 * written.
 */
void slots_begin(unsigned levels);
void slots_fill(void);

/* The physical address of one of the two pages of a slot. */
uint64_t page_of(const struct slot *slot, unsigned which);
static inline uint64_t bytes_of(unsigned size)
{
	return UINT64_C(4096) << 9 * size;
}
static inline unsigned rights_of(struct state state)
{
	return state.writable ? NRVS_WRITE : 0;
}

/* The state of a slot after the call under way, and before it. */
struct state slot_state(const struct slot *slot);

/* Whether a page of another slot leads to some of this memory. */
int slots_lead_to(const struct slot *but, uint64_t physical, uint64_t bytes);

/* A call is under way that leads to a state; it is over. */
void slot_begins(struct slot *slot, struct state state);
void slot_ends(struct slot *slot);

/* What an access is of. Half of those that are drawn are of the slot that was changed last. */
struct wish {
	struct slot *slot;
	int is_write;
};

struct wish slots_draw(uint64_t *seed);

/* One access of a processor in an address space, or in a copy of it, compared with what the pages were and are. The chain has the space's
 * number.
 */
void slots_access(struct wish wish, unsigned space, unsigned copy, unsigned processor, uint64_t *seed);

/* A dirty flag is lost. */
void slots_lose(void);

/* How many accesses were compared, how many differ, how many of these were recorded, and how many dirty flags are lost. */
uint64_t slots_accesses(void);
uint64_t slots_differ(void);
uint64_t slots_recorded(void);
uint64_t slots_lost(void);
void slots_say(void);

uint64_t draw(uint64_t *seed, uint64_t bound);

#endif
