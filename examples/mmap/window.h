/* The window: pages at fixed addresses, that all workers change and access, and what each of them is at the moment. */
#ifndef WINDOW_H
#define WINDOW_H

#include "nrvs_trace.h"

#include <pthread.h>
#include <stdatomic.h>

enum kind { SHARED, PRIVATE, ANONYMOUS };

enum region_name { SMALL, LARGE, HUGE, WATCHED, REGIONS };
enum { SMALL_SLOTS = 32, LARGE_SLOTS = 16, HUGE_SLOTS = 2, WATCHED_SLOTS = 4 };
enum { SLOTS = SMALL_SLOTS + LARGE_SLOTS + HUGE_SLOTS + WATCHED_SLOTS };
#define WINDOW 0x1000000000u /* where the window begins: below 2^39, which is all that some kernels have */

/* A page. All but `version` belongs to who holds the lock. */
struct slot {
	pthread_mutex_t lock;
	atomic_uint version;    /* odd while it is being changed */
	uint64_t base;
	nrvs_size size;
	int is_mapped;
	enum kind kind;
	int prot;
	uint64_t number;        /* the frame that it shows */
	uint64_t file_number;   /* the frame of the file, or 0: it is shown until a private page is written */
};

/*
 * Pages that are changed together. SMALL has pages side by side. LARGE is 2 MiB that are mapped as a whole; of its 512 pages some are
 * slots. HUGE has pages of 2 MiB. WATCHED has pages that userfaultfd watches.
 */
struct region {
	const char *name;
	uint64_t base, bytes;
	unsigned first, count;
	int is_there;
};

/* Pages of one region, which are slots from `first` on, and the addresses that the kernel is asked for. */
struct range {
	const struct region *region;
	unsigned first, count;
	uint64_t base, bytes;
};

extern struct slot slots[SLOTS];
extern struct region regions[REGIONS];

#define WINDOW_END (WINDOW + 0x1000000u)

void window_begin(int has_huge);
/* Whether there is such a page: its region is there, and has so many. */
int slot_is_there(unsigned slot);

/* Takes the locks of a range, in the order of the addresses, and releases them. */
void range_lock(const struct range *range);
void range_unlock(const struct range *range);
/* Some pages side by side of a region that is there, but not of WATCHED; the whole of it where it is LARGE. */
struct range range_draw(uint64_t *random);
/* A page of SMALL, or of LARGE where SMALL has none. */
unsigned slot_draw(uint64_t *random);
/* One page of SMALL or LARGE. */
struct range range_of_slot(unsigned slot);
/* Whether all pages of a range are mapped, or none is. */
int range_is_mapped(const struct range *range);
int range_is_free(const struct range *range);

/* The rights of a page that was mapped with these: PROT_NONE is a page that isn't the user's. */
unsigned rights_of(int prot);

/* The page tables that have just these pages, for the start of a segment: the root's frame number, and their words. */
uint64_t window_tables(void);
int window_lend(void *context, uint64_t number, const uint64_t **words);

#endif
