/*
 * Bugs that page tables of real systems have had, each behind one name; docs/RECORDING.md says what the auditor says of
 * each. A run has at most one of them. Those that begin at once are in the random requests too; the others only begin with
 * the closing requests, since what they leave behind would be met in different ways by different schedules. The last four
 * are of chains: two are there only across a cut, one is seen by touches alone, and one where memory is released.
 */
#ifndef BUGS_H
#define BUGS_H

enum bug {
	NO_BUG,
	ANSWERED_TWICE,       /* the reply is sent again */
	REPLY_BEFORE_PLACE,   /* the reply goes out before the update has its place in the log */
	STALE_READ,           /* a translation of before is answered, as of before, without a look at the log */
	NO_SHOOTDOWN,         /* a cached translation is used after the page table has changed */
	LOST_UPDATE,          /* a map is answered, and its entry isn't stored */
	SWAPPED_UPDATES,      /* the place is taken after the lock was released */
	UNMAP_NEIGHBOUR,      /* an unmap clears the next entry too */
	FREED_TABLE,          /* an emptied table is freed, and stays linked */
	SHARED_TABLE,         /* a new table is linked at two entries */
	UNALIGNED_LARGE_PAGE, /* a large page's entry has address bits below its size */
	LEAKED_TABLE,         /* an emptied table is unlinked, and not freed */
	LEAF_RIGHTS,          /* tables get the rights of their first page, and a resolve looks at the last entry alone */
	CACHED_OVER_CUT,      /* at a cut each cached translation is taken as one of now */
	EARLY_START,          /* a start is copied while a thread still changes the tables */
	LATE_FLUSH,           /* an update is answered before the TLBs are flushed */
	FREED_EARLY,          /* the memory of a page that is gone is released before the TLBs are flushed */
	BUGS
};

extern enum bug chosen_bug;
extern unsigned bug_from; /* the segment with which it begins */
extern unsigned segment;  /* the one that is recorded, counted from 0 */
extern int closing;       /* the closing requests have begun */

/* Is the bug there now? One that begins at once is there at one of `period` chances, by the caller's count of them. */
static inline int bug(enum bug name, unsigned period, unsigned count)
{
	const unsigned only_closing = 1u << FREED_TABLE | 1u << SHARED_TABLE | 1u << FREED_EARLY;

	return chosen_bug == name && segment >= bug_from &&
	       (closing || (!(only_closing >> name & 1) && count % period == period - 1));
}

#endif
