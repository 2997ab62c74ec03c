/* A mistake put in on purpose, by -DPLANT=...: each but PLANT_ONE has to be seen, or the accesses and what is recorded show nothing. Where
 * one shows only to accesses that are made in time, it waits for these.
 */
#ifndef PLANT_H
#define PLANT_H

enum plant {
	PLANT_NONE,
	PLANT_SHOOTDOWN, /* the other processors don't flush */
	PLANT_EARLY,     /* tables are freed before they are unlinked and flushed */
	PLANT_FLAG,      /* a plain store, over flags that a processor has set since the words were shown */
	PLANT_GARBAGE,   /* frames that are given aren't empty */
	PLANT_EXCHANGED, /* of a split, the new table is filled after the store that links it */
	PLANT_SWAPPED,   /* of two stores each writes the word of the other */
	PLANT_UNFILLED,  /* of a split, the new table isn't filled */
	PLANT_GAP,       /* where parts of a page are unmapped, one more is */
	PLANT_GIVEN,     /* a page's memory is given away before the flush; only what is recorded shows it */
	PLANT_REFILL,    /* of a split, the new table isn't filled again where its link met a flag */
	PLANT_ONE,       /* of a range the first address alone is flushed: QEMU drops more, so that nothing shows it */

	/* in examples/kernel_nodes */
	PLANT_REPLY, /* a reply before each node is done with the update */
	PLANT_LATE,  /* a node is done with an update before its processors have flushed: they do with the next one */
	PLANT_RING,  /* a node's ring has room for 15 entries */
	PLANT_LINK,  /* an entry names another node as the one that appended the entry before it */
	PLANT_FAULT, /* the handler of faults looks at its node's table as it is */
	PLANT_LOOK,  /* a look looks at its node's table as it is */
	PLANT_TWICE, /* a node applies each update twice */
};

#ifndef PLANT
#define PLANT PLANT_NONE
#endif

static inline int is_planted(enum plant plant)
{
	return PLANT == plant;
}

#endif
