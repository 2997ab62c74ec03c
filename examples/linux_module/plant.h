/* Mistakes to be planted, by the module's parameter of that name; tests/linux_module sees each. */
#ifndef PLANT_H
#define PLANT_H

#include <linux/types.h>

enum {
	PLANT_NONE = 0,
	PLANT_FLUSH = 1,    /* nothing is flushed */
	PLANT_EARLY = 2,    /* tables are freed, and the change is said to be done, before the flush */
	PLANT_TOO_MANY = 3, /* with a page the one behind it is unmapped */
	PLANT_FLAG = 4,     /* a plain store, over flags that a processor has set meanwhile */
	PLANT_TOO_LONG = 5, /* a run that unmaps has a page too many */
	PLANT_GIVEN = 6     /* a page's memory is given away before the flush; only what is recorded shows it */
};

extern uint plant;

static inline bool is_planted(uint mistake)
{
	return plant == mistake;
}

#endif
