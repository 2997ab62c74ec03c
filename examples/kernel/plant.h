/* A mistake put in on purpose, by -DPLANT=...: each has to be seen, or the tries show nothing. */
#ifndef PLANT_H
#define PLANT_H

enum plant {
	PLANT_NONE,
	PLANT_RIGHT,  /* the library is asked to map pages that can be written where they can't be, and the other way round */
	PLANT_FRAME,  /* .. to map the memory behind the page's own */
	PLANT_ACCESS, /* .. whether memory may be read, where it is written */
	PLANT_FLUSH,  /* a page that is unmapped or changed isn't flushed */
	PLANT_WP,     /* CR0.WP stays 0: a supervisor writes everywhere */
	PLANT_ROOT,   /* CR3 is the frame behind the root: the processor resets */
};

#ifndef PLANT
#define PLANT PLANT_NONE
#endif

static inline int is_planted(enum plant plant)
{
	return PLANT == plant;
}

#endif
