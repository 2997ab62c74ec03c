/* Physical memory for pages to be tried: spots of 2 MiB, in four regions of 1 GiB. */
#ifndef SPOTS_H
#define SPOTS_H

#include <stdint.h>

enum { SPOTS = 11, REGIONS = 4, SPOT_BYTES = 1 << 21 };

extern const uint64_t spots[SPOTS], regions[REGIONS];

/* Whether there is memory at each. */
int spots_are_there(void);

/* A physical address in a spot of a page, whose physical address and size are given; a multiple of 8. */
uint64_t spot_address(uint64_t physical, uint64_t bytes);

/* Whether an address is in a spot. */
int is_in_spot(uint64_t physical);

#endif
