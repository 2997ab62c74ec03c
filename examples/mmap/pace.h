/*
 * How large segments may be, so that all of them are judged when the time is over. The auditor may be slower than the recorder: so its
 * speed is measured, and segments become as small as it needs.
 */
#ifndef PACE_H
#define PACE_H

#include <stdint.h>

/* Seconds of a clock that is never set. */
double pace_now(void);

/* Recording begins, and has to be over, judged, at this time; 0: there is no such time. A segment has from `least` to `most` events. */
void pace_begin(double end, uint32_t least, uint32_t most);

/* A segment of so many events is recorded. */
void pace_recorded(uint32_t events);

/* How many events the next segment may have; 0: what is recorded takes the rest of the time. `judged`: how many are judged. */
uint32_t pace_events(uint64_t judged);

#endif
