/* The processors: how they begin, what each does by turns, how they flush, and how they are held up. Those that flush together, as they
 * walk the same tables, are a group.
 */
#ifndef PROCESSORS_H
#define PROCESSORS_H

#include <stdint.h>

enum { PROCESSORS = 4 };

/* What a kernel says of a processor: which group it is of, and the root that it loads; and what it does next. */
unsigned processor_group(unsigned processor);
uint64_t processor_root(unsigned processor);
void processor_turn(unsigned processor, uint64_t *seed);

/* The number of the processor that calls it. */
unsigned processor_here(void);

/* The handlers of faults and shootdowns, for the processor that calls it. */
void processors_set_gates(void);

/* The others begin, and go on by turns. */
void processors_start(void);
int processors_run(void);

/* All of a group flush: a page, or all. One shootdown of a group at a time. */
void processors_shoot_down(unsigned group, uint64_t base, int all);

/* Waits a little, and answers a shootdown: wherever one waits for another, interrupts may be off. */
void processors_pause(void);

/* The others take no turn until they are released, but one at a time that is let; whether they are to be held, now or for good. */
void processors_hold(void);
void processors_let(unsigned processor);
void processors_release(void);
int processors_are_held(void);

/* They take no more. */
void processors_stop(void);

#endif
