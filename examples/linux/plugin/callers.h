/* The callers: what may be return addresses on a processor's stack. The reader picks those that fit (callers in log_lines.py). */
#ifndef CALLERS_H
#define CALLERS_H

#include <stdint.h>

/* A call instruction stored its return address there. */
void callers_called(unsigned cpu, uint64_t at, uint64_t pc);

/* The processor's latest call: where its return address is, and the call itself. */
uint64_t callers_stack(unsigned cpu);
uint64_t callers_call(unsigned cpu);

/* Logs the words of the stack, from the latest call's on, that come after a call, each with what is called there. */
void callers_tell(unsigned cpu);

#endif
