/* System calls of the process that is watched, by the registers that the kernel keeps of it. */
#ifndef SYSTEM_CALLS_H
#define SYSTEM_CALLS_H

#include <stdint.h>

#define RESULT 0x50 /* of struct pt_regs: where its result goes */

/* One begins; its registers are at this physical address. */
void system_calls_begins(unsigned cpu, uint64_t registers);

/* One ends. Whether what it promised may be less than what was allowed before though no store was made: accesses are new again then. */
int system_calls_returns(unsigned cpu, uint64_t registers);

#endif
