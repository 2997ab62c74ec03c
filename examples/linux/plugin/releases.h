/* Frames that the address space had, and that the kernel frees: they go to others. */
#ifndef RELEASES_H
#define RELEASES_H

#include <stdint.h>

/* It had none so far. */
void releases_begin(void);

/* Its tables have a page of this level (1: 4 KiB), which begins at this frame. */
void releases_had(uint64_t frame, unsigned level);

/* A function that frees frames has stored to this address of the kernel. Where a frame's flags are there, and the address space had
 * that frame since it was freed last, it is logged. Adjacent frames are one line, which comes before the next one of any kind. Whether the
 * frame is the root of a process's tables: nothing is left of the process, and another may get that frame, and its mm_struct. */
int releases_stored(unsigned cpu, uint64_t address, uint64_t pc);

#endif
