/* What each task flushes: a task may be on another processor, or another task on its own, before its flush returns. */
#ifndef FLUSHES_H
#define FLUSHES_H

#include "guest.h"

/* A task stored to the words of its processor's flush: what is there is its flush. */
void flushes_stored(unsigned cpu);

/* The processor's task begins a flush, of some address space: one that each processor makes which has the space, or that some make. */
void flushes_begin(unsigned cpu, uint64_t space, int is_of_all);

/* Its flush is over; if it was one of this address space, a line says so. One of nested tables is of all that the processors have. */
void flushes_end(unsigned cpu, uint64_t space);

#endif
