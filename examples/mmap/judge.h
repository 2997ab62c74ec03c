/* The auditor: a process of its own that reads the chain by a pipe. */
#ifndef JUDGE_H
#define JUDGE_H

#include "nrvs_trace.h"

/* Starts it, or opens the file of --write. If there is no auditor, the program ends. Segments have some `shortest` events or more. */
void judge_begin(uint32_t shortest);
/* From this time on nothing waits for it any more, or ten seconds later where it has judged nothing; 0: that never comes. */
void judge_until(double time);
/* Takes bytes of the chain: an nrvs_write. It fails when the auditor has found a fault, or when the time is over. */
int judge_take(void *context, const uint8_t *bytes, uint32_t length);
/* A segment of so many events begins to be written. */
void judge_segment(uint32_t events);
/* How many events are judged: if there is an end of time, all that are written, as long as there is time. */
uint64_t judge_judged(void);
/* The chain is over: waits for the verdict, prints it, and what shows a fault. The status to end with. */
int judge_end(void);

#endif
