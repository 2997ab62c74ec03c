/* Another process beside the threads: one that is forked, and one that shares the window. */
#ifndef OTHERS_H
#define OTHERS_H

#include <stdint.h>

/* Events that a fork and its child may have under way. */
uint32_t others_reserve(void);

/* Runs the body in a process of its own that has the same address space, and waits for its end; 0, or an errno where that can't be. */
int run_as_process(int (*body)(void *), void *argument);

#endif
