/* What the kernel says of a process. */
#ifndef MAPPINGS_H
#define MAPPINGS_H

#include <sys/types.h>

/* From now on the kernel's thread that makes small pages large (khugepaged) sleeps: it changes tables of processes that have stopped. */
void let_pages_be(void);

/* The process stops itself: nothing of its page tables changes until another lets it go on. */
void stop(void);

/* Goes on with each stop of a child, after what the kernel says of its mappings then was written to the second serial line; returns when
 * the child has ended, with its status. */
int tell_at_each_stop(pid_t child);

/* Waits for the stop of a child. What the kernel says of its mappings then, and the kernel's dump of its page tables, are written to that
 * line, and QEMU ends, so that its memory stays as it is. */
void dump_at_stop(pid_t child);

#endif
