/* The other processors: threads that load the space and access its pages, with interrupts off but for windows in which shootdowns come. */
#ifndef PROCESSORS_H
#define PROCESSORS_H

#include <linux/types.h>

/* Begins a thread on each processor but this one, to which the caller is bound; their number. Ends them. */
unsigned processors_begin(void);
void processors_end(void);

/* From the first to the second no processor makes an access. The second does nothing where none is held. */
void processors_hold(void);
void processors_release(void);

/* Releases the processors, and waits until they have made so many accesses more, a minute at most. */
void processors_go_on(unsigned long accesses);

/* What an access comes to on this processor: 0, or 1 + the error code of its page fault. Interrupts are off. */
unsigned long processor_read(const uint64_t *at, uint64_t *word);
unsigned long processor_write(uint64_t *at, uint64_t word);

/* Begins to note the error codes of page faults. 0, or an error of Linux. */
int faults_begin(void);
void faults_end(void);

#endif
