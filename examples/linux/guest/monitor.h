/* A monitor of a virtual machine, by KVM. */
#ifndef MONITOR_H
#define MONITOR_H

#include <stdint.h>

/* So many rounds of a machine that reads and writes pages; between its runs they are taken away and changed. How many runs didn't end
 * as they have to. */
int run_monitor(uint64_t random, unsigned rounds);

/* The same of a machine with a processor that writes the same pages all the time, while, so many times, the log of its writes is taken:
 * after each, a page may be written only when the processor has asked again. */
int run_logged(unsigned rounds);

/* Of a machine that has written few pages of a range, or all, the whole range is taken away, so many times; meanwhile another process wakes
 * on the monitor's processor again and again, to which KVM yields. */
int run_sparse(unsigned rounds, int is_dense);

/* The same of a machine with two processors, each of which reads and writes the same pages all the time, while so often its memory is
 * changed: it is taken away, or its writes are logged, of which alone it is with `only_logs`. */
int run_pair(uint64_t random, unsigned rounds, int only_logs);

#endif
