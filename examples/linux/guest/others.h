/* All other processes of the guest. */
#ifndef OTHERS_H
#define OTHERS_H

/* Stops them, but for the first; afterwards none of their threads is in the middle of a system call or a fault. */
void stop_others(void);
void let_others_run(void);

#endif
