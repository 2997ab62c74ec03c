/* What the process does, by name. */
#ifndef PARTS_H
#define PARTS_H

#include <stdint.h>
#include <sys/mman.h>

#define PAGE 4096ul
#define READ_WRITE (PROT_READ | PROT_WRITE)
#define PRIVATE (MAP_PRIVATE | MAP_ANONYMOUS)

extern uint64_t seed;
extern unsigned rounds;
extern int wrong; /* how often the process saw something that shouldn't be */

/* A fault that a part tries is counted by it; any other ends the process. */
void catch_faults(void);

/* Whether such an access faults; it is wrong where one doesn't that has to. */
int faults(volatile char *at, int is_store);
void has_to_fault(volatile char *at, int is_store, const char *what);

void run_part(const char *name);

char *map_at(uint64_t address, uint64_t bytes, int protection, int flags, int file);

/* The thread runs on this processor alone, or, below 0, on any. */
void stay_on(long processor);

/* The thread stays on processor 0, and has pages there that the threads which start then read and write, or only read, on others. */
void begin_shared(uint64_t address, int only_reads);
void start_readers(void);
void end_shared(void);

/* A drawn number below a bound. */
uint64_t draw(uint64_t *state, uint64_t below);

/* Each page is written, or read. */
void touch(volatile char *at, uint64_t bytes);
void look(const volatile char *at, uint64_t bytes);

/* A word to the kernel, by a file of its own. */
void put(const char *path, const char *text);

#endif
