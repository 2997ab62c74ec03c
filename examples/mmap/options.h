/* What the command line says, and how the program ends. */
#ifndef OPTIONS_H
#define OPTIONS_H

#include <stdint.h>

/* Slips of the recorder itself, so that one can see that they are found. */
enum slip { NO_SLIP, EARLY_REPLY, LYING_HANDLER, WRONG_FRAME, FORGOTTEN_CHANGE, SLIPS };

struct options {
	double seconds;         /* how long it records; 0: until `segments` are there, or until it is interrupted */
	uint64_t segments;      /* the most; 0: no limit */
	unsigned threads;       /* all that change and touch */
	unsigned changers;      /* of these, those that change pages */
	uint32_t events;        /* of a segment */
	unsigned pages;         /* of 4 KiB side by side: 0 to 32 */
	uint64_t seed;
	const char *program;    /* nrvs */
	const char *write;      /* where the chain goes, in the place of nrvs; "-" is standard output */
	const char *keep;       /* where the segment with a fault is kept */
	const char *only;       /* names of operations, parted by commas, each with :N where it is drawn N times as often: no others */
	const char *without;    /* names parted by commas: not these */
	int list;
	int waits;              /* for a line of standard input, when all is ready */
	int pinned;             /* 1: each thread stays on its processor; 0: none does; -1: in turns */
	enum slip slip;
};

extern struct options options;

/* Reads the words of the command line into `options`; a bad one ends the program, with status 2. */
void options_read(int count, char **words);

/* How often the options have this operation drawn, which is drawn `weight` times where they don't say; 0: they don't want it. */
unsigned options_weight(const char *operation, unsigned weight);
int options_want(const char *operation);
/* Whether --without names it. */
int options_refuse(const char *name);

/* Prints `nrvs_mmap: ` and these words, and ends the program: status 2, there is no verdict. */
_Noreturn void stop(const char *format, ...);

/* Prints these words, and ends the program with status 1: the kernel did what it must not do. */
_Noreturn void found(const char *format, ...);

#endif
