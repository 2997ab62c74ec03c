/* Frames of a test's own, each allocated by itself, under numbers that lie anywhere; and a processor's walk of them. */
#ifndef MEMORY_H
#define MEMORY_H

#include <stdint.h>

enum { MOST_FRAMES = 4096 };

/* A frame: its number, and its words. */
struct frame {
	uint64_t number;
	uint64_t *words;
};

/* Frames by number: open addressing. */
struct memory {
	struct frame frames[2 * MOST_FRAMES];
	unsigned count;
	uint64_t seed;
	uint64_t phys_bits;
};

/* Where a walk ends. */
enum { ENDS_MISSING = 1, ENDS_RESERVED = 2, ENDS_ABSENT = 3, ENDS_MAPPED = 4 };
struct walked {
	unsigned end, size, rights;
	uint64_t physical;
};

void memory_begin(struct memory *memory, uint64_t phys_bits, uint64_t seed);
void memory_end(struct memory *memory);

/* A frame of zeros under a number that none has. */
uint64_t memory_take(struct memory *memory);
void memory_free(struct memory *memory, uint64_t number);

/* The words of a frame, or null. */
uint64_t *memory_words(const struct memory *memory, uint64_t number);

/* A walk from the root down, as the SDM has it: each word is read once. */
struct walked memory_walk(const struct memory *memory, uint64_t levels, uint64_t root, uint64_t address);

/* A walk on from a table of some level, whose entries above allow so much. */
struct walked memory_walk_from(const struct memory *memory, uint64_t level, uint64_t frame, unsigned rights, uint64_t address);

/* How many frames the table of this level has below it and at it; each may be reached once. */
unsigned memory_reached(const struct memory *memory, uint64_t level, uint64_t frame);

/* A number below a bound, drawn. */
uint64_t draw(uint64_t *seed, uint64_t bound);

#endif
