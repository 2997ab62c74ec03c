/* Frames of a test's own, and a processor's walk of them. */
#include "memory.h"

#include <stdio.h>
#include <stdlib.h>
#include <string.h>

uint64_t draw(uint64_t *seed, uint64_t bound)
{
	*seed = *seed * UINT64_C(6364136223846793005) + UINT64_C(1442695040888963407);
	return (*seed >> 33) % bound;
}

void memory_begin(struct memory *memory, uint64_t phys_bits, uint64_t seed)
{
	memset(memory, 0, sizeof *memory);
	memory->phys_bits = phys_bits;
	memory->seed = seed;
}

void memory_end(struct memory *memory)
{
	unsigned i;
	for (i = 0; i < 2 * MOST_FRAMES; i++)
		free(memory->frames[i].words);
	memset(memory, 0, sizeof *memory);
}

static unsigned place_of(const struct memory *memory, uint64_t number)
{
	unsigned at = (unsigned)((number * UINT64_C(0x9e3779b97f4a7c15)) >> 51) % (2 * MOST_FRAMES);
	while (memory->frames[at].words && memory->frames[at].number != number)
		at = (at + 1) % (2 * MOST_FRAMES);
	return at;
}

uint64_t *memory_words(const struct memory *memory, uint64_t number)
{
	return memory->frames[place_of(memory, number)].words;
}

uint64_t memory_take(struct memory *memory)
{
	uint64_t number;
	unsigned at;
	if (memory->count == MOST_FRAMES) {
		printf("too many frames\n");
		exit(2);
	}
	do {
		number = (draw(&memory->seed, UINT64_C(1) << 20) << 20 | draw(&memory->seed, UINT64_C(1) << 20)) &
			 ((UINT64_C(1) << (memory->phys_bits - 12)) - 1);
		at = place_of(memory, number);
	} while (memory->frames[at].words);
	memory->frames[at].number = number;
	memory->frames[at].words = (uint64_t *)calloc(512, sizeof(uint64_t));
	if (!memory->frames[at].words)
		exit(2);
	memory->count++;
	return number;
}

void memory_free(struct memory *memory, uint64_t number)
{
	unsigned at = place_of(memory, number), next = at;
	struct frame moved;
	free(memory->frames[at].words);
	memory->frames[at].words = NULL;
	memory->count--;
	/* what came behind it may have to come forward */
	for (next = (at + 1) % (2 * MOST_FRAMES); memory->frames[next].words; next = (next + 1) % (2 * MOST_FRAMES)) {
		moved = memory->frames[next];
		memory->frames[next].words = NULL;
		memory->frames[place_of(memory, moved.number)] = moved;
	}
}

static unsigned rights_of(uint64_t word)
{
	return (unsigned)(word >> 1 & 3) | (word >> 63 ? 0 : 4u);
}

/* Bits of a present entry that a processor finds reserved. */
static int is_reserved(uint64_t level, uint64_t word)
{
	uint64_t bytes = UINT64_C(1) << (3 + 9 * level);
	if (level > 3)
		return (word & 128) != 0;
	return level > 1 && word & 128 && word & (bytes - 1) & ~UINT64_C(0x1fff);
}

struct walked memory_walk_from(const struct memory *memory, uint64_t level, uint64_t frame, unsigned rights, uint64_t address)
{
	struct walked w = {ENDS_ABSENT, 0, 0, 0};
	for (;; level--) {
		uint64_t *words = memory_words(memory, frame), word, bytes = UINT64_C(1) << (3 + 9 * level);
		if (!words) {
			w.end = ENDS_MISSING;
			return w;
		}
		word = __atomic_load_n(&words[address >> (3 + 9 * level) & 511], __ATOMIC_RELAXED);
		if (!(word & 1))
			return w;
		if (is_reserved(level, word)) {
			w.end = ENDS_RESERVED;
			return w;
		}
		rights &= rights_of(word);
		frame = word >> 12 & ((UINT64_C(1) << 40) - 1);
		if (level == 1 || (level < 4 && word & 128)) {
			w.end = ENDS_MAPPED;
			w.size = (unsigned)(level - 1);
			w.rights = rights;
			w.physical = ((frame << 12) & ~(bytes - 1)) + (address & (bytes - 1));
			return w;
		}
	}
}

struct walked memory_walk(const struct memory *memory, uint64_t levels, uint64_t root, uint64_t address)
{
	return memory_walk_from(memory, levels, root, 7, address);
}

unsigned memory_reached(const struct memory *memory, uint64_t level, uint64_t frame)
{
	const uint64_t *words = memory_words(memory, frame);
	unsigned i, count = 1;
	for (i = 0; words && level > 1 && i < 512; i++)
		if (words[i] & 1 && (level > 3 || !(words[i] & 128)))
			count += memory_reached(memory, level - 1, words[i] >> 12 & ((UINT64_C(1) << 40) - 1));
	return count;
}
