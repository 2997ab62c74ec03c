#include "tables.h"

#include "guest.h"
#include "releases.h"
#include "say.h"

#include <inttypes.h>
#include <stdio.h>
#include <stdlib.h>

#define PRESENT 1u
#define LARGE 0x80u
#define ADDRESS 0x000ffffffffff000u
#define BY_PROCESSOR 0x60u /* accessed, dirty */
#define USER_ENTRIES 256   /* of a process's root: the half that isn't the kernel's */

/* By frame: the level, 0 of what is no table, how many words link it, and the words as last seen. */
static unsigned char *level_of;
static unsigned *links_of;
static uint64_t **words_of;
static uint64_t root;

static int is_table(uint64_t word, unsigned level)
{
	return word & PRESENT && level > 1 && !(level <= 3 && word & LARGE);
}

static uint64_t frame_in(uint64_t word)
{
	return (word & ADDRESS) >> 12;
}

/* A page, if the word is one, is had. */
static void have(uint64_t word, unsigned level)
{
	if (word & PRESENT && !is_table(word, level))
		releases_had(frame_in(word) & ~(((uint64_t)1 << 9 * (level - 1)) - 1), level);
}

static unsigned entries(uint64_t frame)
{
	return frame == root && !guest.nested ? USER_ENTRIES : ENTRIES;
}

static void *checked(void *memory)
{
	if (!memory) {
		fprintf(stderr, "watch: out of memory\n");
		exit(2);
	}
	return memory;
}

static void follow(uint64_t frame, unsigned level)
{
	uint64_t word;

	if (frame >= guest_frames() || level_of[frame]) {
		say("@note table %" PRIx64 " is linked at level %u, and %s\n", frame, level,
			frame < guest_frames() ? "elsewhere too" : "lies outside of memory");
		if (frame < guest_frames() && level_of[frame] == level)
			links_of[frame]++;
		return;
	}
	level_of[frame] = (unsigned char)level;
	links_of[frame] = 1;
	words_of[frame] = checked(calloc(ENTRIES, 8));
	say("@table %" PRIx64 " %u\n", frame, level);
	for (unsigned index = 0; index < entries(frame); index++) {
		word = words_of[frame][index] = guest_word((frame << 12) + 8 * index);
		if (word)
			say("@word %" PRIx64 " %x %" PRIx64 "\n", frame, index, word);
		have(word, level);
		if (is_table(word, level))
			follow(frame_in(word), level - 1);
	}
}

static void leave(uint64_t frame, unsigned level)
{
	if (frame >= guest_frames() || level_of[frame] != level || --links_of[frame])
		return;
	level_of[frame] = 0;
	for (unsigned index = 0; index < ENTRIES; index++)
		if (is_table(words_of[frame][index], level))
			leave(frame_in(words_of[frame][index]), level - 1);
	free(words_of[frame]);
	words_of[frame] = NULL;
}

static void forget(void)
{
	for (uint64_t frame = 0; words_of && frame < guest_frames(); frame++)
		free(words_of[frame]);
	free(level_of);
	free(links_of);
	free(words_of);
}

void tables_begin(uint64_t from)
{
	forget();
	level_of = checked(calloc(guest_frames(), 1));
	links_of = checked(calloc(guest_frames(), sizeof *links_of));
	words_of = checked(calloc(guest_frames(), sizeof *words_of));
	root = from;
	follow(root, (unsigned)guest.levels);
}

uint64_t tables_root(void)
{
	return root;
}

int tables_stored(uint64_t physical, struct change *change)
{
	uint64_t frame = physical >> 12, index = physical >> 3 & (ENTRIES - 1);

	if (!level_of[frame] || index >= entries(frame))
		return 0;
	change->frame = frame;
	change->index = index;
	change->level = level_of[frame];
	change->old = words_of[frame][index];
	change->new = words_of[frame][index] = guest_word(physical);
	return ((change->old ^ change->new) & ~(uint64_t)BY_PROCESSOR) != 0;
}

void tables_changed(const struct change *change)
{
	int was = is_table(change->old, change->level), is = is_table(change->new, change->level);
	int is_other = frame_in(change->old) != frame_in(change->new);

	have(change->new, change->level);
	if (was && (!is || is_other))
		leave(frame_in(change->old), change->level - 1);
	if (is && (!was || is_other))
		follow(frame_in(change->new), change->level - 1);
}

int tables_is_empty(void)
{
	for (unsigned index = 0; index < entries(root); index++)
		if (words_of[root][index] & PRESENT)
			return 0;
	return 1;
}

uint64_t tables_last_word(uint64_t address)
{
	uint64_t at, word, frame = root;

	for (unsigned level = (unsigned)guest.levels;; level--) {
		at = (frame << 12) + 8 * (address >> (3 + 9 * level) & (ENTRIES - 1));
		word = guest_word(at);
		if (!is_table(word, level))
			return at;
		frame = frame_in(word);
		if (frame >= guest_frames())
			return NOWHERE;
	}
}

static void dump(uint64_t frame, unsigned level)
{
	uint64_t word;

	if (level <= 2 && !guest.nested && !guest_holds_table(frame)) {
		say("@freed %" PRIx64 " %u\n", frame, level);
		return;
	}
	say("@dump %" PRIx64 "\n", frame);
	for (unsigned index = 0; index < entries(frame); index++) {
		word = guest_word((frame << 12) + 8 * index);
		if (word & PRESENT)
			say("@entry %" PRIx64 " %x %" PRIx64 "\n", frame, index, word);
	}
	for (unsigned index = 0; index < entries(frame); index++) {
		word = guest_word((frame << 12) + 8 * index);
		if (is_table(word, level) && frame_in(word) < guest_frames())
			dump(frame_in(word), level - 1);
	}
}

void tables_dump(void)
{
	dump(root, (unsigned)guest.levels);
}
