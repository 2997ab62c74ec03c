#include "releases.h"

#include "callers.h"
#include "guest.h"
#include "say.h"

#include <inttypes.h>
#include <stdio.h>
#include <stdlib.h>
#include <string.h>

static unsigned char *had; /* by frame */

/* What waits for its line. */
static struct {
	unsigned cpu;
	uint64_t task, pc, frame, count;
} run;

void releases_begin(void)
{
	free(had);
	had = calloc(guest_frames(), 1);
	if (!had) {
		fprintf(stderr, "watch: out of memory\n");
		exit(2);
	}
	run.count = 0;
}

void releases_had(uint64_t frame, unsigned level)
{
	uint64_t count = (uint64_t)1 << 9 * (level - 1);

	if (frame < guest_frames())
		memset(had + frame, 1, count < guest_frames() - frame ? count : guest_frames() - frame);
}

static void tell(void)
{
	say("@released %u %" PRIx64 " %" PRIx64 " %" PRIx64 " %" PRIu64 "\n", run.cpu, run.task, run.pc, run.frame, run.count);
	run.count = 0;
}

/* Whether a frame is one more of those that wait: the next one or, as the first of a large page comes last, that before. */
static int is_adjacent(unsigned cpu, uint64_t task, uint64_t frame)
{
	return run.count && run.cpu == cpu && run.task == task && (frame == run.frame + run.count || frame + 1 == run.frame);
}

static int is_root(uint64_t frame)
{
	return !guest.nested && frame == guest_root() - guest.isolated;
}

int releases_stored(unsigned cpu, uint64_t address, uint64_t pc)
{
	uint64_t frame = guest_frame_of(address), task = guest_task(cpu);

	if (frame >= guest_frames() || !had[frame])
		return is_root(frame);
	had[frame] = 0;
	if (is_adjacent(cpu, task, frame)) {
		run.frame = frame < run.frame ? frame : run.frame;
		run.count++;
		return 0;
	}
	say_waiting();
	callers_tell(cpu);
	run.cpu = cpu;
	run.task = task;
	run.pc = pc;
	run.frame = frame;
	run.count = 1;
	say_later(tell);
	return 0;
}
