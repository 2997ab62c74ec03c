#include "marks.h"

#include "parts.h"

#include <unistd.h>

#define MARKS ((volatile uint64_t *)0x6e7276730000)

void map_marks(void)
{
	map_at((uint64_t)MARKS, PAGE, READ_WRITE, PRIVATE, -1);
}

/* The plugin follows no code until it is asked to: from the block on that comes after a nop of its own. */
void say(uint64_t value)
{
	__asm__ volatile(".byte 0x0f, 0x1f, 0x84, 0x00, 0x4e, 0x52, 0x56, 0x53");
	getppid();
	*MARKS = value;
}

void watch_child(void)
{
	say(MARK_CHILD);
}
