#include "callers.h"

#include "guest.h"
#include "say.h"

#include <inttypes.h>
#include <stdio.h>

#define MODULES 0xffffffffc0000000u
#define MODULES_END 0xffffffffff000000u
#define CALL 0xe8
#define CALL_BYTES 5
#define PROCESSORS 8
#define STACK_BYTES 16384u
#define WORDS 256
#define MOST 12

static uint64_t latest[PROCESSORS], calls[PROCESSORS];

void callers_called(unsigned cpu, uint64_t at, uint64_t pc)
{
	latest[cpu % PROCESSORS] = at;
	calls[cpu % PROCESSORS] = pc;
}

uint64_t callers_stack(unsigned cpu)
{
	return latest[cpu % PROCESSORS];
}

uint64_t callers_call(unsigned cpu)
{
	return calls[cpu % PROCESSORS];
}

static int is_code(uint64_t address)
{
	return (address >= guest.text + CALL_BYTES && address < guest.text_end) || (address >= MODULES + CALL_BYTES && address < MODULES_END);
}

/* What the call before a return address calls, or NOWHERE. */
static uint64_t called(uint64_t back)
{
	uint64_t at = back - CALL_BYTES, aligned = at & ~(uint64_t)7, shift = (at & 7) * 8, word;

	if (!is_code(back))
		return NOWHERE;
	word = guest_kernel_word(aligned) >> shift;
	if (shift)
		word |= guest_kernel_word(aligned + 8) << (64 - shift);
	return (word & 0xff) == CALL ? back + (uint64_t)(int64_t)(int32_t)(word >> 8) : NOWHERE;
}

void callers_tell(unsigned cpu)
{
	uint64_t at = latest[cpu % PROCESSORS], end = (at | (STACK_BYTES - 1)) + 1, back, target;
	char text[MOST * 40];
	int length = 0;

	for (unsigned count = 0, found = 0; at && at < end && count < WORDS && found < MOST; at += 8, count++) {
		back = guest_kernel_word(at);
		target = called(back);
		if (target == NOWHERE)
			continue;
		length += snprintf(text + length, sizeof text - (size_t)length, " %" PRIx64 ":%" PRIx64, back, target);
		found++;
	}
	if (length)
		say("@callers%s\n", text);
}
