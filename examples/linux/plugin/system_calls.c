#include "system_calls.h"

#include "guest.h"
#include "say.h"

#include <inttypes.h>
#include <stddef.h>

/* Offsets in struct pt_regs. */
enum registers { FOURTH = 0x38, THIRD = 0x60, SECOND = 0x68, FIRST = 0x70, NUMBER = 0x78 };

/* Whether it copies the address space: clone without CLONE_VM, or fork. */
static int is_fork(uint64_t number, uint64_t first)
{
	enum { CLONE = 56, FORK = 57, CLONE_VM = 0x100 };

	return number == FORK || (number == CLONE && !(first & CLONE_VM));
}

/* Those whose return says something of pages that no store has changed. */
static int promises(uint64_t number, uint64_t first)
{
	enum { MPROTECT = 10, MUNMAP = 11, MREMAP = 25, MADVISE = 28, PKEY_MPROTECT = 329 };

	return number == MPROTECT || number == MUNMAP || number == MREMAP || number == MADVISE || number == PKEY_MPROTECT
		|| is_fork(number, first);
}

/* Whether a system call may change what is mapped. */
static int changes_mappings(uint64_t number)
{
	static const uint64_t numbers[] = {
		9, 10, 11, 12, 25, 28, /* mmap, mprotect, munmap, brk, mremap, madvise */
		30, 67, 216, 329, /* shmat, shmdt, remap_file_pages, pkey_mprotect */
		158, 206, 453, /* arch_prctl, io_setup, map_shadow_stack: the kernel maps something of its own */
	};

	for (size_t k = 0; k < sizeof numbers / sizeof numbers[0]; k++)
		if (number == numbers[k])
			return 1;
	return 0;
}

void system_calls_begins(unsigned cpu, uint64_t at)
{
	say("@entered %u %" PRIx64 " %" PRIu64 " %" PRIx64 " %" PRIx64 " %" PRIx64 " %" PRIx64 "\n", cpu, guest_task(cpu),
		guest_word(at + NUMBER), guest_word(at + FIRST), guest_word(at + SECOND), guest_word(at + THIRD), guest_word(at + FOURTH));
}

int system_calls_returns(unsigned cpu, uint64_t at)
{
	uint64_t number = guest_word(at + NUMBER), first = guest_word(at + FIRST);

	if (!changes_mappings(number) && !is_fork(number, first))
		return 0;
	say("@returned %u %" PRIx64 " %" PRIu64 " %" PRIx64 " %" PRIx64 " %" PRIx64 " %" PRIx64 " %" PRIx64 "\n", cpu, guest_task(cpu), number,
		first, guest_word(at + SECOND), guest_word(at + THIRD), guest_word(at + RESULT), guest_word(at + FOURTH));
	return promises(number, first);
}
