/* How the kernel leaves QEMU, whose status is 2 * code + 1. Only the first counts as passed: a processor that resets gives 0. */
#ifndef LEAVE_H
#define LEAVE_H

enum {
	LEAVE_PASSED = 16,  /* 33: 0 differ */
	LEAVE_DIFFERS = 17, /* 35: some differ */
	LEAVE_STOPPED = 18, /* 37: something else was wrong, and a line said what */
	LEAVE_SKIPPED = 19, /* 39: the processor has no five levels */
};

#endif
