/* Memory whose content says which frame it is: the only way in which a process sees where an address leads. */
#ifndef FRAMES_H
#define FRAMES_H

#include <stdint.h>

/*
 * A frame has a number, which is that of the trace: its physical address / 4,096. At byte 0 is the number, and at CODE_AT code that
 * returns it. Frame 0 is a page of zeros.
 */
enum { CODE_AT = 16, SMALL_FRAMES = 64 };
#define FIRST_SMALL 1u             /* the frames of the small file */
#define FIRST_LARGE 0x1000000u     /* those of a file of 2 MiB, which may become large pages */
#define FIRST_HUGE 0x2000000u      /* those of pages of 2 MiB */
#define FIRST_COPY 0x10000000u     /* copies of a page, each with a number of its own */
#define NO_FRAME ((uint64_t)1 << 38) /* what is found where no frame of ours is */
enum { HUGE_PAGES = 4 };
#define HUGE_BYTES ((uint64_t)2 << 20)

/* Files; -1 where there is none, and then `missing` says why. */
struct files {
	int small, large, huge;
	const char *missing_huge;
};

extern struct files files;

/* Makes the files. Without memfd there is no verdict: the program ends. */
void frames_begin(void);

static inline uint64_t phys_of(uint64_t number) { return (number < NO_FRAME ? number : NO_FRAME) << 12; }

/* A number that no frame has had. */
uint64_t new_copy(void);

/* The eight bytes at CODE_AT of a frame. */
uint64_t code_of(uint64_t number);

#endif
