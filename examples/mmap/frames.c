#define _GNU_SOURCE
#include "frames.h"
#include "options.h"

#include <errno.h>
#include <fcntl.h>
#include <linux/memfd.h>
#include <stdatomic.h>
#include <string.h>
#include <sys/mman.h>
#include <unistd.h>

struct files files = { -1, -1, -1, "" };

static atomic_uint_fast64_t copies = FIRST_COPY;

uint64_t new_copy(void) { return atomic_fetch_add(&copies, 1); }

/* mov $number, %eax; ret */
uint64_t code_of(uint64_t number) { return 0xb8u | (number & 0xffffffffu) << 8 | (uint64_t)0xc3 << 40; }

/* Writes to each 4 KiB of a file which frame it is; 0, or an errno. */
static int fill(int file, uint64_t bytes, uint64_t first)
{
	char *all = mmap(NULL, bytes, PROT_READ | PROT_WRITE, MAP_SHARED, file, 0);

	if (all == MAP_FAILED)
		return errno;
	for (uint64_t at = 0; at < bytes; at += 4096) {
		const uint64_t number = first + at / 4096, code = code_of(number);

		memcpy(all + at, &number, sizeof(number));
		memcpy(all + at + CODE_AT, &code, sizeof(code));
	}
	return munmap(all, bytes) == 0 ? 0 : errno;
}

/* A file in memory of so many bytes; -1 where that fails, with errno. */
static int file_of(const char *name, unsigned flags, uint64_t bytes, uint64_t first)
{
	int file = memfd_create(name, flags), why;

	if (file < 0)
		return -1;
	if (ftruncate(file, (off_t)bytes) != 0) {
		why = errno;
		close(file);
		errno = why;
		return -1;
	}
	/* what there is no memory for fails here, and not at an access */
	why = flags & MFD_HUGETLB && fallocate(file, 0, 0, (off_t)bytes) != 0 ? errno : fill(file, bytes, first);
	if (why) {
		close(file);
		errno = why;
		return -1;
	}
	return file;
}

void frames_begin(void)
{
	files.small = file_of("small", 0, SMALL_FRAMES * 4096, FIRST_SMALL);
	if (files.small < 0)
		stop("no memfd: memfd_create: %s. A seccomp filter may refuse it", strerror(errno));
	files.large = file_of("large", 0, HUGE_BYTES, FIRST_LARGE);
	if (files.large < 0)
		stop("no memfd of 2 MiB: %s", strerror(errno));
	files.huge = file_of("huge", MFD_HUGETLB | MFD_HUGE_2MB, HUGE_PAGES * HUGE_BYTES, FIRST_HUGE);
	if (files.huge < 0)
		files.missing_huge = errno == ENOMEM || errno == ENOSPC ? "none is reserved: /proc/sys/vm/nr_hugepages" : strerror(errno);
}
