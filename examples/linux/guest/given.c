#define _GNU_SOURCE
#include "given.h"

#include "parts.h"

#include <spawn.h>
#include <string.h>
#include <sys/wait.h>
#include <unistd.h>

#define LARGE (512 * PAGE)
#define KSM "/sys/kernel/mm/ksm/"

/* What is read first becomes a page of zeros, and then small ones. */
static char *map_large(uint64_t address)
{
	char *at = map_at(address, LARGE, READ_WRITE, PRIVATE, -1);

	madvise(at, LARGE, MADV_HUGEPAGE);
	memset(at, 1, LARGE);
	return at;
}

static char *map_small(uint64_t address, uint64_t bytes)
{
	char *at = map_at(address, bytes, READ_WRITE, PRIVATE, -1);

	madvise(at, bytes, MADV_NOHUGEPAGE);
	touch(at, bytes);
	return at;
}

void give_pages(void)
{
	char *at = map_small(0x130000000, 64 * PAGE), *large = map_large(0x131000000);

	madvise(at, 16 * PAGE, MADV_DONTNEED);
	munmap(at + 16 * PAGE, 48 * PAGE);
	munmap(large, LARGE);
}

/* Reclaim takes such pages without writing them anywhere. Two other processors use other pages of the process meanwhile: where one
 * processor alone has its tables, reclaim flushes each page at once. */
static void give_to_reclaim(char *at, uint64_t bytes)
{
	begin_shared(0x54000000, 0);
	start_readers();
	usleep(20000);
	madvise(at, bytes, MADV_FREE);
	madvise(at, bytes, MADV_PAGEOUT);
	end_shared();
}

void give_lazily(void)
{
	give_to_reclaim(map_small(0x132000000, 64 * PAGE), 64 * PAGE);
}

void give_large_lazily(void)
{
	give_to_reclaim(map_large(0x133000000), LARGE);
}

void give_equal_pages(void)
{
	char *at = map_at(0x134000000, 64 * PAGE, READ_WRITE, PRIVATE, -1);

	memset(at, 7, 64 * PAGE);
	madvise(at, 64 * PAGE, MADV_MERGEABLE);
	put(KSM "pages_to_scan", "1000");
	put(KSM "sleep_millisecs", "10");
	put(KSM "run", "1");
	usleep(500000);
	put(KSM "run", "0");
}

/* Another process has memory compacted, and then one runs on each processor: so no processor goes on with what its TLB had before. */
void give_by_compaction(void)
{
	static char *words[] = { "busybox", "sh", "-c",
		"b=/bin/busybox; echo 1 >/proc/sys/vm/compact_memory; for c in 1 2 4 8; do $b taskset $c $b true; done 2>/dev/null", NULL };
	char *at = map_small(0x136000000, 2 * LARGE);
	pid_t other;

	for (uint64_t offset = 0; offset < 2 * LARGE; offset += 2 * PAGE)
		madvise(at + offset, PAGE, MADV_DONTNEED);
	if (posix_spawn(&other, "/bin/busybox", NULL, NULL, words, environ) == 0)
		waitpid(other, NULL, 0);
}

void read_zeros(void)
{
	volatile char *at = map_at(0x13c000000, 16 * PAGE, READ_WRITE, PRIVATE, -1);

	madvise((char *)at, 16 * PAGE, MADV_NOHUGEPAGE);
	look(at, 16 * PAGE);
	at[5 * PAGE]++;
	at[5 * PAGE]--;
}
