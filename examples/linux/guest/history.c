#define _GNU_SOURCE
#include "history.h"

#include "parts.h"

#include <errno.h>
#include <fcntl.h>
#include <pthread.h>
#include <sched.h>
#include <signal.h>
#include <stdio.h>
#include <string.h>
#include <sys/stat.h>
#include <sys/wait.h>
#include <time.h>
#include <unistd.h>

#define MIB (1024ul * 1024)
#define GIB (1024 * MIB)
#define FILE_BYTES (4 * MIB)
#define TABLE (2 * MIB) /* what one table translates */
#define GROUPS "/tmp/groups"

static void note(const char *what)
{
	printf("WRONG %s: %s\n", what, strerror(errno));
	wrong++;
}

/* Another thread, on another processor. */
static struct {
	pthread_t thread;
	volatile int goes, is_done, is_over;
	int file;
	char *at;
} other;

static void begin_other(void *(*run)(void *))
{
	other.goes = other.is_over = 0;
	stay_on(0);
	pthread_create(&other.thread, NULL, run, NULL);
}

static void end_other(void)
{
	other.is_over = 1;
	pthread_join(other.thread, NULL);
	stay_on(-1);
}

/* Whether it shall go once more. */
static int waits(void)
{
	while (!other.goes && !other.is_over)
		;
	other.goes = 0;
	return !other.is_over;
}

/* ---- a file that is truncated while its pages move ---- */

static void *truncate_when_asked(void *unused)
{
	(void)unused;
	stay_on(1);
	while (waits())
		if (ftruncate(other.file, 0) || ftruncate(other.file, FILE_BYTES))
			note("ftruncate");
	return NULL;
}

static void move_meanwhile(uint64_t offset, uint64_t bytes)
{
	other.file = memfd_create("moved", MFD_CLOEXEC);
	if (other.file < 0 || ftruncate(other.file, FILE_BYTES))
		note("memfd_create");
	begin_other(truncate_when_asked);
	for (unsigned round = 0; round < rounds; round++) {
		char *at = map_at(0x700000000 + offset, bytes, READ_WRITE, MAP_SHARED, other.file);

		for (uint64_t page = 0; page < bytes && page < 32 * PAGE; page += PAGE)
			(void)faults(at + page, 1); /* of a page that isn't there any more */
		other.goes = 1;
		at = mremap(at, bytes, bytes, MREMAP_MAYMOVE | MREMAP_FIXED, (void *)(0x780000000 + offset));
		if (at == MAP_FAILED)
			note("mremap");
		else
			munmap(at, bytes);
	}
	end_other();
	close(other.file);
}

void move_what_is_truncated(void)
{
	move_meanwhile(TABLE - 16 * PAGE, 32 * PAGE);
}

void move_tables_of_what_is_truncated(void)
{
	move_meanwhile(0, TABLE);
}

/* ---- a file whose small pages become a large one ---- */

#define MAPS 2

/* Whether the kernel says that the page is there. */
static int is_there(const char *at)
{
	int pagemap = open("/proc/self/pagemap", O_RDONLY | O_CLOEXEC);
	uint64_t word = 0;

	if (pread(pagemap, &word, sizeof word, (off_t)((uint64_t)at / PAGE * sizeof word)) < 0)
		note("pagemap");
	close(pagemap);
	return word >> 63;
}

static void *collapse_when_asked(void *unused)
{
	(void)unused;
	stay_on(1);
	while (waits()) {
		if (madvise(other.at, TABLE, 25 /* MADV_COLLAPSE */))
			printf("note: MADV_COLLAPSE: %s\n", strerror(errno));
		other.is_done = 1;
	}
	return NULL;
}

static uint64_t now(void)
{
	struct timespec time;

	clock_gettime(CLOCK_MONOTONIC, &time);
	return (uint64_t)time.tv_sec * 1000000 + (uint64_t)time.tv_nsec / 1000;
}

/* The kernel takes the pages out of all maps, copies them, and frees the tables. So many microseconds after the first, the last map is
 * moved to where there are no tables yet: they are linked when it was seen that the old one is there. What was moved stays where it is.
 * How long the kernel took. */
static uint64_t move_last(unsigned round, uint64_t wait)
{
	char *at = (char *)0x700000000 + (uint64_t)round * MAPS * TABLE, *to = (char *)((round + 2) * (GIB << 9));
	char *last = at + (MAPS - 1) * TABLE;
	uint64_t begin;

	for (unsigned map = 0; map < MAPS; map++)
		touch(map_at((uint64_t)at + map * TABLE, TABLE, READ_WRITE, MAP_SHARED, other.file), TABLE);
	other.at = at;
	other.is_done = 0;
	other.goes = 1;
	while (is_there(last + TABLE - PAGE) && !other.is_done)
		;
	begin = now();
	while (now() < begin + wait && !other.is_done)
		usleep(1000);
	if (mremap(last, TABLE, TABLE, MREMAP_MAYMOVE | MREMAP_FIXED, to) == MAP_FAILED)
		note("mremap");
	while (!other.is_done)
		usleep(1000);
	munmap(at, (MAPS - 1) * TABLE);
	return now() - begin;
}

void move_what_is_collapsed(void)
{
	uint64_t random = seed, wait = 60000000;

	other.file = memfd_create("collapsed", MFD_CLOEXEC);
	begin_other(collapse_when_asked);
	for (unsigned round = 0; round < rounds; round++) {
		if (ftruncate(other.file, 0) || ftruncate(other.file, (off_t)TABLE))
			note("ftruncate");
		wait = move_last(round, wait);
		wait = wait / 4 + draw(&random, wait / 2);
	}
	end_other();
	close(other.file);
}

/* ---- large pages ---- */

static char *map_large_pages(int file, uint64_t address)
{
	return map_at(address, GIB, READ_WRITE, MAP_SHARED | MAP_NORESERVE, file);
}

void unmap_what_shares_a_table(void)
{
	int file;

	put("/proc/sys/vm/nr_hugepages", "4");
	file = memfd_create("large", MFD_CLOEXEC | MFD_HUGETLB);
	if (file < 0 || ftruncate(file, (off_t)GIB)) {
		note("hugetlbfs");
		return;
	}
	for (unsigned round = 0; round < rounds; round++) {
		char *one = map_large_pages(file, 0x800000000), *two = map_large_pages(file, 0x880000000);

		one[0] = 1;
		one[TABLE] = 2;
		if (two[0] != 1 || two[TABLE] != 2)
			note("another content");
		munmap(two, GIB);
		has_to_fault(two, 0, "a read of a large page that was unmapped");
		has_to_fault(two + TABLE, 1, "a store to a large page that was unmapped");
		munmap(one, GIB);
	}
	close(file);
}

/* The first page of two has no table: the kernel goes on where the next table begins. It may not go on there where the pages are moved to,
 * since these are at another place of their tables. */
void move_large_pages(void)
{
	int file;

	put("/proc/sys/vm/nr_hugepages", "4");
	file = memfd_create("large", MFD_CLOEXEC | MFD_HUGETLB);
	if (file < 0 || ftruncate(file, (off_t)(2 * TABLE)))
		note("hugetlbfs");
	for (unsigned round = 0; round < rounds; round++) {
		uint64_t from = 0xa00000000 + round * 4 * GIB, to = from + 2 * GIB;
		char *at = map_at(from + GIB - TABLE, 2 * TABLE, READ_WRITE, MAP_SHARED | MAP_NORESERVE, file), *moved;
		char *outside = map_at(to + GIB, TABLE, READ_WRITE, PRIVATE, -1);

		at[TABLE] = (char)(round + 1);
		munmap(outside, TABLE);
		moved = mremap(at, 2 * TABLE, 2 * TABLE, MREMAP_MAYMOVE | MREMAP_FIXED, (void *)to);
		if (moved == MAP_FAILED) {
			note("mremap");
			return;
		}
		has_to_fault(outside, 0, "a read of where nothing is mapped");
		if (moved[TABLE] != (char)(round + 1))
			note("another content");
		munmap(moved, 2 * TABLE);
	}
	close(file);
}

/* Another mapping writes to the page a word as a table has it: it may not lead to memory. */
void move_device_memory(void)
{
	int file = open("/dev/dax0.0", O_RDWR | O_CLOEXEC);
	uint64_t word = MIB | 0x67;

	if (file < 0)
		note("/dev/dax0.0");
	for (unsigned round = 0; round < rounds && file >= 0; round++) {
		volatile uint64_t *at = (void *)map_at(0xb00000000, TABLE, READ_WRITE, MAP_SHARED, file);
		volatile uint64_t *other_map = (void *)map_at(0xb40000000, TABLE, READ_WRITE, MAP_SHARED, file), *moved;

		at[0] = other_map[0] = 0;
		moved = mremap((void *)at, TABLE, TABLE, MREMAP_MAYMOVE | MREMAP_FIXED, (void *)0xb80000000);
		other_map[0] = word;
		if ((void *)moved == MAP_FAILED || faults((volatile char *)moved, 0) || moved[0] != word)
			note("a page that was moved");
		other_map[0] = 0;
		munmap((void *)moved, TABLE);
		munmap((void *)other_map, TABLE);
	}
	close(file);
}

/* ---- pages that are written, reclaimed, dropped ---- */

void clear_soft_dirty(void)
{
	char *at = map_at(0x8c0000000, 32 * PAGE, READ_WRITE, PRIVATE, -1);

	madvise(at, 32 * PAGE, MADV_NOHUGEPAGE);
	for (unsigned round = 0; round < rounds; round++) {
		touch(at, 32 * PAGE);
		put("/proc/self/clear_refs", "4");
		touch(at, 32 * PAGE);
	}
	munmap(at, 32 * PAGE);
}

/* What is never written again may be freed at once; the others go on reading meanwhile. */
void reclaim_what_is_read(void)
{
	char *at = (char *)0x54000000;

	begin_shared((uint64_t)at, 1);
	start_readers();
	for (unsigned round = 0; round < rounds; round++) {
		touch(at, 64 * PAGE);
		madvise(at, 64 * PAGE, MADV_FREE);
		usleep(20000);
		madvise(at, 64 * PAGE, MADV_PAGEOUT);
		usleep(20000);
	}
	end_shared();
}

static void *drop_all_the_time(void *unused)
{
	(void)unused;
	stay_on(1);
	while (!other.is_over) {
		madvise(other.at, 16 * PAGE, MADV_DONTNEED);
		sched_yield();
	}
	return NULL;
}

void drop_twice(void)
{
	other.at = map_at(0x980000000 + TABLE - 8 * PAGE, 16 * PAGE, READ_WRITE, PRIVATE, -1);
	madvise(other.at, 16 * PAGE, MADV_NOHUGEPAGE);
	begin_other(drop_all_the_time);
	for (unsigned round = 1; round <= 10 * rounds; round++) {
		for (unsigned page = 0; page < 16; page++)
			other.at[page * PAGE] = (char)(round | 1);
		usleep(1000); /* the other one drops them */
		madvise(other.at, 16 * PAGE, MADV_DONTNEED);
		for (unsigned page = 0; page < 16; page++)
			if (other.at[page * PAGE])
				wrong++, printf("WRONG a page that was dropped is still there\n");
	}
	end_other();
	munmap(other.at, 16 * PAGE);
}

/* ---- reclaim by another process ---- */

enum { IDLE, ASKED, DONE };

static void reclaim_when_asked(volatile char *state)
{
	int file = open(GROUPS "/a/memory.reclaim", O_WRONLY | O_CLOEXEC);

	stay_on(1);
	while (getppid() != 1) {
		if (*state != ASKED)
			continue;
		if (write(file, "64K", 3) < 0)
			usleep(100);
		*state = DONE;
	}
	_exit(0);
}

/* Pages that are gone are made read-only. The kernel tries the stores: a fault of its own is no signal. */
static void protect_what_is_gone(char *at, int zeros, int pagemap)
{
	uint64_t words[64] = { 0 };

	if (pread(pagemap, words, sizeof words, (off_t)((uint64_t)at / PAGE * sizeof *words)) < 0)
		note("pagemap");
	for (unsigned page = 0; page < 64; page++) {
		if (words[page] >> 63)
			continue;
		mprotect(at + page * PAGE, PAGE, PROT_READ);
		if (read(zeros, at + page * PAGE, 1) >= 0)
			wrong++, printf("WRONG no fault: a store to a page that was made read-only\n");
		mprotect(at + page * PAGE, PAGE, READ_WRITE);
	}
}

static void protect_meanwhile(char *at, volatile char *state)
{
	int zeros = open("/dev/zero", O_RDONLY | O_CLOEXEC), pagemap = open("/proc/self/pagemap", O_RDONLY | O_CLOEXEC);

	stay_on(0);
	for (unsigned round = 0; round < rounds; round++) {
		touch(at, 64 * PAGE);
		*state = ASKED;
		while (*state != DONE) {
			look(at, 64 * PAGE);
			protect_what_is_gone(at, zeros, pagemap);
		}
	}
	close(zeros);
	close(pagemap);
	stay_on(-1);
}

void protect_what_is_reclaimed(void)
{
	char *at = map_at(0x9a0000000, 64 * PAGE, READ_WRITE, PRIVATE, -1), number[32];
	volatile char *state = map_at(0x9b0000000, PAGE, READ_WRITE, MAP_SHARED | MAP_ANONYMOUS, -1);
	pid_t child;

	put(GROUPS "/cgroup.subtree_control", "+memory");
	mkdir(GROUPS "/a", 0700);
	madvise(at, 64 * PAGE, MADV_NOHUGEPAGE);
	child = fork();
	if (!child)
		reclaim_when_asked(state);
	snprintf(number, sizeof number, "%d", getpid());
	put(GROUPS "/a/cgroup.procs", number);
	protect_meanwhile(at, state);
	kill(child, SIGKILL);
	waitpid(child, NULL, 0);
	munmap(at, 64 * PAGE);
}
