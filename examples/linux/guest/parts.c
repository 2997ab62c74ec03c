#define _GNU_SOURCE
#include "parts.h"

#include "driver.h"
#include "given.h"
#include "history.h"
#include "marks.h"

#include <errno.h>
#include <fcntl.h>
#include <pthread.h>
#include <sched.h>
#include <setjmp.h>
#include <signal.h>
#include <stdio.h>
#include <stdlib.h>
#include <string.h>
#include <sys/wait.h>
#include <unistd.h>

#define KIB 1024ul
#define MIB (1024 * KIB)
#define READERS 2
#define WORKERS 3
#define CROWD 100

uint64_t seed;
unsigned rounds;
int wrong;

char *map_at(uint64_t address, uint64_t bytes, int protection, int flags, int file)
{
	char *at = mmap((void *)address, bytes, protection, flags | (address ? MAP_FIXED_NOREPLACE : 0), file, 0);

	if (at == MAP_FAILED) {
		printf("WRONG map %#lx: %s\n", address, strerror(errno));
		exit(1);
	}
	return at;
}

void touch(volatile char *at, uint64_t bytes)
{
	for (uint64_t offset = 0; offset < bytes; offset += PAGE)
		at[offset]++;
}

void look(const volatile char *at, uint64_t bytes)
{
	for (uint64_t offset = 0; offset < bytes; offset += PAGE)
		(void)at[offset];
}

uint64_t draw(uint64_t *state, uint64_t below)
{
	*state = *state * 6364136223846793005u + 1442695040888963407u;
	return (*state >> 33) % below;
}

/* ---- accesses that may fault ---- */

static _Thread_local sigjmp_buf back;
static _Thread_local volatile sig_atomic_t is_trying;

static void on_fault(int number)
{
	static const char text[] = "WRONG a fault that nobody tried\n";

	(void)number;
	if (!is_trying) {
		if (write(1, text, sizeof text - 1) < 0)
			_exit(8);
		_exit(9);
	}
	siglongjmp(back, 1);
}

void catch_faults(void)
{
	struct sigaction action = { .sa_handler = on_fault, .sa_flags = SA_NODEFER };

	sigaction(SIGSEGV, &action, NULL);
	sigaction(SIGBUS, &action, NULL);
}

int faults(volatile char *at, int is_store)
{
	if (sigsetjmp(back, 1)) {
		is_trying = 0;
		return 1;
	}
	is_trying = 1;
	if (is_store)
		*at = 1;
	else
		(void)*at;
	is_trying = 0;
	return 0;
}

void has_to_fault(volatile char *at, int is_store, const char *what)
{
	if (faults(at, is_store))
		return;
	wrong++;
	printf("WRONG no fault: %s\n", what);
}

/* ---- the parts ---- */

static void *work(void *which)
{
	uint64_t random = seed + 77 * (uint64_t)which, page;

	for (unsigned round = 0; round < rounds; round++) {
		char *at = map_at(0, 32 * PAGE, READ_WRITE, PRIVATE, -1);

		touch(at, 32 * PAGE);
		page = draw(&random, 24) * PAGE;
		mprotect(at + page, 8 * PAGE, PROT_READ);
		has_to_fault(at + page, 1, "a store to a page that was made read-only");
		mprotect(at + page, 4 * PAGE, PROT_NONE);
		has_to_fault(at + page, 0, "a read of a page without rights");
		mprotect(at + page, 8 * PAGE, READ_WRITE);
		touch(at, 32 * PAGE);
		munmap(at + page, 4 * PAGE); /* from here on that may be another thread's */
		if (page) {
			madvise(at, page, MADV_DONTNEED);
			munmap(at, page);
		}
		munmap(at + page + 4 * PAGE, 28 * PAGE - page);
	}
	return NULL;
}

/* Each thread maps, protects and unmaps pages of its own. */
static void work_together(unsigned count)
{
	pthread_t workers[CROWD];

	for (uintptr_t k = 0; k < count; k++)
		pthread_create(&workers[k], NULL, work, (void *)k);
	for (unsigned k = 0; k < count; k++)
		pthread_join(workers[k], NULL);
}

static void threads(void)
{
	work_together(WORKERS);
}

static void crowd(void)
{
	work_together(CROWD);
}

static struct {
	char *at;
	volatile int is_over, only_reads;
	pthread_t threads[READERS];
} shared;

void stay_on(long processor)
{
	long count = sysconf(_SC_NPROCESSORS_ONLN);
	cpu_set_t set;

	CPU_ZERO(&set);
	for (long k = 0; k < count; k++)
		if (processor < 0 || k == processor % count)
			CPU_SET((size_t)k, &set);
	sched_setaffinity(0, sizeof set, &set);
}

static void *access_shared(void *which)
{
	uint64_t random = (uint64_t)which, page;

	stay_on((long)which);
	while (!shared.is_over) {
		page = draw(&random, 64) * PAGE;
		faults(shared.at + page, !shared.only_reads && draw(&random, 2));
	}
	return NULL;
}

void begin_shared(uint64_t address, int only_reads)
{
	stay_on(0);
	shared.at = map_at(address, 64 * PAGE, READ_WRITE, PRIVATE, -1);
	shared.is_over = 0;
	shared.only_reads = only_reads;
	touch(shared.at, 64 * PAGE);
}

void start_readers(void)
{
	for (uintptr_t k = 0; k < READERS; k++)
		pthread_create(&shared.threads[k], NULL, access_shared, (void *)(k + 1));
}

void end_shared(void)
{
	shared.is_over = 1;
	for (unsigned k = 0; k < READERS; k++)
		pthread_join(shared.threads[k], NULL);
	munmap(shared.at, 64 * PAGE);
	stay_on(-1);
}

static void change(char *at, uint64_t bytes, uint64_t how)
{
	if (how < 2)
		mprotect(at, bytes, PROT_READ);
	else if (how < 3)
		mprotect(at, bytes, PROT_NONE);
	else if (how < 5)
		mprotect(at, bytes, READ_WRITE);
	else if (how < 6)
		madvise(at, bytes, MADV_DONTNEED);
	else if (how < 7)
		munmap(at, bytes);
	else if (mmap(at, bytes, READ_WRITE, PRIVATE | MAP_FIXED, -1, 0) == MAP_FAILED)
		wrong++;
}

/* One thread changes what two others use, on other processors. */
static void shootdown(void)
{
	uint64_t random = seed, page;

	begin_shared(0x50000000, 0);
	start_readers();
	for (unsigned round = 0; round < 4 * rounds; round++) {
		page = draw(&random, 60) * PAGE;
		change(shared.at + page, (1 + draw(&random, 4)) * PAGE, draw(&random, 8));
		for (volatile int wait = 0; wait < 300; wait++)
			;
	}
	end_shared();
}

/* After a fork one thread makes pages its own that two others read. */
static void copied(void)
{
	pid_t child;

	begin_shared(0x52000000, 1);
	child = fork();
	if (!child)
		for (;;)
			pause();
	start_readers();
	for (unsigned page = 0; page < 64; page++) {
		for (volatile int wait = 0; wait < 3000; wait++)
			;
		shared.at[page * PAGE] = (char)page;
		if (page % 8 == 7)
			usleep(1000);
	}
	kill(child, SIGKILL);
	waitpid(child, NULL, 0);
	end_shared();
}

/* Parent and child copy on write. */
static void cow(void)
{
	char *at = map_at(0x51000000, 64 * PAGE, READ_WRITE, PRIVATE, -1);
	pid_t child;

	touch(at, 64 * PAGE);
	child = fork();
	if (!child) {
		touch(at, 8 * PAGE);
		_exit(0);
	}
	touch(at + 4 * PAGE, 16 * PAGE);
	waitpid(child, NULL, 0);
	touch(at, 64 * PAGE);
	munmap(at, 64 * PAGE);
}

/* Transparent huge pages: whole, split, collapsed and moved. */
static void huge(void)
{
	char *at = map_at(0x60000000, 8 * MIB, READ_WRITE, PRIVATE, -1), *moved;

	madvise(at, 8 * MIB, MADV_HUGEPAGE);
	touch(at, 8 * MIB);
	mprotect(at + 2 * MIB, 2 * MIB, PROT_READ);
	mprotect(at + 4 * MIB + 64 * KIB, PAGE, PROT_READ);
	madvise(at + 6 * MIB, 64 * KIB, MADV_DONTNEED);
	has_to_fault(at + 2 * MIB, 1, "a store to a large page that was made read-only");
	mprotect(at + 4 * MIB, 2 * MIB, READ_WRITE);
	look(at + 4 * MIB, 2 * MIB);
	madvise(at + 4 * MIB, 2 * MIB, 25 /* MADV_COLLAPSE */);
	look(at + 4 * MIB, 2 * MIB);
	touch(at, 2 * MIB);
	touch(at + 4 * MIB, 4 * MIB);
	moved = mremap(at, 4 * MIB, 4 * MIB, MREMAP_MAYMOVE | MREMAP_FIXED, (void *)0x70000000);
	if (moved != MAP_FAILED) {
		touch(moved, 2 * MIB);
		look(moved, 4 * MIB);
		has_to_fault(at, 0, "a read of a large page that was moved");
		munmap(moved, 4 * MIB);
	}
	munmap(at + 4 * MIB, 4 * MIB);
}

/* mremap moves whole tables, and single pages. */
static void moved(void)
{
	char *at = map_at(0x80000000, 4 * MIB, READ_WRITE, PRIVATE, -1), *to;

	madvise(at, 4 * MIB, MADV_NOHUGEPAGE);
	touch(at, 64 * PAGE);
	touch(at + 2 * MIB, 8 * PAGE);
	to = mremap(at, 4 * MIB, 4 * MIB, MREMAP_MAYMOVE | MREMAP_FIXED, (void *)0x90000000);
	for (unsigned page = 0; page < 64; page++)
		has_to_fault(at + page * PAGE, page & 1, "an access of a page that was moved");
	if (to == MAP_FAILED)
		return;
	touch(to, 64 * PAGE);
	to = mremap(to + PAGE, 16 * PAGE, 16 * PAGE, MREMAP_MAYMOVE | MREMAP_FIXED, (void *)0xa0001000);
	touch(to, 16 * PAGE);
	munmap(to, 16 * PAGE);
	munmap((void *)0x90000000, 4 * MIB);
}

/* A file's pages, the page of zeros, and pages shared with a child. */
static void files(void)
{
	int file = open("/proc/self/exe", O_RDONLY | O_CLOEXEC);
	char *at;

	if (file >= 0) {
		at = map_at(0xb0000000, 128 * PAGE, READ_WRITE, MAP_PRIVATE, file);
		look(at, 128 * PAGE);
		touch(at + 16 * PAGE, 8 * PAGE);
		munmap(at, 128 * PAGE);
		close(file);
	}
	at = map_at(0xb8000000, 32 * PAGE, READ_WRITE, PRIVATE, -1);
	look(at, 32 * PAGE);
	touch(at, 16 * PAGE);
	munmap(at, 32 * PAGE);
	at = map_at(0xb9000000, 32 * PAGE, READ_WRITE, MAP_SHARED | MAP_ANONYMOUS, -1);
	touch(at, 32 * PAGE);
	if (!fork()) {
		touch(at, 32 * PAGE);
		_exit(0);
	}
	wait(NULL);
	touch(at, 32 * PAGE);
	munmap(at, 32 * PAGE);
}

/* One mapping of each kind, with pages in it; they stay mapped. */
static void kinds(void)
{
	int file = open("/proc/self/exe", O_RDONLY | O_CLOEXEC);
	char *large = map_at(0x110000000, 10 * MIB, READ_WRITE, PRIVATE, -1), *at;

	madvise(large, 10 * MIB, MADV_HUGEPAGE);
	memset(large, 1, 6 * MIB); /* what is read first becomes a page of zeros, and then small ones */
	mprotect(large + 2 * MIB, 2 * MIB, PROT_READ);
	mprotect(large + 4 * MIB + 64 * KIB, PAGE, PROT_READ); /* a large page is split */
	look(large + 6 * MIB, PAGE);                           /* the large page of zeros */
	at = map_at(0x120000000, 64 * PAGE, READ_WRITE, PRIVATE, -1);
	look(at, 48 * PAGE);
	touch(at, 16 * PAGE);
	mprotect(at + 8 * PAGE, 4 * PAGE, PROT_NONE);
	mprotect(at + 20 * PAGE, 4 * PAGE, PROT_READ | PROT_EXEC);
	mprotect(at + 28 * PAGE, 4 * PAGE, PROT_READ);
	touch(map_at(0x121000000, 8 * PAGE, READ_WRITE | PROT_EXEC, PRIVATE, -1), 6 * PAGE);
	at = map_at(0x122000000, 16 * PAGE, READ_WRITE, MAP_SHARED | MAP_ANONYMOUS, -1);
	touch(at, 8 * PAGE);
	mprotect(at + 4 * PAGE, 8 * PAGE, PROT_READ);
	at = map_at(0x123000000, 32 * PAGE, READ_WRITE, PRIVATE, -1);
	touch(at, 32 * PAGE);
	if (!fork())
		_exit(0);
	wait(NULL); /* what the child shared isn't writable in the tables until it is written to */
	touch(at, 8 * PAGE);
	touch(large, PAGE);
	if (file < 0)
		return;
	at = map_at(0x124000000, 128 * PAGE, READ_WRITE, MAP_PRIVATE, file);
	look(at, 64 * PAGE);
	touch(at + 16 * PAGE, 8 * PAGE);
	look(map_at(0x125000000, 16 * PAGE, PROT_READ | PROT_EXEC, MAP_SHARED, file), 16 * PAGE);
	close(file);
}

void put(const char *path, const char *text)
{
	int file = open(path, O_WRONLY | O_CLOEXEC);

	if (file < 0 || write(file, text, strlen(text)) < 0)
		printf("note: %s: %s\n", path, strerror(errno));
	if (file >= 0)
		close(file);
}

/* Pages of one content become one (KSM), and are parted again. */
static void merged(void)
{
	char *at = map_at(0xc0000000, 32 * PAGE, READ_WRITE, PRIVATE, -1);

	memset(at, 7, 32 * PAGE);
	madvise(at, 32 * PAGE, MADV_MERGEABLE);
	put("/sys/kernel/mm/ksm/pages_to_scan", "1000");
	put("/sys/kernel/mm/ksm/sleep_millisecs", "10");
	put("/sys/kernel/mm/ksm/run", "1");
	for (unsigned k = 0; k < 20; k++) {
		usleep(20000);
		look(at, 32 * PAGE);
	}
	touch(at, 16 * PAGE);
	put("/sys/kernel/mm/ksm/run", "2");
	touch(at, 32 * PAGE);
	munmap(at, 32 * PAGE);
}

/* Reclaim takes pages of a file and of memory. */
static void reclaimed(void)
{
	int file = open("/tmp/reclaimed", O_RDWR | O_CREAT | O_CLOEXEC, 0600);
	char *at;

	if (file < 0 || ftruncate(file, 64 * (off_t)PAGE) != 0)
		return;
	at = map_at(0xc8000000, 64 * PAGE, READ_WRITE, MAP_SHARED, file);
	touch(at, 64 * PAGE);
	madvise(at, 64 * PAGE, MADV_PAGEOUT);
	touch(at, 64 * PAGE);
	munmap(at, 64 * PAGE);
	close(file);
	at = map_at(0xc9000000, 64 * PAGE, READ_WRITE, PRIVATE, -1);
	touch(at, 64 * PAGE);
	madvise(at, 64 * PAGE, MADV_PAGEOUT);
	touch(at, 64 * PAGE);
	munmap(at, 64 * PAGE);
}

/* Tables become empty and are freed, while their neighbours stay; what is here at the end stays mapped. */
static void emptied(void)
{
	touch(map_at(0xd0000000, PAGE, READ_WRITE, PRIVATE, -1), PAGE);
	for (uint64_t k = 1; k < 9; k++) {
		char *at = map_at(0xd0000000 + k * 4 * MIB, 8 * PAGE, READ_WRITE, PRIVATE, -1);

		touch(at, 8 * PAGE);
		munmap(at, 8 * PAGE);
	}
	touch(map_at(0xe0000000, 256 * PAGE, READ_WRITE, PRIVATE | MAP_POPULATE, -1), 256 * PAGE);
}

/* Waits until the recorder has overwritten the kernel's code. */
static void planted(void)
{
	int line = open("/dev/ttyS1", O_RDONLY | O_NOCTTY | O_CLOEXEC);
	char byte;

	printf("PLANT\n");
	if (line < 0 || read(line, &byte, 1) != 1) {
		printf("WRONG no answer of the recorder\n");
		exit(1);
	}
	close(line);
}

static const struct { const char *name; void (*run)(void); } parts[] = {
	{ "threads", threads }, { "crowd", crowd }, { "shootdown", shootdown }, { "copied", copied }, { "cow", cow }, { "huge", huge }, { "moved", moved },
	{ "files", files }, { "merged", merged }, { "reclaimed", reclaimed }, { "emptied", emptied }, { "kinds", kinds }, { "planted", planted },
	{ "child", watch_child }, { "given", give_pages }, { "lazy", give_lazily }, { "lazy-large", give_large_lazily }, { "equal", give_equal_pages },
	{ "compacted", give_by_compaction }, { "zeros", read_zeros }, { "driver", unmap_drivers_pages }, { "driver-frees", let_driver_free_pages },
	{ "driver-frees-high", let_driver_free_high_pages }, { "driver-fails", let_driver_fail }, { "driver-moves", let_driver_move_pages },
	{ "truncated", move_what_is_truncated }, { "truncated-tables", move_tables_of_what_is_truncated }, { "collapsed", move_what_is_collapsed },
	{ "moved-large", move_large_pages }, { "moved-device", move_device_memory }, { "shared-tables", unmap_what_shares_a_table },
	{ "dropped-twice", drop_twice }, { "soft-dirty", clear_soft_dirty }, { "read-by-others", reclaim_what_is_read },
	{ "reclaimed-by-another", protect_what_is_reclaimed },
};

/* Where two parts have one name, none of them runs. */
void run_part(const char *name)
{
	size_t count = 0, found = 0;

	for (size_t k = 0; k < sizeof parts / sizeof parts[0]; k++)
		if (!strcmp(name, parts[k].name))
			found = k, count++;
	if (count == 1)
		parts[found].run();
	else
		wrong += printf("WRONG %zu parts %s\n", count, name) > 0;
}
