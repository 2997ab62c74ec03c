/*
 * Operations that change nothing that one may see. They need no lock: they may be made while their pages are changed and accessed, and
 * are no updates.
 */
#define _GNU_SOURCE
#include "operations.h"
#include "random.h"
#include "updates.h"

#include <errno.h>
#include <fcntl.h>
#include <stdio.h>
#include <sys/syscall.h>
#include <unistd.h>

#ifndef MADV_COLD
#define MADV_COLD 20
#define MADV_PAGEOUT 21
#endif
#ifndef MADV_POPULATE_READ
#define MADV_POPULATE_READ 22
#define MADV_POPULATE_WRITE 23
#endif
#ifndef MADV_COLLAPSE
#define MADV_COLLAPSE 25
#endif
#ifndef SYS_process_madvise
#define SYS_process_madvise 440
#endif
#ifndef SYS_pidfd_open
#define SYS_pidfd_open 434
#endif

/* Whether this kernel has such advice: of a page of our own, once. Errors later on are of pages that are changed meanwhile. */
static int has_advice(int advice)
{
	static atomic_int known[32]; /* 0: not tried; 1: it has; else an errno below 0 */
	void *page;

	if (known[advice] == 0) {
		page = mmap(NULL, 4096, PROT_READ | PROT_WRITE, MAP_PRIVATE | MAP_ANONYMOUS, -1, 0);
		known[advice] = madvise(page, 4096, advice) == 0 || !is_refusal(errno) ? 1 : -errno;
		munmap(page, 4096);
	}
	errno = known[advice] < 0 ? -known[advice] : 0;
	return known[advice] == 1;
}

static enum outcome advise(struct worker *worker, int advice)
{
	const struct range range = range_draw(&worker->random);

	if (!has_advice(advice))
		return REFUSED;
	(void)madvise(at(range.base), range.bytes, advice);
	hot_slot = range.first + (unsigned)draw(&worker->random, range.count);
	return MADE;
}

static enum outcome make_cold(struct worker *worker) { return advise(worker, MADV_COLD); }
static enum outcome make_pageout(struct worker *worker) { return advise(worker, MADV_PAGEOUT); }

static enum outcome make_merge(struct worker *worker)
{
	return advise(worker, draw(&worker->random, 3) ? MADV_MERGEABLE : MADV_UNMERGEABLE);
}

static enum outcome make_populate(struct worker *worker)
{
	return advise(worker, draw(&worker->random, 2) ? MADV_POPULATE_READ : MADV_POPULATE_WRITE);
}

/* The 2 MiB become a large page, where all of them are alike. */
static enum outcome make_collapse(struct worker *worker)
{
	if (madvise(at(regions[LARGE].base), regions[LARGE].bytes, MADV_COLLAPSE) == 0) {
		hot_slot = SMALL_SLOTS + (unsigned)draw(&worker->random, LARGE_SLOTS);
		return MADE;
	}
	/* of pages that lie otherwise it says EINVAL too */
	return errno == ENOSYS || errno == EPERM ? REFUSED : NOTHING;
}

static enum outcome make_large(struct worker *worker)
{
	const int advice = draw(&worker->random, 3) ? MADV_HUGEPAGE : MADV_NOHUGEPAGE;

	if (!has_advice(advice))
		return REFUSED;
	(void)madvise(at(regions[LARGE].base), regions[LARGE].bytes, advice);
	return MADE;
}

static enum outcome make_lock(struct worker *worker)
{
	const struct range range = range_draw(&worker->random);
	const int status = draw(&worker->random, 2) ? mlock(at(range.base), range.bytes) : munlock(at(range.base), range.bytes);

	return status != 0 && is_refusal(errno) ? REFUSED : MADE;
}

static enum outcome make_sync(struct worker *worker)
{
	const struct range range = range_draw(&worker->random);

	return msync(at(range.base), range.bytes, MS_SYNC) != 0 && is_refusal(errno) ? REFUSED : MADE;
}

/* The process's own pages, as another process would ask for them. */
static enum outcome make_process_advice(struct worker *worker)
{
	static atomic_int self = -1;
	const struct range range = range_draw(&worker->random);
	const struct { void *base; size_t length; } parts[] = { { at(range.base), range.bytes } };

	if (self < 0)
		self = (int)syscall(SYS_pidfd_open, getpid(), 0);
	if (self < 0)
		return REFUSED;
	if (syscall(SYS_process_madvise, self, parts, 1, draw(&worker->random, 2) ? MADV_COLD : MADV_PAGEOUT, 0) < 0 &&
	    (errno == ENOSYS || errno == EPERM || errno == EBADF))
		return REFUSED;
	return MADE;
}

/* All pages are made read-only in the page tables, so that the kernel sees which are written. */
static enum outcome make_clear_dirty(struct worker *worker)
{
	static atomic_int file = -1;

	(void)worker;
	if (file < 0)
		file = open("/proc/self/clear_refs", O_WRONLY | O_CLOEXEC);
	return file < 0 || write(file, "4", 1) != 1 ? REFUSED : MADE;
}

/* What a group of processes has in memory is reclaimed in part. The file for that is its own, and is root's. */
static int open_reclaim(void)
{
	FILE *groups = fopen("/proc/self/cgroup", "re");
	char line[2048], group[2048], path[2112] = "";

	while (groups && fgets(line, sizeof(line), groups))
		if (sscanf(line, "0::%2047[^\n]", group) == 1)
			snprintf(path, sizeof(path), "/sys/fs/cgroup%s/memory.reclaim", group);
	if (groups)
		fclose(groups);
	return open(path, O_WRONLY | O_CLOEXEC);
}

static enum outcome make_reclaim(struct worker *worker)
{
	static atomic_int file = -1;
	static const char amount[] = "32K";

	(void)worker;
	if (file < 0)
		file = open_reclaim();
	/* of less than that much it says so, and has reclaimed it all the same */
	return file < 0 || (write(file, amount, sizeof(amount) - 1) < 0 && errno != EAGAIN) ? REFUSED : MADE;
}

const struct operation quiet[] = {
	{ "cold", "madvise, MADV_COLD", make_cold, 1 },
	{ "pageout", "madvise, MADV_PAGEOUT", make_pageout, 2 },
	{ "populate", "madvise, MADV_POPULATE_READ and _WRITE", make_populate, 3 },
	{ "merge", "madvise, MADV_MERGEABLE", make_merge, 1 },
	{ "large", "madvise, MADV_HUGEPAGE", make_large, 1 },
	{ "collapse", "madvise, MADV_COLLAPSE", make_collapse, 2 },
	{ "lock", "mlock, munlock", make_lock, 2 },
	{ "sync", "msync", make_sync, 1 },
	{ "process-advice", "process_madvise", make_process_advice, 1 },
	{ "clear-dirty", "4 to /proc/self/clear_refs", make_clear_dirty, 1 },
	/* it is of all processes of the group: only where --only names it */
	{ "reclaim", "32K to memory.reclaim of its cgroup", make_reclaim, 0 },
	{ 0 },
};
