/*
 * Pages that userfaultfd watches: an access that may not be made waits until it may. So there is no fault, and an access that doesn't wait
 * shows a translation that wasn't flushed.
 */
#define _GNU_SOURCE
#include "accesses.h"
#include "operations.h"
#include "options.h"
#include "random.h"
#include "updates.h"

#include <errno.h>
#include <fcntl.h>
#include <linux/userfaultfd.h>
#include <string.h>
#include <sys/ioctl.h>
#include <sys/syscall.h>
#include <unistd.h>

#ifndef UFFD_USER_MODE_ONLY
#define UFFD_USER_MODE_ONLY 1
#endif

static int file = -1;
static int why; /* errno, where it isn't there */

/* Puts a page with this number where none is. */
static int fill(const struct slot *slot, uint64_t number)
{
	_Alignas(4096) char page[4096];
	const uint64_t code = code_of(number);
	struct uffdio_copy copy = { .dst = slot->base, .src = (uint64_t)page, .len = 4096 };

	memset(page, 0, sizeof(page));
	memcpy(page, &number, sizeof(number));
	memcpy(page + CODE_AT, &code, sizeof(code));
	return ioctl(file, UFFDIO_COPY, &copy);
}

/* A file of userfaultfd that can all that is needed; -1 where there is none. */
static int open_file(void)
{
	struct uffdio_api api = { .api = UFFD_API, .features = UFFD_FEATURE_PAGEFAULT_FLAG_WP };
	int opened = (int)syscall(SYS_userfaultfd, O_CLOEXEC);

	if (opened < 0)
		opened = (int)syscall(SYS_userfaultfd, O_CLOEXEC | UFFD_USER_MODE_ONLY);
	if (opened >= 0 && ioctl(opened, UFFDIO_API, &api) != 0) {
		close(opened);
		return -1;
	}
	return opened;
}

static int watch(const struct region *region)
{
	struct uffdio_register all = {
		.range = { region->base, region->bytes }, .mode = UFFDIO_REGISTER_MODE_MISSING | UFFDIO_REGISTER_MODE_WP,
	};
	void *got = mmap(at(region->base), region->bytes, PROT_READ | PROT_WRITE, MAP_PRIVATE | MAP_ANONYMOUS | MAP_FIXED, -1, 0);

	if (got != at(region->base) || ioctl(file, UFFDIO_REGISTER, &all) != 0)
		return -1;
	for (unsigned k = 0; k < region->count; k++) {
		struct slot *slot = &slots[region->first + k];

		slot->kind = ANONYMOUS;
		slot->prot = PROT_READ | PROT_WRITE;
		slot->number = new_copy();
		slot->is_mapped = 1;
		if (fill(slot, slot->number) != 0)
			return -1;
	}
	return 0;
}

void watched_begin(void)
{
	struct region *region = &regions[WATCHED];

	if (!options_want("watch-protect") && !options_want("watch-fill"))
		return;
	file = open_file();
	if (file >= 0 && watch(region) == 0) {
		region->is_there = 1;
		return;
	}
	why = errno;
	munmap(at(region->base), region->bytes);
	for (unsigned k = 0; k < region->count; k++)
		slots[region->first + k].is_mapped = 0;
}

/* Some while, in which others access the page. */
static void pause_a_little(struct worker *worker)
{
	const struct timespec rest = { 0, 1000 };

	if (draw(&worker->random, 2))
		nanosleep(&rest, NULL);
	else
		for (volatile uint64_t k = draw(&worker->random, 2000); k > 0; k--)
			;
}

/* ---- writes that wait ---- */

static void set_protected(struct worker *worker, struct slot *slot, int is_protected)
{
	struct uffdio_writeprotect ask = { .range = { slot->base, 4096 }, .mode = is_protected ? UFFDIO_WRITEPROTECT_MODE_WP : 0 };
	const int prot = is_protected ? PROT_READ : PROT_READ | PROT_WRITE;
	struct change change;

	change_begin(&change, worker->id);
	change_call(&change, nrvs_protect(slot->base, rights_of(prot)), nrvs_changed(rights_of(slot->prot)));
	change_called(&change);
	if (ioctl(file, UFFDIO_WRITEPROTECT, &ask) != 0)
		stop("UFFDIO_WRITEPROTECT: %s", strerror(errno));
	slot->prot = prot;
	change_done(&change);
}

static void protect_for_a_while(struct worker *worker, struct slot *slot)
{
	set_protected(worker, slot, 1);
	pause_a_little(worker);
	set_protected(worker, slot, 0);
}

/* ---- a page that is missing for a while ---- */

static void replace(struct worker *worker, struct slot *slot)
{
	const uint64_t number = new_copy();
	struct change change;

	change_begin(&change, worker->id);
	call_unmap(&change, slot);
	change_called(&change);
	if (madvise(at(slot->base), 4096, MADV_DONTNEED) != 0)
		stop("madvise, MADV_DONTNEED: %s", strerror(errno));
	slot->is_mapped = 0;
	change_done(&change);
	pause_a_little(worker);
	change_begin(&change, worker->id);
	call_map(&change, slot, number, slot->prot);
	change_called(&change);
	if (fill(slot, number) != 0)
		found("UFFDIO_COPY of a page that MADV_DONTNEED has discarded: %s", strerror(errno));
	slot->is_mapped = 1;
	slot->number = number;
	change_done(&change);
}

static enum outcome with_slot(struct worker *worker, void (*make)(struct worker *, struct slot *))
{
	const unsigned slot = regions[WATCHED].first + (unsigned)draw(&worker->random, regions[WATCHED].count);
	const struct range range = range_of_slot(slot);

	errno = why;
	if (!regions[WATCHED].is_there)
		return REFUSED;
	range_lock(&range);
	hot_slot = slot;
	make(worker, &slots[slot]);
	range_unlock(&range);
	worker->last = slot;
	return MADE;
}

static enum outcome make_protect(struct worker *worker) { return with_slot(worker, protect_for_a_while); }
static enum outcome make_fill(struct worker *worker) { return with_slot(worker, replace); }

const struct operation watched[] = {
	{ "watch-protect", "userfaultfd, UFFDIO_WRITEPROTECT", make_protect, 3 },
	{ "watch-fill", "userfaultfd, UFFDIO_COPY", make_fill, 3 },
	{ 0 },
};
