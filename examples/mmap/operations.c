#define _GNU_SOURCE
#include "operations.h"
#include "frames.h"
#include "options.h"
#include "random.h"

#include <errno.h>
#include <stdio.h>
#include <string.h>

/* Without execution alone: where there are protection keys, Linux makes such a page one that may not be read. */
static const int all_prots[] = { PROT_READ | PROT_WRITE, PROT_READ, PROT_READ | PROT_EXEC, PROT_READ | PROT_WRITE | PROT_EXEC, PROT_NONE };

enum { ALL_PROTS = sizeof(all_prots) / sizeof(all_prots[0]) };

int prots[ALL_PROTS], prots_of_data[ALL_PROTS];
unsigned prot_count, prot_of_data_count;

static const struct operation *all[MOST_OPERATIONS];
static unsigned weights[MOST_OPERATIONS], all_count, all_weight;
static atomic_int refused[MOST_OPERATIONS]; /* errno */

int is_refusal(int error)
{
	return error == ENOSYS || error == EINVAL || error == EPERM || error == EOPNOTSUPP || error == EACCES || error == ENODEV ||
	       error == ENOENT;
}

static void add(const struct operation *table)
{
	for (; table->name; table++) {
		const unsigned weight = options_weight(table->name, table->weight);

		if (weight == 0)
			continue;
		if (all_count == MOST_OPERATIONS)
			stop("too many operations");
		weights[all_count] = weight;
		all[all_count++] = table;
		all_weight += weight;
	}
}

/* Whether a page of the small file may have these rights, by mmap and by mprotect. */
static int is_allowed(int prot)
{
	void *shared = mmap(NULL, 4096, prot, MAP_SHARED, files.small, 0), *own = mmap(NULL, 4096, PROT_NONE, MAP_PRIVATE, files.small, 0);
	const int is_fine = shared != MAP_FAILED && own != MAP_FAILED && mprotect(own, 4096, prot) == 0;

	if (shared != MAP_FAILED)
		munmap(shared, 4096);
	if (own != MAP_FAILED)
		munmap(own, 4096);
	return is_fine;
}

void operations_choose(void)
{
	add(changes);
	add(copies);
	add(watched);
	add(quiet);
	add(others);
	if (all_weight == 0)
		stop("no operation is left: --list prints them");
}

void operations_begin(void)
{
	for (unsigned k = 0; k < ALL_PROTS; k++) {
		if (options_refuse("no-rights") && all_prots[k] == PROT_NONE)
			continue;
		if (options_refuse("execution") && all_prots[k] & PROT_EXEC)
			continue;
		if (is_allowed(all_prots[k]))
			prots[prot_count++] = all_prots[k];
		else if (all_prots[k] & PROT_EXEC)
			printf("left out: pages that may be executed%s: %s\n", all_prots[k] & PROT_WRITE ? " and written" : "", strerror(errno));
		else
			stop("mmap or mprotect of a memfd: %s", strerror(errno));
		if (!(all_prots[k] & PROT_EXEC))
			prots_of_data[prot_of_data_count++] = all_prots[k];
	}
}

void operation_some(struct worker *worker)
{
	/* some of them find nothing to do at some pages */
	for (unsigned tries = 0; tries < 100; tries++) {
		uint64_t at = draw(&worker->random, all_weight);
		unsigned k = 0;
		enum outcome outcome;

		while (at >= weights[k])
			at -= weights[k++];
		outcome = refused[k] ? NOTHING : all[k]->make(worker);
		if (outcome == REFUSED)
			refused[k] = errno;
		if (outcome == MADE) {
			worker->made[k]++;
			change_count++;
			return;
		}
	}
}

const struct operation *operation(unsigned number) { return number < all_count ? all[number] : NULL; }

const char *operation_refused(unsigned number) { return refused[number] ? strerror(refused[number]) : NULL; }
