/* What is done to the pages of the window: calls of the kernel, most of which change what one sees there. */
#ifndef OPERATIONS_H
#define OPERATIONS_H

#include "worker.h"

#include <sys/mman.h>

/* What an operation says: it was made; there was nothing to do; or this kernel doesn't have it, and errno is why. */
enum outcome { MADE, NOTHING, REFUSED };

struct operation {
	const char *name;               /* for --only and --without */
	const char *call;               /* what is called */
	enum outcome (*make)(struct worker *);
	unsigned weight;                /* how often it is drawn, where --only doesn't say */
};

extern const struct operation changes[], copies[], watched[], quiet[], others[];

/* Makes the pages that userfaultfd watches, before all workers; none, where it isn't there. */
void watched_begin(void);

/* Takes those that the options want. */
void operations_choose(void);
/* Sets what this machine allows: which rights a page may have. */
void operations_begin(void);
/* One operation that the options want, drawn by weight, and made. */
void operation_some(struct worker *worker);
/* By number, from 0: NULL where there is none; and why it was left out, or NULL. */
const struct operation *operation(unsigned number);
const char *operation_refused(unsigned number);

/* The sets of rights that pages may have, and those without execution, as mmap takes them. */
extern int prots[], prots_of_data[];
extern unsigned prot_count, prot_of_data_count;

/* Stores to a private page, which gets a frame of its own by that; NOTHING where it may not be written. The slot is locked. */
enum outcome store_to(struct worker *worker, unsigned slot);

/* With one of these errors a call is one that this kernel, or a filter of its calls, doesn't have. */
int is_refusal(int error);

#endif
