/* What a page table is to translate: a plain list of pages, with the answers of docs/DEFINITIONS.md ("step", "look"). */
#ifndef SPACE_H
#define SPACE_H

#include "memory.h"
#include "nrvs_plan.h"

enum { MOST_PAGES = 1 << 15 };

struct page {
	uint64_t base, physical, bits;
	unsigned size, rights;
};

struct space {
	struct page pages[MOST_PAGES]; /* by rising base */
	unsigned count;
};

/* What a call has to answer, and the attributes beside. */
struct answered {
	struct nrvs_reply reply;
	uint64_t bits;
};

struct answered space_map(struct space *space, struct page page);
struct answered space_unmap(struct space *space, uint64_t base);
struct answered space_protect(struct space *space, uint64_t base, unsigned rights);
/* The page leads to another physical address, with these rights, where addresses have so many bits; 512 pages are in its place; or it is in
 * the place of 512. These follow on from each other, as far as the list has it, and their attributes but for the flags are the same.
 */
struct answered space_remap(struct space *space, uint64_t base, uint64_t physical, unsigned rights, unsigned phys_bits);
struct answered space_split(struct space *space, uint64_t base);
struct answered space_join(struct space *space, uint64_t base);
/* So many of its 512 parts are removed, from this one on; one page is in the place of 512, where these have the same rights and attributes
 * but for the flags.
 */
struct answered space_unmap_part(struct space *space, uint64_t base, uint64_t first, uint64_t count);
struct answered space_collapse(struct space *space, uint64_t base, uint64_t physical, unsigned rights, unsigned phys_bits);

struct answered space_ask(const struct space *space, uint64_t address);

/* The page of an address, or null; the same list again. */
const struct page *space_page(const struct space *space, uint64_t address);
void space_copy(struct space *to, const struct space *from);

/* Where a walk has to end. */
struct walked space_walk(const struct space *space, uint64_t address);

#endif
