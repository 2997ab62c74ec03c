/* The address space: the library's page table in this kernel's frames, and beside it a plain list of what was asked for. */
#ifndef SPACE_H
#define SPACE_H

#include "record.h"

#include <stdint.h>

struct page {
	uint64_t base, physical;
	unsigned size, rights; /* the library's codes */
	int is_own;            /* the kernel itself needs it: it is left as it is */
};

enum { SPACE_TABLES = 72, SPACE_PAGES = 256, SPACE_GONE = 16 };

/* The boot tables have pages of 2 MiB up to here, each at its own address and with all rights. */
#define BOOT_END (UINT64_C(5) << 30)

/* Records that the boot pages are gone. The processor walks the boot tables until CR3 is loaded: nothing is tried meanwhile. */
void space_leave_boot_pages(void);
/* An empty address space, for the processor to walk. */
void space_begin(unsigned levels);
uint64_t space_root(void);
unsigned space_levels(void);

/* Updates, which flush what the processor kept of the page. Each returns the code of the library's answer. */
unsigned space_map(const struct page *page);
unsigned space_unmap(uint64_t base);
unsigned space_protect(uint64_t base, unsigned rights);

/* What the library says: 0 where the address isn't canonical. */
int space_resolve(uint64_t address, struct answer *answer);
int space_access(uint64_t address, unsigned mode, unsigned access, struct answer *answer);

/* What was asked for: the page that covers the address, or null; and page k. */
const struct page *space_page_at(uint64_t address);
const struct page *space_page(unsigned k);
unsigned space_count(void);
/* One of the pages that were unmapped last; k is below SPACE_GONE. If there weren't so many, it is a page at 0. */
const struct page *space_gone(unsigned k);

static inline uint64_t bytes_of(unsigned size)
{
	return (uint64_t)4096 << 9 * size;
}

/* How many entries the processor has marked as accessed, and as dirty. */
void space_count_flags(uint64_t *accessed, uint64_t *dirty);
/* How many tables there are. */
uint64_t space_tables(void);

#endif
