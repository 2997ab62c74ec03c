/*
 * A plain x86-64 page table of four levels, of 4 KiB, 2 MiB and 1 GiB pages. It knows no lock, no thread and no recorder:
 * it only borrows the recorder's words for sizes, rights and answers.
 *
 * Its frames lie from physical 2^51 on, above all pages that it maps. At most `limit` tables are in use; a table other than
 * the root is kept only while an entry of it is present.
 */
#ifndef PAGE_TABLE_H
#define PAGE_TABLE_H

#include "../../recorders/nrvs_trace.h"

#define FIRST_FRAME ((uint64_t)1 << 39) /* frame number of 2^51 */
#define FRAME_ROOM 4096u

struct page_table {
	uint64_t (*memory)[512];   /* frame k has the number FIRST_FRAME + k */
	uint8_t in_use[FRAME_ROOM];
	uint16_t free[FRAME_ROOM]; /* a stack of those that aren't in use */
	uint32_t free_count;
	uint64_t root;             /* its frame number */
	uint32_t tables, limit;
};

/* 0 where there is no memory for the frames. */
int page_table_make(struct page_table *table, uint32_t limit);
void page_table_drop(struct page_table *table);

/* The caller holds the lock of the page table, and the addresses are aligned. */
nrvs_answer page_table_map(struct page_table *table, uint64_t address, nrvs_size size, uint64_t phys, unsigned rights);
nrvs_answer page_table_unmap(struct page_table *table, uint64_t address);
nrvs_answer page_table_protect(struct page_table *table, uint64_t address, unsigned rights);
nrvs_answer page_table_resolve(struct page_table *table, uint64_t address);

#endif
