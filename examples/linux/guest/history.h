/* What meets bugs that Linux was shipped with: the process does what their reports say. */
#ifndef HISTORY_H
#define HISTORY_H

/* Pages of a file, on both sides of a table's end, are moved while another thread truncates the file. */
void move_what_is_truncated(void);

/* The same of whole tables: their entries in the table above are moved. */
void move_tables_of_what_is_truncated(void);

/* A table is moved while another thread makes one large page of the file's small ones, for which the kernel frees such tables. */
void move_what_is_collapsed(void);

/* Two mappings of large pages (hugetlbfs) share a table; one is unmapped. */
void unmap_what_shares_a_table(void);

/* Large pages (hugetlbfs) are moved, the first of which isn't there. */
void move_large_pages(void);

/* A large page of a device's memory is moved. */
void move_device_memory(void);

/* The kernel is asked to note again which pages are written (soft-dirty). */
void clear_soft_dirty(void);

/* Reclaim takes pages that other processors read. */
void reclaim_what_is_read(void);

/* Two threads drop the same pages, and one of them uses them again. */
void drop_twice(void);

/* Another process reclaims the pages of this one, which makes them read-only meanwhile. */
void protect_what_is_reclaimed(void);

#endif
