/* Memory that the process had and that the kernel gives to others: no page of it is used any more. */
#ifndef GIVEN_H
#define GIVEN_H

/* By munmap and madvise, small pages and a large one. */
void give_pages(void);

/* By reclaim, small pages or a large one. */
void give_lazily(void);
void give_large_lazily(void);

/* By KSM, which makes one page of many. */
void give_equal_pages(void);

/* By compaction, which moves pages. */
void give_by_compaction(void);

/* Pages that are read first have one frame, that of zeros, which nobody is given; a store that goes there is taken back. */
void read_zeros(void);

#endif
