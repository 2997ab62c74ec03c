/* A driver's memory, whose pages the driver takes back whenever it likes. */
#ifndef DRIVER_H
#define DRIVER_H

/* One thread unmaps it while another has the driver take it back. */
void unmap_drivers_pages(void);

/* The driver takes it back while it is mapped; the same of memory that the driver has above 2^63. */
void let_driver_free_pages(void);
void let_driver_free_high_pages(void);

/* The driver moves pages to other frames, while another thread drops them. */
void let_driver_move_pages(void);

/* The driver maps half of its pages, fails, and frees them all. */
void let_driver_fail(void);

#endif
