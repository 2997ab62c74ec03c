/* What 512 pages cost by plans, and by vmap and vunmap of the same kernel. It is printed. 0, or an error of Linux. */
#ifndef COST_H
#define COST_H

int cost(unsigned rounds);

#endif
