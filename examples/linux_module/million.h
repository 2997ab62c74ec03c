/* Many calls, one after another, of which none is walked by a processor: each answer is that of a plain list of pages. */
#ifndef MILLION_H
#define MILLION_H

/* How many of so many calls are answered otherwise; all pages are unmapped then. -1 where there is no memory. */
long million(unsigned long calls);

#endif
