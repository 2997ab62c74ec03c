/* Rests: places where QEMU goes to the next processor, so that others meet what is stored and not flushed yet. At each so many of the
 * places (the setting `rest`) of the kinds that are asked for (`rest_at`) the processor rests. */
#ifndef RESTS_H
#define RESTS_H

#include "tables.h"

/* Bits of that setting: a store that takes something away, the begin of a flush of such stores, a store to a table of tables, and the
 * begin of a flush by a processor that has another address space loaded. */
enum rests_at { REST_AT_STORE = 1, REST_AT_FLUSH = 2, REST_AT_UPPER_STORE = 4, REST_AT_OTHERS_FLUSH = 8 };

/* The kernel has stored this, on a processor that has the address space loaded. */
void rests_stored(const struct change *change);

/* It begins to flush what it took away; `own`: on such a processor. */
void rests_flushing(int own);

#endif
