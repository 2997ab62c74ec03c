/* What is recorded: a chain of the lower half, by recorders/nrvs_trace.h, of its changes and of accesses as touches. A chain has maps,
 * unmaps and protects: a remap is an unmap and a map, a split an unmap and 512 maps, a join the other way round. All of these are
 * open from before the first store until after the flush. It leaves by an I/O port, QEMU's debug console.
 */
#ifndef RECORD_H
#define RECORD_H

#include <linux/atomic.h>
#include <linux/types.h>

#define NRVS_NO_STDINT
#define NRVS_ATOMIC
typedef atomic_t nrvs_atomic;

static inline void nrvs_store(nrvs_atomic *word, uint32_t value)
{
	atomic_set(word, (int)value);
}

static inline uint32_t nrvs_load(nrvs_atomic *word)
{
	return (uint32_t)atomic_read(word);
}

static inline uint32_t nrvs_add(nrvs_atomic *word)
{
	return (uint32_t)atomic_fetch_inc(word);
}

static inline uint32_t nrvs_exchange(nrvs_atomic *word, uint32_t from, uint32_t to)
{
	return (uint32_t)atomic_cmpxchg(word, (int)from, (int)to);
}

#include "nrvs_trace.h"

/* Begins the chain, with the tables as they are, which leaves by this port; 0 for none. 0, or an error of Linux. */
int record_begin(unsigned port);
void record_end(void);

/* Before the first store of a change: one more update, and what is answered to it. After the flush: that it was answered so. */
void record_update(nrvs_request request, nrvs_answer answer);
void record_replies(void);

/* The memory is given to somebody else from here on. */
void record_release(uint64_t physical, unsigned size);

/* So many accesses of each processor are recorded from here on. */
void record_allow(unsigned number);

/* Before an access of a processor: the call's number, or NRVS_NONE where it isn't recorded. After it: what came. */
uint32_t record_touch(unsigned processor, uint64_t address, bool is_write);
void record_touched(uint32_t call, nrvs_answer answer);

/* Ends the segment, where it is nearly full: no processor makes an access meanwhile. */
void record_cut(void);

#endif
