/* What <linux/atomic.h> has of what nrvs_nodes.h needs, no stronger than Linux promises it. */
#ifndef LINUX_ATOMIC_H
#define LINUX_ATOMIC_H
#include <linux/types.h>

static inline void smp_mb(void)
{
	__atomic_thread_fence(__ATOMIC_SEQ_CST);
}

static inline s64 atomic64_read_acquire(const atomic64_t *word)
{
	return __atomic_load_n(&word->counter, __ATOMIC_ACQUIRE);
}

static inline void atomic64_set(atomic64_t *word, s64 value)
{
	__atomic_store_n(&word->counter, value, __ATOMIC_RELAXED);
}

static inline s64 atomic64_cmpxchg_relaxed(atomic64_t *word, s64 old, s64 value)
{
	__atomic_compare_exchange_n(&word->counter, &old, value, false, __ATOMIC_RELAXED, __ATOMIC_RELAXED);
	return old;
}

#endif
