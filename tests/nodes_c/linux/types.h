/* What <linux/types.h> has of what nrvs_nodes.h needs. */
#ifndef LINUX_TYPES_H
#define LINUX_TYPES_H
#include <stdbool.h>
#include <stddef.h>
#include <stdint.h>

typedef int64_t s64;
typedef struct {
	s64 counter;
} atomic64_t;

#endif
