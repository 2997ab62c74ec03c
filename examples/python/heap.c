/* The heap that the audit's archive asks for (include/nrvs_audit.h), over the C library's. */
#include "nrvs_audit.h"

#include <stdlib.h>

struct rattle_block rattle_alloc(size_t size, size_t align)
{
	void *at = malloc(size ? size : align);
	struct rattle_block block = {at != NULL, at ? at : (void *)align};

	return block;
}

struct rattle_block rattle_realloc(void *at, size_t kept, size_t size, size_t align)
{
	void *moved = realloc(at, size ? size : align);
	struct rattle_block block = {moved != NULL, moved ? moved : at};

	(void)kept;
	return block;
}

void rattle_dealloc(void *at)
{
	free(at);
}
