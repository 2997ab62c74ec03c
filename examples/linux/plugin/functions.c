#include "functions.h"

#include <stdlib.h>

int functions_take(struct functions *functions, const char *text)
{
	unsigned k = functions->count;
	char *rest;

	if (k == FUNCTIONS)
		return 0;
	functions->each[k].begin = strtoull(text, &rest, 0);
	functions->each[k].end = *rest == '-' ? strtoull(rest + 1, NULL, 0) : 0;
	functions->count++;
	return functions->each[k].end != 0;
}

unsigned functions_find(const struct functions *functions, uint64_t pc)
{
	unsigned k = 0;

	while (k < functions->count && (pc < functions->each[k].begin || pc >= functions->each[k].end))
		k++;
	return k;
}
