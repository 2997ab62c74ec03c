/* Functions of the guest's kernel, by their code. */
#ifndef FUNCTIONS_H
#define FUNCTIONS_H

#include <stdint.h>

#define FUNCTIONS 16

struct functions {
	struct {
		uint64_t begin, end; /* from the first instruction to behind the last */
	} each[FUNCTIONS];
	unsigned count;
};

/* Takes one more, BEGIN-END; whether it is one, and there is room. */
int functions_take(struct functions *functions, const char *text);

/* The number of the one that has an instruction, or their count. */
unsigned functions_find(const struct functions *functions, uint64_t pc);

#endif
