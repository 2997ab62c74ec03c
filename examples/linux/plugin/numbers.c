#include "numbers.h"

#include <stdio.h>
#include <stdlib.h>

#define BITS 20
#define ROOM ((uint64_t)1 << BITS)
#define NEAR 64

struct numbers {
	struct {
		uint64_t key, number;
	} entries[ROOM];
};

struct numbers *numbers_new(struct numbers *old)
{
	struct numbers *numbers;

	free(old);
	numbers = calloc(1, sizeof *numbers);

	if (!numbers) {
		fprintf(stderr, "watch: out of memory\n");
		exit(2);
	}
	return numbers;
}

uint64_t *numbers_at(struct numbers *numbers, uint64_t key)
{
	uint64_t place = key * 0x9e3779b97f4a7c15u >> (64 - BITS);

	for (unsigned tried = 0; tried < NEAR; tried++, place = (place + 1) & (ROOM - 1)) {
		if (numbers->entries[place].key == key)
			return &numbers->entries[place].number;
		if (!numbers->entries[place].key)
			break;
	}
	numbers->entries[place].key = key;
	numbers->entries[place].number = 0;
	return &numbers->entries[place].number;
}
