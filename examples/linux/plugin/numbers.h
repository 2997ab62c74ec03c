/* A table from numbers to numbers, of fixed room: where its neighbourhood is full, an entry is forgotten. */
#ifndef NUMBERS_H
#define NUMBERS_H

#include <stdint.h>

struct numbers;

/* All numbers 0: one that is new, or that is there already. */
struct numbers *numbers_new(struct numbers *old);

/* The number that is there for `key`, which isn't 0; one that wasn't asked for before is 0. */
uint64_t *numbers_at(struct numbers *numbers, uint64_t key);

#endif
