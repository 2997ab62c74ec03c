/* Tasks that took something away from the tables, and haven't flushed, or aren't in user mode again. */
#ifndef OWING_H
#define OWING_H

#include <stdint.h>

/* None does. */
void owing_begin(void);

/* A task changed the word at a physical address; NOWHERE means more than one. */
void owing_add(uint64_t task, uint64_t word);

/* Whether a task is one of them. */
int owing_has(uint64_t task);

/* One has flushed, for itself or for others too. What they changed has to be looked at again. */
void owing_flushed(void);

/* The task is in user mode: it owes nothing. Whether it did. */
int owing_in_user(uint64_t task);

int owing_is_none(void);

#endif
