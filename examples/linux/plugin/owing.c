#include "owing.h"

#include "guest.h"
#include "seen.h"

#define TASKS 64
#define WORDS 1024

static struct {
	uint64_t task, words[WORDS];
	unsigned count; /* above WORDS: any word may be among them */
} owing[TASKS];
static unsigned tasks;

void owing_begin(void)
{
	tasks = 0;
}

static unsigned find(uint64_t task)
{
	unsigned k = 0;

	while (k < tasks && owing[k].task != task)
		k++;
	return k;
}

static void forget(unsigned k)
{
	owing[k] = owing[--tasks];
}

static void look_again(unsigned k)
{
	if (owing[k].count > WORDS)
		seen_all_changed();
	else
		for (unsigned word = 0; word < owing[k].count; word++)
			seen_changed(owing[k].words[word]);
}

void owing_add(uint64_t task, uint64_t word)
{
	unsigned k = find(task);

	if (k == TASKS)
		forget(k = 0), k = tasks;
	if (k == tasks) {
		owing[tasks].task = task;
		owing[tasks++].count = 0;
	}
	if (word == NOWHERE || owing[k].count >= WORDS)
		owing[k].count = WORDS + 1;
	else
		owing[k].words[owing[k].count++] = word;
}

int owing_has(uint64_t task)
{
	return find(task) < tasks;
}

void owing_flushed(void)
{
	for (unsigned k = 0; k < tasks; k++)
		look_again(k);
}

int owing_in_user(uint64_t task)
{
	unsigned k = find(task);

	if (k == tasks)
		return 0;
	look_again(k);
	forget(k);
	return 1;
}

int owing_is_none(void)
{
	return tasks == 0;
}
