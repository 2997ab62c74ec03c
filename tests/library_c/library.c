/* The page table for C: each call once, each refusal, pages of all sizes against what was asked, and flags that a processor sets. */
#define _DEFAULT_SOURCE
#include "nrvs.h"

#include <stdio.h>
#include <stdlib.h>
#include <string.h>
#include <sys/mman.h>

static int passed, failed;

static void is(uint64_t told, uint64_t wanted, const char *what, int line)
{
	if (told == wanted) {
		passed++;
		return;
	}
	failed++;
	printf("line %d: %s is %llu, and not %llu\n", line, what, (unsigned long long)told, (unsigned long long)wanted);
}

#define IS(told, wanted) is((uint64_t)(told), (uint64_t)(wanted), #told, __LINE__)

struct lent {
	struct nrvs_table table;
	struct nrvs_words *words;
	size_t frames;
	struct nrvs_mark *marks;
	size_t marked;
	void *first, *second;
};

#define LENT(l) &(l)->table, (l)->words, (l)->frames, (l)->marks, (l)->marked

static struct lent lend(size_t frames)
{
	struct lent l;
	memset(&l, 0, sizeof l);
	l.frames = l.marked = frames;
	l.first = malloc(frames * 4096);
	l.second = malloc(frames * sizeof *l.marks);
	if (!l.first || !l.second)
		exit(2);
	memset(l.first, 0xAB, frames * 4096);
	memset(l.second, 0xAB, frames * sizeof *l.marks);
	l.words = (struct nrvs_words *)l.first;
	l.marks = (struct nrvs_mark *)l.second;
	return l;
}

static void take_back(struct lent *l)
{
	free(l->first);
	free(l->second);
}

static void replies(struct nrvs_reply r, int code, uint64_t number, int size, int rights, int line)
{
	is(r.code, (uint64_t)code, "code", line);
	is(r.number, number, "number", line);
	is(r.size, (uint64_t)size, "size", line);
	is(r.rights, (uint64_t)rights, "rights", line);
}

#define REPLIES(r, code, number, size, rights) replies(r, code, number, size, rights, __LINE__)

/* Calls with another number of frames than the handle was made with, and with too few marks. */
static void other_memory(void)
{
	struct lent l = lend(9);
	struct nrvs_table before;
	struct nrvs_reply r;
	size_t count = 77, frames;
	IS(nrvs_table_new(&l.table, l.words, 8, l.marks, 8, 4, 0), NRVS_OK);
	before = l.table;
	for (frames = 7; frames <= 9; frames += 2) {
		IS(nrvs_table_map(&l.table, l.words, frames, l.marks, 9, 0, 9, 0, 0, &r), NRVS_BAD_FRAMES);
		IS(nrvs_table_unmap(&l.table, l.words, frames, l.marks, 9, 1, &r), NRVS_BAD_FRAMES);
		IS(nrvs_table_protect(&l.table, l.words, frames, l.marks, 9, 0, 9, &r), NRVS_BAD_FRAMES);
		IS(nrvs_table_resolve(&l.table, l.words, frames, l.marks, 9, 0, &r), NRVS_BAD_FRAMES);
		IS(nrvs_table_access(&l.table, l.words, frames, l.marks, 9, 0, 0, 0, &r), NRVS_BAD_FRAMES);
		IS(nrvs_table_tables(&l.table, l.words, frames, l.marks, 9, &count), NRVS_BAD_FRAMES);
	}
	IS(nrvs_table_map(&l.table, l.words, 8, l.marks, 7, 0, 0, 0, 0, &r), NRVS_BAD_MARKS);
	IS(nrvs_table_tables(&l.table, l.words, 8, l.marks, 0, &count), NRVS_BAD_MARKS);
	IS(count, 77);
	IS(memcmp(&before, &l.table, sizeof before), 0);
	IS(nrvs_table_tables(&l.table, l.words, 8, l.marks, 9, &count), NRVS_OK);
	IS(count, 1);
	take_back(&l);
}

static void refuses(void)
{
	struct lent l = lend(8);
	struct nrvs_reply r, before;
	size_t count = 77;
	memset(&r, 0x55, sizeof r);
	before = r;
	IS(nrvs_table_map(LENT(&l), 0, NRVS_4K, 0, 0, &r), NRVS_NO_TABLE);
	IS(nrvs_table_unmap(LENT(&l), 0, &r), NRVS_NO_TABLE);
	IS(nrvs_table_protect(LENT(&l), 0, 0, &r), NRVS_NO_TABLE);
	IS(nrvs_table_resolve(LENT(&l), 0, &r), NRVS_NO_TABLE);
	IS(nrvs_table_access(LENT(&l), 0, 0, 0, &r), NRVS_NO_TABLE);
	IS(nrvs_table_tables(LENT(&l), &count), NRVS_NO_TABLE);
	IS(count, 77);
	IS(nrvs_table_new(LENT(&l), 3, 0), NRVS_BAD_LEVELS);
	IS(nrvs_table_new(&l.table, l.words, 0, l.marks, 8, 4, 0), NRVS_BAD_FRAMES);
	IS(nrvs_table_new(&l.table, l.words, 4097, l.marks, 4097, 4, 0), NRVS_BAD_FRAMES);
	IS(nrvs_table_new(&l.table, l.words, 8, l.marks, 7, 4, 0), NRVS_BAD_MARKS);
	IS(nrvs_table_new(LENT(&l), 4, (UINT64_C(1) << 40) - 7), NRVS_BAD_BASE);
	IS(nrvs_table_new(LENT(&l), 4, UINT64_MAX), NRVS_BAD_BASE);
	IS(l.words[0].word[0], UINT64_C(0xABABABABABABABAB));
	IS(nrvs_table_new(LENT(&l), 4, (UINT64_C(1) << 40) - 8), NRVS_OK);
	IS(nrvs_table_map(LENT(&l), 0, 3, 0, 0, &r), NRVS_BAD_SIZE);
	IS(nrvs_table_map(LENT(&l), 0, 256, 0, 0, &r), NRVS_BAD_SIZE);
	IS(nrvs_table_map(LENT(&l), 0, NRVS_4K, 0, 8, &r), NRVS_BAD_RIGHTS);
	IS(nrvs_table_map(LENT(&l), UINT64_C(1) << 47, NRVS_4K, 0, 0, &r), NRVS_NOT_CANONICAL);
	IS(nrvs_table_map(LENT(&l), 4096, NRVS_2M, 0, 0, &r), NRVS_UNALIGNED);
	IS(nrvs_table_map(LENT(&l), 0, NRVS_1G, 4096, 0, &r), NRVS_PHYS_UNALIGNED);
	IS(nrvs_table_map(LENT(&l), 0, NRVS_4K, UINT64_C(1) << 51, 0, &r), NRVS_PHYS_RANGE);
	IS(nrvs_table_unmap(LENT(&l), 1, &r), NRVS_UNALIGNED);
	IS(nrvs_table_unmap(LENT(&l), UINT64_C(1) << 60, &r), NRVS_NOT_CANONICAL);
	IS(nrvs_table_protect(LENT(&l), 0, 256, &r), NRVS_BAD_RIGHTS);
	IS(nrvs_table_protect(LENT(&l), 8, 0, &r), NRVS_UNALIGNED);
	IS(nrvs_table_resolve(LENT(&l), UINT64_C(1) << 47, &r), NRVS_NOT_CANONICAL);
	IS(nrvs_table_access(LENT(&l), UINT64_C(1) << 47, 0, 0, &r), NRVS_NOT_CANONICAL);
	IS(nrvs_table_access(LENT(&l), 0, 2, 0, &r), NRVS_BAD_MODE);
	IS(nrvs_table_access(LENT(&l), 0, 0, 3, &r), NRVS_BAD_ACCESS);
	IS(memcmp(&r, &before, sizeof r), 0);
	take_back(&l);
}

/* Each call with a handle that is said to be damaged: none was made so, and nothing is written. */
static void refuses_handle(struct lent *l, const struct nrvs_table *damaged, uint32_t status, int line)
{
	const struct nrvs_table made = l->table;
	struct lent before = lend(l->frames);
	struct nrvs_reply r, unwritten;
	size_t count = 77;
	memset(&r, 0x55, sizeof r);
	unwritten = r;
	memcpy(before.first, l->first, l->frames * 4096);
	memcpy(before.second, l->second, l->frames * sizeof *l->marks);
	l->table = *damaged;
	is(nrvs_table_map(LENT(l), 0, NRVS_4K, 0, 0, &r), status, "map", line);
	is(nrvs_table_unmap(LENT(l), 0, &r), status, "unmap", line);
	is(nrvs_table_protect(LENT(l), 0, 0, &r), status, "protect", line);
	is(nrvs_table_resolve(LENT(l), 0, &r), status, "resolve", line);
	is(nrvs_table_access(LENT(l), 0, 0, 0, &r), status, "access", line);
	is(nrvs_table_tables(LENT(l), &count), status, "tables", line);
	is(count, 77, "count", line);
	is((uint64_t)memcmp(&l->table, damaged, sizeof *damaged), 0, "handle", line);
	is((uint64_t)memcmp(&r, &unwritten, sizeof r), 0, "reply", line);
	is((uint64_t)memcmp(before.first, l->first, l->frames * 4096), 0, "frames", line);
	is((uint64_t)memcmp(before.second, l->second, l->frames * sizeof *l->marks), 0, "marks", line);
	l->table = made;
	take_back(&before);
}

/* The handle with another number in one of its fields. */
#define DAMAGED(field, number, status) \
	do { \
		struct nrvs_table damaged = l.table; \
		damaged.field = number; \
		refuses_handle(&l, &damaged, status, __LINE__); \
	} while (0)

/* Each number of a handle just out of its range, and far out of it. Frames were freed, so that there is a last one. */
static void damaged_handles(uint64_t levels)
{
	struct lent l = lend(8);
	struct nrvs_reply r;
	size_t count;
	IS(nrvs_table_new(LENT(&l), levels, 1000), NRVS_OK);
	IS(nrvs_table_map(LENT(&l), 0, NRVS_4K, 0x7000, 0, &r), NRVS_OK);
	IS(nrvs_table_unmap(LENT(&l), 0, &r), NRVS_OK);
	IS(l.table.taken, levels);
	IS(l.table.given, levels - 1);
	DAMAGED(magic, l.table.magic ^ 1, NRVS_NO_TABLE);
	DAMAGED(levels, 3, NRVS_NO_TABLE);
	DAMAGED(levels, 6, NRVS_NO_TABLE);
	DAMAGED(levels, UINT64_MAX, NRVS_NO_TABLE);
	DAMAGED(root, 999, NRVS_NO_TABLE);
	DAMAGED(root, 1000 + levels, NRVS_NO_TABLE);
	DAMAGED(root, UINT64_MAX, NRVS_NO_TABLE);
	DAMAGED(base, 1001, NRVS_NO_TABLE);
	DAMAGED(base, 1000 - levels, NRVS_NO_TABLE);
	DAMAGED(base, UINT64_MAX, NRVS_NO_TABLE);
	DAMAGED(frames, levels - 1, NRVS_NO_TABLE);
	DAMAGED(frames, 0, NRVS_NO_TABLE);
	DAMAGED(frames, 9, NRVS_BAD_FRAMES);
	DAMAGED(taken, 9, NRVS_NO_TABLE);
	DAMAGED(taken, 0, NRVS_NO_TABLE);
	DAMAGED(taken, SIZE_MAX, NRVS_NO_TABLE);
	DAMAGED(given, levels + 1, NRVS_NO_TABLE);
	DAMAGED(given, SIZE_MAX, NRVS_NO_TABLE);
	DAMAGED(last, levels, NRVS_NO_TABLE);
	DAMAGED(last, UINT64_MAX, NRVS_NO_TABLE);
	IS(nrvs_table_tables(LENT(&l), &count), NRVS_OK);
	IS(count, 1);
	IS(nrvs_table_map(LENT(&l), 0, NRVS_4K, 0x7000, 0, &r), NRVS_OK);
	REPLIES(r, NRVS_DONE, 0, 0, 0);
	take_back(&l);
}

/* The word at the end of the path to an address, as a processor walks it. */
static uint64_t walk(const struct lent *l, uint64_t address)
{
	uint64_t number = l->table.root, word = 0;
	int level;
	for (level = (int)l->table.levels; level > 0; level--) {
		word = l->words[number - l->table.base].word[address >> (3 + 9 * level) & 511];
		if (!(word & 1) || (level < 4 && level > 1 && word & 128))
			return word;
		number = word >> 12 & ((UINT64_C(1) << 40) - 1);
	}
	return word;
}

static void answers(uint64_t levels)
{
	struct lent l = lend(16);
	struct nrvs_reply r;
	size_t count;
	const uint64_t gib = UINT64_C(1) << 30;
	IS(nrvs_table_new(LENT(&l), levels, 1000), NRVS_OK);
	IS(l.table.root, 1000);
	IS(nrvs_table_map(LENT(&l), 0x401000, NRVS_4K, 0x7000, NRVS_WRITE, &r), NRVS_OK);
	REPLIES(r, NRVS_DONE, 0, 0, 0);
	IS(walk(&l, 0x401000), UINT64_C(0x8000000000007003));
	IS(nrvs_table_map(LENT(&l), gib, NRVS_1G, 3 * gib, NRVS_USER | NRVS_EXEC, &r), NRVS_OK);
	REPLIES(r, NRVS_DONE, 0, 0, 0);
	IS(walk(&l, gib), 3 * gib + 0x85);
	IS(nrvs_table_map(LENT(&l), 0x400000, NRVS_2M, 0, 0, &r), NRVS_OK);
	REPLIES(r, NRVS_OVERLAP, 0x401000, 0, 0);
	IS(nrvs_table_resolve(LENT(&l), 0x401234, &r), NRVS_OK);
	REPLIES(r, NRVS_MAPPED, 0x7234, NRVS_4K, NRVS_WRITE);
	IS(nrvs_table_access(LENT(&l), gib + 5, NRVS_USER_MODE, NRVS_FETCH, &r), NRVS_OK);
	REPLIES(r, NRVS_ALLOWED, 3 * gib + 5, 0, 0);
	IS(nrvs_table_access(LENT(&l), gib + 5, NRVS_USER_MODE, NRVS_STORE, &r), NRVS_OK);
	REPLIES(r, NRVS_FAULT, 7, 0, 0);
	IS(nrvs_table_tables(LENT(&l), &count), NRVS_OK);
	IS(count, levels);
	IS(nrvs_table_protect(LENT(&l), 0x401000, NRVS_EXEC, &r), NRVS_OK);
	REPLIES(r, NRVS_CHANGED, 0, 0, NRVS_WRITE);
	IS(walk(&l, 0x401000), 0x7001);
	IS(nrvs_table_unmap(LENT(&l), gib + 4096, &r), NRVS_OK);
	REPLIES(r, NRVS_INSIDE, gib, 0, 0);
	IS(nrvs_table_unmap(LENT(&l), 0x401000, &r), NRVS_OK);
	REPLIES(r, NRVS_REMOVED, 0x7000, NRVS_4K, NRVS_EXEC);
	IS(walk(&l, 0x401000), 0);
	IS(nrvs_table_unmap(LENT(&l), 0x401000, &r), NRVS_OK);
	REPLIES(r, NRVS_NOT_MAPPED, 0, 0, 0);
	IS(nrvs_table_tables(LENT(&l), &count), NRVS_OK);
	IS(count, levels - 2);
	take_back(&l);
}

/* Pages until no frame is left, and off again, twice: frames that were freed are taken again. */
static void fills(uint64_t levels)
{
	struct lent l = lend(32);
	struct nrvs_reply r;
	size_t count;
	uint64_t i, room = 0;
	int round;
	IS(nrvs_table_new(LENT(&l), levels, 0), NRVS_OK);
	for (round = 0; round < 2; round++) {
		for (room = 0;; room++) {
			IS(nrvs_table_map(LENT(&l), room << 30, NRVS_4K, room << 12, NRVS_WRITE, &r), NRVS_OK);
			if (r.code == NRVS_FULL)
				break;
			IS(r.code, NRVS_DONE);
		}
		IS(room, (32 - (levels - 2)) / 2);
		for (i = 0; i < room; i++) {
			IS(nrvs_table_resolve(LENT(&l), (i << 30) + 7, &r), NRVS_OK);
			REPLIES(r, NRVS_MAPPED, (i << 12) + 7, NRVS_4K, NRVS_WRITE);
		}
		for (i = 0; i < room; i++) {
			IS(nrvs_table_unmap(LENT(&l), i << 30, &r), NRVS_OK);
			REPLIES(r, NRVS_REMOVED, i << 12, NRVS_4K, NRVS_WRITE);
		}
		IS(nrvs_table_tables(LENT(&l), &count), NRVS_OK);
		IS(count, 1);
	}
	take_back(&l);
}

/* Sets the accessed flag in each present word of a table, and the dirty flag where it maps a page, as a processor does that walks. */
static void touch(struct lent *l, uint64_t number, int level)
{
	uint64_t *words = l->words[number - l->table.base].word;
	int i;
	for (i = 0; i < 512; i++) {
		int leaf = level == 1 || (words[i] & 128);
		if (!(words[i] & 1))
			continue;
		words[i] |= leaf ? 0x60 : 0x20;
		if (!leaf)
			touch(l, words[i] >> 12 & ((UINT64_C(1) << 40) - 1), level - 1);
	}
}

/* A number below a bound, drawn. */
static uint64_t draw(uint64_t *seed, uint64_t bound)
{
	*seed = *seed * UINT64_C(6364136223846793005) + 1442695040888963407u;
	return (*seed >> 33) % bound;
}

/* One drawn call. */
static uint32_t any_call(struct lent *l, uint64_t seed, struct nrvs_reply *r)
{
	uint32_t size = (uint32_t)draw(&seed, 3), rights = (uint32_t)draw(&seed, 8);
	uint64_t bytes = UINT64_C(1) << (12 + 9 * size), kind = draw(&seed, 6);
	uint64_t address = (draw(&seed, 2) << 39) + (draw(&seed, 3) << 30) + (draw(&seed, 3) << 21) + (draw(&seed, 3) << 12);
	uint64_t base = address / bytes * bytes;
	if (kind < 2)
		return nrvs_table_map(LENT(l), base, size, draw(&seed, 64) * bytes, rights, r);
	if (kind == 2)
		return nrvs_table_unmap(LENT(l), base, r);
	if (kind == 3)
		return nrvs_table_protect(LENT(l), base, rights, r);
	if (kind == 4)
		return nrvs_table_resolve(LENT(l), address + 5, r);
	return nrvs_table_access(LENT(l), address + 5, (uint32_t)draw(&seed, 2), (uint32_t)draw(&seed, 3), r);
}

/* A page table in which a processor sets its flags before each call answers as one in which it doesn't. */
static void flags(uint64_t levels)
{
	struct lent plain = lend(12), walked = lend(12);
	uint64_t seed = 1, call;
	int round;
	IS(nrvs_table_new(LENT(&plain), levels, 500), NRVS_OK);
	IS(nrvs_table_new(LENT(&walked), levels, 500), NRVS_OK);
	for (round = 0; round < 4000; round++) {
		struct nrvs_reply r, s;
		memset(&r, 0, sizeof r);
		memset(&s, 0, sizeof s);
		call = draw(&seed, UINT64_C(1) << 31);
		touch(&walked, walked.table.root, (int)levels);
		IS(any_call(&plain, call, &r), NRVS_OK);
		IS(any_call(&walked, call, &s), NRVS_OK);
		REPLIES(s, r.code, r.number, r.size, r.rights);
		IS(memcmp(&plain.table, &walked.table, sizeof plain.table), 0);
	}
	take_back(&plain);
	take_back(&walked);
}

/* What only asks, and what is answered that it can't be done, leaves the handle and all that was lent as they were, frames that are not in
   use among it. No call writes a mark that no frame has. */
static void changes_nothing(uint64_t levels)
{
	struct lent l = lend(13), before = lend(13);
	const struct nrvs_mark unused = l.marks[12];
	uint64_t seed = 2;
	size_t count;
	int round;
	l.frames = 12;
	IS(nrvs_table_new(LENT(&l), levels, 500), NRVS_OK);
	for (round = 0; round < 4000; round++) {
		struct nrvs_reply r;
		before.table = l.table;
		memcpy(before.first, l.first, 13 * 4096);
		memcpy(before.second, l.second, 13 * sizeof *l.marks);
		IS(any_call(&l, draw(&seed, UINT64_C(1) << 31), &r), NRVS_OK);
		if (r.code == NRVS_DONE || r.code == NRVS_REMOVED || r.code == NRVS_CHANGED) {
			IS(memcmp(&l.marks[12], &unused, sizeof unused), 0);
			continue;
		}
		IS(nrvs_table_tables(LENT(&l), &count), NRVS_OK);
		IS(memcmp(&before.table, &l.table, sizeof l.table), 0);
		IS(memcmp(before.first, l.first, 13 * 4096), 0);
		IS(memcmp(before.second, l.second, 13 * sizeof *l.marks), 0);
	}
	take_back(&l);
	take_back(&before);
}

/* What only asks works where handle, frames and marks can't be written. */
static void only_reads(uint64_t levels)
{
	const size_t bytes = 13 * 4096;
	char *memory = (char *)mmap(0, bytes, PROT_READ | PROT_WRITE, MAP_PRIVATE | MAP_ANONYMOUS, -1, 0);
	struct nrvs_words *words = (struct nrvs_words *)(void *)memory;
	struct nrvs_table *table = (struct nrvs_table *)(void *)(memory + 12 * 4096);
	struct nrvs_mark *marks = (struct nrvs_mark *)(table + 1);
	struct nrvs_reply r;
	size_t count = 0;
	if (memory == (char *)MAP_FAILED)
		exit(2);
	IS(nrvs_table_new(table, words, 12, marks, 12, levels, 500), NRVS_OK);
	IS(nrvs_table_map(table, words, 12, marks, 12, 0x401000, NRVS_4K, 0x7000, NRVS_WRITE, &r), NRVS_OK);
	IS(nrvs_table_map(table, words, 12, marks, 12, 0x800000, NRVS_2M, 0x200000, NRVS_USER, &r), NRVS_OK);
	IS(nrvs_table_unmap(table, words, 12, marks, 12, 0x401000, &r), NRVS_OK);
	IS(mprotect(memory, bytes, PROT_READ), 0);
	IS(nrvs_table_resolve(table, words, 12, marks, 12, 0x800123, &r), NRVS_OK);
	REPLIES(r, NRVS_MAPPED, 0x200123, NRVS_2M, NRVS_USER);
	IS(nrvs_table_resolve(table, words, 12, marks, 12, 0x401000, &r), NRVS_OK);
	REPLIES(r, NRVS_NOT_MAPPED, 0, 0, 0);
	IS(nrvs_table_resolve(table, words, 12, marks, 12, UINT64_C(1) << 60, &r), NRVS_NOT_CANONICAL);
	IS(nrvs_table_access(table, words, 12, marks, 12, 0x800004, NRVS_USER_MODE, NRVS_READ, &r), NRVS_OK);
	REPLIES(r, NRVS_ALLOWED, 0x200004, 0, 0);
	IS(nrvs_table_access(table, words, 12, marks, 12, 0x401000, NRVS_USER_MODE, NRVS_STORE, &r), NRVS_OK);
	REPLIES(r, NRVS_FAULT, 6, 0, 0);
	IS(nrvs_table_tables(table, words, 12, marks, 12, &count), NRVS_OK);
	IS(count, levels - 1);
	IS(nrvs_table_tables(table, words, 11, marks, 12, &count), NRVS_BAD_FRAMES);
	munmap(memory, bytes);
}

int main(void)
{
	refuses();
	other_memory();
	damaged_handles(4);
	damaged_handles(5);
	answers(4);
	answers(5);
	fills(4);
	fills(5);
	flags(4);
	flags(5);
	changes_nothing(4);
	changes_nothing(5);
	only_reads(4);
	only_reads(5);
	printf("%d passed, %d failed\n", passed, failed);
	return failed != 0;
}
