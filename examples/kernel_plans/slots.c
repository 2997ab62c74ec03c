#include "slots.h"

#include "../kernel/say.h"
#include "record.h"

#define FIRST_PAGE UINT64_C(0x4000000) /* at 64 MiB: what the slots' pages lead to, 2 MiB each */

enum { NOWHERE = 2 };

struct slot slots[SLOTS];
static struct slot *changed_last = slots;
static uint64_t accesses, differ, recorded, lost;
static uint64_t first[6];
int try_read(uint64_t address, uint64_t *word);
int try_write(uint64_t address, uint64_t word);

uint64_t draw(uint64_t *seed, uint64_t bound)
{
	*seed = *seed * UINT64_C(6364136223846793005) + UINT64_C(1442695040888963407);
	return (*seed >> 33) % bound;
}

/* ---- what the pages lead to ---- */

/* A slot has two pages of memory, one of which it leads to: of 1 GiB the first GiB or the second, from 128 MiB on. */
uint64_t page_of(const struct slot *slot, unsigned which)
{
	return slot->size == NRVS_1G ? (uint64_t)which << 30 : FIRST_PAGE + (2 * (uint64_t)(slot - slots) + which) * UINT64_C(0x200000);
}

/* The offsets at which accesses are made: in each page of a slot there is one, or in each of the 512 parts of a large page. */
static uint64_t offset_of(const struct slot *slot, unsigned part)
{
	return part * bytes_of(slot->size == NRVS_4K ? NRVS_4K : slot->size - 1);
}

static uint64_t part_of(const struct slot *slot, uint64_t offset)
{
	return offset / bytes_of(slot->size == NRVS_4K ? NRVS_4K : slot->size - 1);
}

static unsigned first_part(const struct slot *slot)
{
	return slot->size == NRVS_1G ? 64 : 0;
}

static uint64_t tag_of(const struct slot *slot, unsigned which, uint64_t offset)
{
	return UINT64_C(0x7a61000000000000) + (offset >> 12 << 16) + 2 * (uint64_t)(slot - slots) + which;
}

void slots_begin(unsigned levels)
{
	const uint64_t low = UINT64_C(0x8000000000), high = -(UINT64_C(1) << (11 + 9 * levels));
	for (unsigned k = 0; k < SLOTS; k++) {
		struct slot *slot = &slots[k];
		const uint64_t half = k < 8 ? high : low;
		slot->space = k < 8 ? ALL_SPACES : k % ALL_SPACES;
		slot->size = k % 8 == 7 ? NRVS_2M : k == 6 ? NRVS_1G : NRVS_4K;
		slot->parts = slot->size == NRVS_4K ? 1 : PARTS;
		if (slot->size == NRVS_4K)
			slot->base = half + (k % 8 / 4 << 30) + (k % 8 / 2 << 21) + (k % 2 << 16);
		else
			slot->base = half + ((uint64_t)(slot->size + 1) << 30);
	}
}

void slots_fill(void)
{
	for (struct slot *slot = slots; slot < slots + SLOTS; slot++)
		for (unsigned part = first_part(slot); part < slot->parts; part++)
			for (unsigned which = 0; which < 2; which++)
				*(uint64_t *)(page_of(slot, which) + offset_of(slot, part)) = tag_of(slot, which, offset_of(slot, part));
}

/* ---- states ---- */

struct state slot_state(const struct slot *slot)
{
	return slot->was[slot->next % HISTORY];
}

int slots_lead_to(const struct slot *but, uint64_t physical, uint64_t bytes)
{
	for (const struct slot *slot = slots; slot < slots + SLOTS; slot++) {
		const struct state state = slot_state(slot);
		const uint64_t page = page_of(slot, state.which);
		if (slot != but && state.mapped && page < physical + bytes && physical < page + bytes_of(slot->size))
			return 1;
	}
	return 0;
}

void slot_begins(struct slot *slot, struct state state)
{
	__atomic_store_n(&changed_last, slot, __ATOMIC_SEQ_CST);
	slot->was[(slot->next + 1) % HISTORY] = state;
	__atomic_store_n(&slot->next, slot->next + 1, __ATOMIC_SEQ_CST);
}

void slot_ends(struct slot *slot)
{
	__atomic_store_n(&slot->done, slot->next, __ATOMIC_SEQ_CST);
}

/* ---- accesses ---- */

/* One that was made: `result` is 1, or twice the fault's error code; `word` was read, or is the one that was written. */
struct access {
	const struct slot *slot;
	uint64_t offset, word;
	int is_write, result;
};

/* Which of the slot's two pages an access got to, as the memory shows. */
static unsigned found(const struct access *access)
{
	for (unsigned which = 0; which < 2; which++) {
		const volatile uint64_t *at = (const volatile uint64_t *)(page_of(access->slot, which) + access->offset);
		if (access->word == (access->is_write ? *at : tag_of(access->slot, which, access->offset)))
			return which;
	}
	return NOWHERE;
}

static int fits(const struct access *access, struct state state, unsigned which)
{
	const int is_there = state.mapped && !is_missing(state, part_of(access->slot, access->offset));
	const int is_allowed = is_there && (!access->is_write || state.writable);
	return access->result == 1 ? is_allowed && which == state.which : !is_allowed;
}

/* Whether the page was so at some time from one state to another; they are those that were there meanwhile, where these are known. */
static int compare(const struct access *access, unsigned which, uint64_t from, uint64_t to)
{
	const struct slot *slot = access->slot;
	int is_found = 0;
	if (to - from >= HISTORY / 2)
		return 1;
	for (uint64_t k = from; k <= to; k++)
		is_found |= fits(access, slot->was[k % HISTORY], which);
	if (!is_found && __atomic_fetch_add(&differ, 1, __ATOMIC_SEQ_CST) == 0) {
		first[0] = (uint64_t)(slot - slots), first[1] = (uint64_t)access->is_write, first[2] = (uint64_t)access->result;
		first[3] = access->word, first[4] = from, first[5] = to;
	}
	__atomic_fetch_add(&accesses, 1, __ATOMIC_SEQ_CST);
	return is_found;
}

/* With interrupts off, so that a shootdown comes before it or after all of it is written down. */
static void make(struct access *access, struct slot *slot)
{
	__asm__ volatile("cli" : : : "memory");
	if (access->is_write)
		access->result = try_write(slot->base + access->offset, access->word);
	else
		access->result = try_read(slot->base + access->offset, &access->word);
	if (access->is_write && access->result == 1)
		__atomic_store_n(&slot->written, 1, __ATOMIC_SEQ_CST);
	__asm__ volatile("sti" : : : "memory");
}

struct wish slots_draw(uint64_t *seed)
{
	struct slot *slot = draw(seed, 2) ? __atomic_load_n(&changed_last, __ATOMIC_SEQ_CST) : &slots[draw(seed, SLOTS)];
	return (struct wish){ slot, draw(seed, 2) != 0 };
}

void slots_access(struct wish wish, unsigned space, unsigned copy, unsigned processor, uint64_t *seed)
{
	struct slot *slot = wish.slot;
	struct access access = { .slot = slot, .is_write = wish.is_write };
	uint64_t from;
	uint32_t call;
	unsigned which;
	if (slot->space != ALL_SPACES && slot->space != space)
		return;
	access.offset = offset_of(slot, first_part(slot) + (unsigned)draw(seed, slot->parts - first_part(slot)));
	access.offset += access.is_write ? 64 + 8 * processor : 0;
	access.word = access.is_write ? *seed : 0;
	from = __atomic_load_n(&slot->done, __ATOMIC_SEQ_CST);
	call = record_touch(space, copy, processor, slot->base + access.offset, access.is_write);
	make(&access, slot);
	which = access.result == 1 ? found(&access) : NOWHERE;
	if (access.result != 1)
		record_touched(space, call, nrvs_fault((uint64_t)access.result / 2));
	else
		record_touched(space, call, nrvs_allowed(which == NOWHERE ? 0 : page_of(slot, which) + access.offset));
	if (slot->is_contended)
		return;
	if (!compare(&access, which, from, __atomic_load_n(&slot->next, __ATOMIC_SEQ_CST)) && call != NRVS_NONE)
		__atomic_fetch_add(&recorded, 1, __ATOMIC_SEQ_CST);
}

void slots_lose(void)
{
	__atomic_fetch_add(&lost, 1, __ATOMIC_SEQ_CST);
}

uint64_t slots_accesses(void)
{
	return __atomic_load_n(&accesses, __ATOMIC_SEQ_CST);
}

uint64_t slots_differ(void)
{
	return __atomic_load_n(&differ, __ATOMIC_SEQ_CST);
}

uint64_t slots_recorded(void)
{
	return __atomic_load_n(&recorded, __ATOMIC_SEQ_CST);
}

uint64_t slots_lost(void)
{
	return lost;
}

void slots_say(void)
{
	if (slots_differ())
		say("first: slot %u, write %u, result %u, word %x, states %u to %u\n", first[0], first[1], first[2], first[3], first[4], first[5]);
	say("%u accesses, %u differ, %u dirty flags lost\n", slots_accesses(), slots_differ(), lost);
}
