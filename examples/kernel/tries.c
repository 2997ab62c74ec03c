#include "tries.h"

#include "machine.h"
#include "nrvs.h"
#include "random.h"
#include "say.h"
#include "space.h"
#include "spots.h"

uint64_t tries_made, tries_differ;

enum { PAGE_FAULT = 14, GENERAL_PROTECTION = 13 };
enum { MOST_TOLD = 8 };

static const char *const modes[] = { "supervisor", "user" };
static const char *const accesses[] = { "read", "store", "fetch" };

uint64_t word_of(uint64_t random)
{
	/* b8 n n n n cd 80 n: mov $n, %eax; int $END_VECTOR */
	return 0xb8 | (random & 0xffffffff) << 8 | (uint64_t)0xcd << 40 | (uint64_t)END_VECTOR << 48 | random >> 56 << 56;
}

/* The number that code at a word puts in EAX. */
static uint64_t number_in(uint64_t word)
{
	return word >> 8 & 0xffffffff;
}

static volatile uint64_t *memory_at(uint64_t physical)
{
	return (volatile uint64_t *)physical;
}

/* What has to come of an access, by the list of pages. */
static struct answer asked_for(const struct page *page, struct try try)
{
	const unsigned needed = (try.access == NRVS_STORE ? NRVS_WRITE : 0) | (try.access == NRVS_FETCH ? NRVS_EXEC : 0) |
				(try.mode == NRVS_USER_MODE ? NRVS_USER : 0);
	const uint64_t code = (page ? 1 : 0) | (try.access == NRVS_STORE ? 2 : 0) | (try.mode == NRVS_USER_MODE ? 4 : 0) |
			      (try.access == NRVS_FETCH ? 16 : 0);

	if (page && (page->rights & needed) == needed)
		return (struct answer){ NRVS_ALLOWED, 0, 0, page->physical + (try.address - page->base) };
	return (struct answer){ NRVS_FAULT, 0, 0, code };
}

/* Whether the library says of the access what was asked for, and the same of the address. */
static int is_told(const struct page *page, struct try try, struct answer asked, struct answer access)
{
	struct answer resolve;

	if (access.code != asked.code || access.number != asked.number || !space_resolve(try.address, &resolve))
		return 0;
	if (!page)
		return resolve.code == NRVS_NOT_MAPPED;
	return resolve.code == NRVS_MAPPED && resolve.number == page->physical + (try.address - page->base) &&
	       resolve.size == page->size && resolve.rights == page->rights;
}

/* Whether the access that was made may have got to this place of a page: it read or ran the word there, or stored this one. */
static int has_got_to(const struct page *page, struct try try, uint64_t stored)
{
	const uint64_t physical = page->physical + (try.address - page->base);

	if (try.address - page->base >= bytes_of(page->size) || (!page->is_own && !is_in_spot(physical)))
		return 0;
	if (try.access == NRVS_STORE)
		return *memory_at(physical) == stored;
	return outcome.word == (try.access == NRVS_FETCH ? number_in(*memory_at(physical)) : *memory_at(physical));
}

/* What the processor made of an access, as far as it shows: it got to this page, if any, or to another; one that is unmapped, too. */
static struct answer seen(const struct page *first, struct try try, uint64_t stored)
{
	if (outcome.vector == PAGE_FAULT)
		return (struct answer){ NRVS_FAULT, 0, 0, outcome.code };
	if (first && has_got_to(first, try, stored))
		return (struct answer){ NRVS_ALLOWED, 0, 0, first->physical + (try.address - first->base) };
	for (unsigned k = 0; k < space_count() + SPACE_GONE; k++) {
		const struct page *page = k < space_count() ? space_page(k) : space_gone(k - space_count());

		if (has_got_to(page, try, stored))
			return (struct answer){ NRVS_ALLOWED, 0, 0, page->physical + (try.address - page->base) };
	}
	return (struct answer){ NRVS_ALLOWED, 0, 0, 0 };
}

/* The access itself, which goes through the processor's TLB; so it is recorded as a touch, where a chain has such a one. */
static void make(const struct page *page, struct try try, uint64_t word)
{
	static const char *const stubs[] = { stub_of_read, stub_of_store, stub_of_fetch };
	const uint32_t call = record_call(RECORD_TOUCH, try.access, try.mode, try.address, 0);

	attempt(stubs[try.access], try.address, word, try.mode);
	if (call != RECORD_NO_CALL)
		record_answer(RECORD_TOUCH, call, seen(page, try, word));
}

/* Whether the processor faulted with this code at the address. */
static int has_faulted(struct try try, uint64_t code)
{
	return outcome.vector == PAGE_FAULT && outcome.code == code && outcome.cr2 == try.address;
}

/* Whether the processor made the access: what it read or ran is the word that was there. */
static int has_made(struct try try, uint64_t there)
{
	if (outcome.vector != END_VECTOR)
		return 0;
	return try.access == NRVS_STORE || outcome.word == (try.access == NRVS_FETCH ? number_in(there) : there);
}

/* Says of the first tries that differ what was asked for, and what came. */
static void tell(struct try try, struct answer asked, int is_same)
{
	if (tries_differ++ >= MOST_TOLD)
		return;
	say("differs: %s %s of %x: asked for ", modes[try.mode], accesses[try.access], try.address);
	if (asked.code == NRVS_ALLOWED)
		say("memory at %x", asked.number);
	else if (asked.code == NRVS_FAULT)
		say("a page fault of code %x", asked.number);
	else
		say("a general protection fault");
	say(is_same ? ", as the library says" : ", the library says otherwise");
	if (outcome.vector == END_VECTOR)
		say("; the processor made it, RAX %x\n", outcome.word);
	else
		say("; the processor took fault %u of code %x, CR2 %x\n", outcome.vector, outcome.code, outcome.cr2);
}

/* An address that isn't canonical: the library refuses it, and the processor faults in another way. */
static void try_not_canonical(struct try try)
{
	make(0, try, 0);
	if (outcome.vector != GENERAL_PROTECTION || outcome.code != 0)
		tell(try, (struct answer){ NRVS_DONE, 0, 0, 0 }, 1);
}

void try_access(struct try try)
{
	const struct page *page = space_page_at(try.address);
	const struct answer asked = asked_for(page, try);
	const uint64_t word = word_of(random_word()), other = word_of(random_word());
	struct answer access;
	volatile uint64_t *memory = 0;
	uint64_t there = 0;
	int is_same, is_done;

	tries_made++;
	if (!space_access(try.address, try.mode, try.access, &access)) {
		try_not_canonical(try);
		return;
	}
	is_same = is_told(page, try, asked, access);
	if (page) {
		memory = memory_at(page->physical + (try.address - page->base));
		if (!page->is_own)
			*memory = word;
		there = *memory;
	}
	make(page, try, other);
	is_done = asked.code == NRVS_FAULT ? has_faulted(try, asked.number) : has_made(try, there);
	if (memory)
		is_done &= *memory == (asked.code == NRVS_ALLOWED && try.access == NRVS_STORE ? other : there);
	is_done &= (outcome.cs & 3) == (try.mode == NRVS_USER_MODE ? 3 : 0);
	if (!is_same || !is_done)
		tell(try, asked, is_same);
}

/* While the processor walks the boot tables: below their end each address leads to itself. */
void try_boot_pages(void)
{
	for (unsigned k = 0; k <= SPOTS; k++) {
		const uint64_t address = k < SPOTS ? spots[k] + random_word() % SPOT_BYTES / 8 * 8 : BOOT_END + random_word() % BOOT_END / 8 * 8;
		const struct page itself = { .base = spots[k % SPOTS], .physical = spots[k % SPOTS], .size = NRVS_2M, .rights = 7 };
		const struct page *page = k < SPOTS ? &itself : 0;

		for (unsigned k = 0; k < 6; k++) {
			const struct try try = { address, k % 2, k / 2 };
			const struct answer asked = asked_for(page, try);
			const uint64_t word = word_of(random_word());

			tries_made++;
			if (page)
				*memory_at(address) = word;
			make(page, try, word);
			if (page ? !has_made(try, word) : !has_faulted(try, asked.number))
				tell(try, asked, 1);
		}
	}
}

void try_all(uint64_t address)
{
	struct try try = { address, 0, 0 };

	for (try.mode = NRVS_SUPERVISOR; try.mode <= NRVS_USER_MODE; try.mode++)
		for (try.access = NRVS_READ; try.access <= NRVS_FETCH; try.access++)
			try_access(try);
}
