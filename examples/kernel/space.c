#include "space.h"

#include "machine.h"
#include "nrvs.h"
#include "plant.h"
#include "say.h"

/* What the library is lent. The kernel's addresses are physical ones, so frame number and place agree. */
static struct nrvs_words frames[SPACE_TABLES] __attribute__((section(".bss.large"), aligned(4096)));
static struct nrvs_mark marks[SPACE_TABLES];
static struct nrvs_table table;

#define LENT &table, frames, SPACE_TABLES, marks, SPACE_TABLES

static struct page pages[SPACE_PAGES], gone[SPACE_GONE];
static unsigned count, gone_count;

static void must(uint32_t status)
{
	if (status != NRVS_OK)
		stop("the library's status is", status);
}

static struct page *find(uint64_t address)
{
	for (unsigned k = 0; k < count; k++)
		if (address - pages[k].base < bytes_of(pages[k].size))
			return &pages[k];
	return 0;
}

static struct answer answer_of(struct nrvs_reply reply)
{
	return (struct answer){ reply.code, reply.size, reply.rights, reply.number };
}

void space_begin(unsigned levels)
{
	must(nrvs_table_new(LENT, levels, (uint64_t)frames / 4096));
	count = 0;
}

uint64_t space_root(void)
{
	return table.root;
}

unsigned space_levels(void)
{
	return (unsigned)table.levels;
}

/* The processor drops what it kept of a page. By the SDM one invlpg does that, whatever the page's size; QEMU 7.2 keeps code that it
 * has translated from elsewhere in a page of 2 MiB or 1 GiB, so for these CR3 is loaded again too.
 */
static void flush(uint64_t base, unsigned size)
{
	if (is_planted(PLANT_FLUSH))
		return;
	flush_page(base);
	if (size != NRVS_4K)
		write_cr3(table.root * 4096);
}

unsigned space_map(const struct page *page)
{
	const uint32_t call = record_call(RECORD_MAP, page->size, page->rights, page->base, page->physical);
	struct nrvs_reply reply;
	uint64_t physical = page->physical;
	uint32_t rights = page->rights;

	if (!page->is_own && is_planted(PLANT_RIGHT))
		rights ^= NRVS_WRITE;
	if (!page->is_own && is_planted(PLANT_FRAME))
		physical += bytes_of(page->size);
	must(nrvs_table_map(LENT, page->base, page->size, physical, rights, &reply));
	record_answer(RECORD_MAP, call, answer_of(reply));
	if (reply.code == NRVS_DONE) {
		if (count == SPACE_PAGES)
			stop("too many pages:", count);
		pages[count++] = *page;
	}
	return reply.code;
}

unsigned space_unmap(uint64_t base)
{
	const uint32_t call = record_call(RECORD_UNMAP, 0, 0, base, 0);
	struct nrvs_reply reply;

	must(nrvs_table_unmap(LENT, base, &reply));
	if (reply.code == NRVS_REMOVED) {
		struct page *page = find(base);

		flush(base, page->size);
		gone[gone_count++ % SPACE_GONE] = *page;
		*page = pages[--count];
	}
	record_answer(RECORD_UNMAP, call, answer_of(reply));
	return reply.code;
}

unsigned space_protect(uint64_t base, unsigned rights)
{
	const uint32_t call = record_call(RECORD_PROTECT, 0, rights, base, 0);
	struct nrvs_reply reply;

	must(nrvs_table_protect(LENT, base, rights, &reply));
	if (reply.code == NRVS_CHANGED) {
		find(base)->rights = rights;
		flush(base, find(base)->size);
	}
	record_answer(RECORD_PROTECT, call, answer_of(reply));
	return reply.code;
}

/* The status of a read: good exactly where a trace has such a call. */
static int is_answered(uint32_t status, enum record_kind kind, uint32_t call, struct nrvs_reply reply, struct answer *answer)
{
	if ((call == RECORD_NO_CALL) != (status == NRVS_NOT_CANONICAL))
		stop("the recorder takes what the library refuses, or refuses what it takes:", status);
	if (status == NRVS_NOT_CANONICAL)
		return 0;
	must(status);
	*answer = answer_of(reply);
	record_answer(kind, call, *answer);
	return 1;
}

int space_resolve(uint64_t address, struct answer *answer)
{
	const uint32_t call = record_call(RECORD_RESOLVE, 0, 0, address, 0);
	struct nrvs_reply reply = { 0 };
	const uint32_t status = nrvs_table_resolve(LENT, address, &reply);

	return is_answered(status, RECORD_RESOLVE, call, reply, answer);
}

int space_access(uint64_t address, unsigned mode, unsigned access, struct answer *answer)
{
	const uint32_t call = record_call(RECORD_ACCESS, access, mode, address, 0);
	struct nrvs_reply reply = { 0 };
	uint32_t asked = access, status;

	if (is_planted(PLANT_ACCESS) && access == NRVS_STORE)
		asked = NRVS_READ;
	status = nrvs_table_access(LENT, address, mode, asked, &reply);
	return is_answered(status, RECORD_ACCESS, call, reply, answer);
}

const struct page *space_page_at(uint64_t address)
{
	return find(address);
}

const struct page *space_page(unsigned k)
{
	return &pages[k];
}

const struct page *space_gone(unsigned k)
{
	return &gone[k];
}

unsigned space_count(void)
{
	return count;
}

void space_leave_boot_pages(void)
{
	for (uint64_t base = 0; base < BOOT_END; base += bytes_of(NRVS_2M)) {
		const uint32_t call = record_call(RECORD_UNMAP, 0, 0, base, 0);

		record_answer(RECORD_UNMAP, call, (struct answer){ NRVS_REMOVED, NRVS_2M, NRVS_WRITE | NRVS_USER | NRVS_EXEC, base });
	}
}

void space_count_flags(uint64_t *accessed, uint64_t *dirty)
{
	*accessed = *dirty = 0;
	for (unsigned i = 0; i < SPACE_TABLES; i++) {
		for (unsigned k = 0; k < 512; k++) {
			const uint64_t word = ((volatile uint64_t *)frames[i].word)[k];

			*accessed += word & 1 && word >> 5 & 1;
			*dirty += word & 1 && word >> 6 & 1;
		}
	}
}

uint64_t space_tables(void)
{
	size_t tables;

	must(nrvs_table_tables(LENT, &tables));
	return tables;
}
