#include "rounds.h"

#include "nrvs.h"
#include "random.h"
#include "say.h"
#include "space.h"
#include "spots.h"
#include "tries.h"

enum { FEW_PAGES = 16, MANY_PAGES = 48 };

unsigned largest_size = NRVS_1G;

/* The kernel's own addresses lie below this one, and pages that come and go above it. */
#define OWN_END (UINT64_C(1) << 33)

/* The address with these translated bits: the highest of them is that of all bits above. */
static uint64_t canonical(uint64_t bits)
{
	const unsigned unused = space_levels() == 5 ? 7 : 16;

	return (uint64_t)((int64_t)(bits << unused) >> unused);
}

/* A multiple of 4,096 whose indexes are often those of other draws, so that pages meet and share tables. */
static uint64_t draw_base(void)
{
	static const unsigned indexes[] = { 0, 1, 2, 255, 256, 511 };
	uint64_t bits;

	do {
		bits = 0;
		for (unsigned level = 0; level < space_levels(); level++)
			bits = bits << 9 | (random_below(8) == 0 ? random_below(512) : indexes[random_below(6)]);
		bits = canonical(bits << 12);
	} while (bits < OWN_END);
	return bits;
}

static unsigned draw_size(void)
{
	static const unsigned sizes[] = { NRVS_4K, NRVS_4K, NRVS_4K, NRVS_2M, NRVS_2M, NRVS_1G };
	const unsigned size = sizes[random_below(6)];

	return size < largest_size ? size : largest_size;
}

static uint64_t draw_physical(unsigned size)
{
	if (size == NRVS_1G)
		return regions[random_below(REGIONS)];
	return spots[random_below(SPOTS)] + (size == NRVS_2M ? 0 : (uint64_t)random_below(512) * 4096);
}

/* How many pages aren't the kernel's own. */
static unsigned count_pages(void)
{
	unsigned count = 0;

	for (unsigned k = 0; k < space_count(); k++)
		count += !space_page(k)->is_own;
	return count;
}

/* A page that isn't the kernel's own, all of which come first; or null. */
static const struct page *draw_page(void)
{
	const unsigned count = count_pages();

	return count == 0 ? 0 : space_page(space_count() - count + random_below(count));
}

/* An address of a page whose memory there is of a spot. */
static uint64_t address_in(const struct page *page)
{
	return page->base + (spot_address(page->physical, bytes_of(page->size)) - page->physical);
}

/* The address, or another of the page that covers it, so that it can be tried. */
static uint64_t settled(uint64_t address)
{
	const struct page *page = space_page_at(address);

	if (!page || page->is_own || is_in_spot(page->physical + (address - page->base)))
		return address;
	return address_in(page);
}

static uint64_t not_canonical(void)
{
	const unsigned translated = space_levels() == 5 ? 57 : 48;

	return draw_base() ^ (uint64_t)1 << (translated + random_below(64 - translated));
}

static void try_some(unsigned number)
{
	while (number-- > 0) {
		const struct page *page = random_below(4) != 0 ? draw_page() : 0;
		uint64_t address = page ? address_in(page) : settled(draw_base() + random_word() % 4096 / 8 * 8);

		if (random_below(16) == 0)
			address = not_canonical();
		try_access((struct try){ address, random_below(2), random_below(3) });
	}
}

void rounds_map_first_pages(void)
{
	const unsigned middle = space_levels() == 5 ? 56 : 47;

	for (unsigned size = NRVS_4K; size <= largest_size; size++) {
		for (unsigned rights = 0; rights < 8; rights++) {
			const uint64_t half = canonical((rights & 1 ? (uint64_t)1 << middle : 0) | (uint64_t)(size + 1) << (middle - 4));
			const struct page page = {
				.base = half + rights * bytes_of(size), .physical = draw_physical(size), .size = size, .rights = rights,
			};
			const unsigned code = space_map(&page);

			if (code != NRVS_DONE)
				stop("a first page isn't mapped:", code);
		}
	}
}

void rounds_try_first_pages(void)
{
	for (unsigned k = 0; k < space_count(); k++)
		if (!space_page(k)->is_own)
			try_all(address_in(space_page(k)));
	try_all((uint64_t)spare_text);
	try_all((uint64_t)spare_data);
	try_all((uint64_t)spare_constant);
	try_all(not_canonical());
	try_all(0);
}

/* A page to be mapped: anywhere, or where another one is. */
static struct page draw_new_page(void)
{
	struct page page = { .size = draw_size(), .rights = random_below(8) };
	const struct page *other = random_below(8) == 0 ? draw_page() : 0;

	page.base = (other ? other->base : draw_base()) & ~(bytes_of(page.size) - 1);
	page.physical = draw_physical(page.size);
	return page;
}

/* The address at which a page is unmapped or changed: mostly at its begin, at times inside of it or where there may be none. */
static uint64_t draw_begin(void)
{
	const struct page *page = random_below(8) != 0 ? draw_page() : 0;

	if (!page)
		return draw_base();
	return random_below(8) != 0 ? page->base : address_in(page) & ~(uint64_t)4095;
}

enum update_kind { MAP, UNMAP, PROTECT };

/* An update, of the page that begins at page.base; an unmap uses no more of the page than that, and a protect its rights. */
struct update {
	enum update_kind kind;
	struct page page;
};

static struct update draw_update(void)
{
	const unsigned count = count_pages(), draw = random_below(8);

	if (count < FEW_PAGES || (draw < 4 && count < MANY_PAGES))
		return (struct update){ MAP, draw_new_page() };
	return (struct update){ draw < 6 ? UNMAP : PROTECT, { .base = draw_begin(), .rights = random_below(8) } };
}

static void make(const struct update *update)
{
	if (update->kind == MAP)
		space_map(&update->page);
	else if (update->kind == UNMAP)
		space_unmap(update->page.base);
	else
		space_protect(update->page.base, update->page.rights);
}

void rounds_do(void)
{
	const struct update update = draw_update();
	const uint64_t inside = update.page.base + random_word() % 512 * 8;
	const uint64_t address = settled(update.kind == MAP ? address_in(&update.page) : inside);

	/* so that the processor has something to keep */
	try_access((struct try){ address, random_below(2), NRVS_READ });
	try_access((struct try){ address, random_below(2), random_below(3) });
	make(&update);
	try_all(settled(address));
	try_some(4);
}
