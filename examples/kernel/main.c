/* A kernel that runs on the library's page table, and tries what the library says of it on the processor. */
#include "leave.h"
#include "machine.h"
#include "nrvs.h"
#include "plant.h"
#include "random.h"
#include "rounds.h"
#include "say.h"
#include "space.h"
#include "spots.h"
#include "tries.h"

/* What the loader passes (PVH): no more of it than this kernel reads. */
struct start_info {
	uint32_t magic, version, flags, modules;
	uint64_t modules_at, command_line;
};

/* The command line: four numbers, of which the first has one digit; the last says whether what is recorded is sent. */
struct settings {
	uint64_t levels, seed, rounds, sends_trace;
};

enum { ROUNDS_OF_SEGMENT = 50 };

uint64_t random_state;

extern const char text_begin[], text_end[], stubs_end[], rodata_end[], data_end[], large_begin[], large_end[];

static uint64_t read_number(const char **text)
{
	uint64_t number = 0;

	while (**text == ' ')
		++*text;
	for (; **text >= '0' && **text <= '9'; ++*text)
		number = number * 10 + (uint64_t)(**text - '0');
	return number;
}

static struct settings read_settings(const struct start_info *info)
{
	const char *text = (const char *)info->command_line;
	struct settings settings;

	settings.levels = read_number(&text);
	settings.seed = read_number(&text);
	settings.rounds = read_number(&text);
	settings.sends_trace = read_number(&text);
	return settings;
}

/* Pages for the kernel's own memory, each at its own address. */
static void map_own(uint64_t from, uint64_t to, unsigned size, unsigned rights)
{
	struct page page = { .size = size, .rights = rights, .is_own = 1 };
	unsigned code;

	for (; from < to; from += bytes_of(size)) {
		page.base = page.physical = from;
		code = space_map(&page);
		if (code != NRVS_DONE)
			stop("a page of the kernel's own isn't mapped:", code);
	}
}

static void build(unsigned levels)
{
	space_leave_boot_pages();
	space_begin(levels);
	map_own((uint64_t)text_begin, (uint64_t)text_end, NRVS_4K, NRVS_EXEC);
	map_own((uint64_t)text_end, (uint64_t)stubs_end, NRVS_4K, NRVS_EXEC | NRVS_USER);
	map_own((uint64_t)stubs_end, (uint64_t)rodata_end, NRVS_4K, 0);
	map_own((uint64_t)rodata_end, (uint64_t)data_end, NRVS_4K, NRVS_WRITE);
	map_own((uint64_t)large_begin, (uint64_t)large_end, NRVS_2M, NRVS_WRITE);
	for (unsigned k = 0; k < SPOTS; k++)
		map_own(spots[k], spots[k] + SPOT_BYTES, NRVS_2M, NRVS_WRITE);
	rounds_map_first_pages();
}

/* What answers depend on (docs/FORMATS.md): NX and WP on; PG, PAE and LA57 are since boot.S. */
static void set_processor(void)
{
	write_msr(MSR_EFER, read_msr(MSR_EFER) | EFER_NXE);
	if (!is_planted(PLANT_WP))
		write_cr0(read_cr0() | CR0_WP);
}

static void enter(void)
{
	write_cr3((space_root() + is_planted(PLANT_ROOT)) * 4096);
}

static void check_processor(uint64_t levels)
{
	uint32_t a = 0x80000001, b, c, d;

	__asm__("cpuid" : "+a"(a), "=b"(b), "=c"(c), "=d"(d));
	if (!(d >> 20 & 1))
		stop("the processor has no NX:", d);
	if (!(d >> 26 & 1)) {
		say("without pages of 1 GiB, which the processor doesn't have\n");
		largest_size = NRVS_2M;
	}
	if (levels == 5 && !(read_cr4() & CR4_LA57)) {
		say("skipped: the processor has no five levels\n");
		machine_leave(LEAVE_SKIPPED);
	}
	if (!spots_are_there())
		stop("there is less memory than 4 GiB, or it lies otherwise", 0);
}

static void tell_end(void)
{
	uint64_t accessed, dirty;

	space_count_flags(&accessed, &dirty);
	say("%u tables, in which the processor marked %u entries as accessed and %u as dirty; %u ticks of the clock\n", space_tables(),
	    accessed, dirty, ticks);
	say("%u tried, %u differ\n", tries_made, tries_differ);
}

_Noreturn void kernel(const struct start_info *info)
{
	const struct settings settings = read_settings(info);

	machine_begin();
	check_processor(settings.levels);
	random_state = settings.seed;
	*spare_text = word_of(random_word());
	*spare_constant = word_of(random_word());
	*spare_data = word_of(random_word());
	set_processor();
	machine_start_clock();
	record_begin((unsigned)settings.levels, read_cr3() / 4096, SPACE_TABLES, settings.sends_trace != 0);
	try_boot_pages();
	build((unsigned)settings.levels);
	enter();
	say("%u levels, root at %x, %u pages, seed %u\n", settings.levels, space_root() * 4096, (uint64_t)space_count(), settings.seed);
	rounds_try_first_pages();
	say("first pages: %u tried, %u differ\n", tries_made, tries_differ);
	for (uint64_t round = 1; round <= settings.rounds; round++) {
		rounds_do();
		if (round % 10 == 0)
			say("round %u: %u tried, %u differ\n", round, tries_made, tries_differ);
		if (round % ROUNDS_OF_SEGMENT == 0)
			record_cut();
	}
	record_end(space_root());
	tell_end();
	machine_leave(tries_differ == 0 ? LEAVE_PASSED : LEAVE_DIFFERS);
}

/* A fault while no access is tried. */
_Noreturn void unexpected(void)
{
	say("fault %u, code %x, at %x, address %x\n", outcome.vector, outcome.code, outcome.rip, outcome.cr2);
	stop("a fault that no access made", outcome.vector);
}
