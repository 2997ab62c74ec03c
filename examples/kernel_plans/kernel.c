/* A kernel whose page tables are changed by plans, on four processors: one changes them, while three walk them and set flags in them. Its
 * frames come from an allocator, and two address spaces have their upper half in common. Each access has to find what the pages were before
 * the call under way, or what they are after it; after the shootdown, the latter. A page that was written has to be said to be dirty. All
 * changes and some of the accesses are recorded.
 */
#include "../kernel/leave.h"
#include "../kernel/machine.h"
#include "../kernel/say.h"
#include "changes.h"
#include "plant.h"
#include "processors.h"
#include "record.h"
#include "slots.h"

#define FIRST_FRAME UINT64_C(0x2000) /* at 32 MiB */

_Noreturn void kernel(const char *line);

unsigned processor_group(unsigned processor)
{
	(void)processor;
	return 0;
}

uint64_t processor_root(unsigned processor)
{
	return targets[processor % SPACES].root * 4096;
}

void processor_turn(unsigned processor, uint64_t *seed)
{
	slots_access(slots_draw(seed), processor % SPACES, 0, processor, seed);
}

/* No fault is of a table that lags. */
int page_faulted(uint64_t code, uint64_t address)
{
	(void)code, (void)address;
	return 0;
}

/* A root without an entry: its upper half is one table, or that of another root. */
static uint64_t begin_root(uint64_t upper)
{
	const uint64_t root = pool_take(&pool);
	for (unsigned i = 0; i < 512; i++)
		frame_words(root)[i] = 0;
	frame_words(root)[256] = upper << 12 | 7;
	return root;
}

/* Two address spaces: all memory at its own address, and one upper half. */
static void begin_spaces(uint32_t levels)
{
	uint64_t upper;
	pool_begin(&pool, FIRST_FRAME, MOST_FRAMES, 0);
	upper = pool_take(&pool);
	for (unsigned i = 0; i < 512; i++)
		frame_words(upper)[i] = 0;
	for (unsigned k = 0; k < SPACES; k++) {
		targets[k] = (struct nrvs_target){ .root = begin_root(upper), .levels = levels, .phys_bits = 40 };
		for (uint64_t g = 0; g < 4; g++) {
			struct nrvs_plan plan;
			plans_run(&pool, &plan, nrvs_plan_map(&plan, &targets[k], g << 30, NRVS_1G, g << 30, NRVS_WRITE | NRVS_EXEC, 0));
			if (plan.reply.code != NRVS_DONE)
				stop("a map is answered", plan.reply.code);
		}
	}
	write_cr3(targets[0].root * 4096);
}

/* The segments end while no processor makes an access. */
static void cut(void)
{
	processors_hold();
	changes_cut();
	processors_release();
}

/* Two changes of one slot, between which the processors make no access, so that a page that was just mapped is not accessed yet. They are
 * released when the second one's words were shown, and set flags before its stores.
 */
static void change_twice(uint64_t *seed)
{
	unsigned slot;
	processors_hold();
	slot = changes_make(SLOTS, seed);
	plans_meanwhile = 200;
	changes_make(slot, seed);
	plans_meanwhile = 0;
	processors_release();
}

/* Whether a planted mistake was seen: memory that is given away too early isn't seen here. Where no processor flushes, also in what was
 * recorded. One or two of these accesses may come before the replies to the change are recorded, and so be right there.
 */
static int is_seen(void)
{
	if (is_planted(PLANT_GIVEN))
		return 1;
	return is_planted(PLANT_SHOOTDOWN) ? slots_recorded() > 8 : slots_differ() + slots_lost() > 0;
}

/* A planted mistake that was seen needs few more changes. */
static void change_all(uint64_t changes)
{
	const uint64_t few = is_planted(PLANT_NONE) ? changes : 60;
	uint64_t seed = 1;
	for (uint64_t k = 0; k < changes && (k < few || !is_seen()); k++) {
		if (record_is_full())
			cut();
		if (k % 4 == 0)
			change_twice(&seed);
		else
			changes_make(SLOTS, &seed);
		wait_for_accesses(draw(&seed, 32));
	}
}

static uint64_t number_in(const char **line)
{
	uint64_t number = 0;
	for (; **line >= '0' && **line <= '9'; ++*line)
		number = number * 10 + (uint64_t)(**line - '0');
	while (**line == ' ')
		++*line;
	return number;
}

/* The line has the levels, the number of changes, and 1 where what is recorded is sent. */
_Noreturn void kernel(const char *line)
{
	const uint64_t levels = number_in(&line), changes = number_in(&line), is_sent = number_in(&line);
	ports_begin();
	processors_set_gates();
	begin_spaces((uint32_t)levels);
	slots_begin((unsigned)levels);
	slots_fill();
	for (unsigned k = 0; k < SPACES; k++)
		record_begin(k, 1, &targets[k], is_sent != 0);
	processors_start();
	say("%u processors, two address spaces of %u levels, %u frames\n", (uint64_t)PROCESSORS, levels, (uint64_t)MOST_FRAMES);
	change_all(changes);
	processors_stop();
	for (unsigned k = 0; k < SPACES; k++) {
		record_dump(k, 0, changes_placed(k), targets[k].root);
		record_end(k);
	}
	say("%u changes, %u of them splits, %u shootdowns, %u flags met, %u frames left\n", changes, pool.fills, pool.shootdowns,
	    pool.flags_met, (uint64_t)pool.left);
	slots_say();
	machine_leave(slots_differ() + slots_lost() == 0 ? LEAVE_PASSED : LEAVE_DIFFERS);
}
