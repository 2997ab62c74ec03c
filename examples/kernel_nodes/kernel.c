/* A kernel with a copy of its page tables on each memory node, on four processors: two of them change pages at once, on different nodes,
 * while all access them, each by the tables of its own node. Each access has to find what the pages were before the call under way, or what
 * they are after it; after the call, the latter. All changes and some of the accesses are recorded, as one chain of all nodes.
 */
#include "../kernel/leave.h"
#include "../kernel/machine.h"
#include "../kernel/say.h"
#include "nodes.h"
#include "plant.h"
#include "record.h"
#include "slots.h"
#include "updates.h"

enum { BETWEEN_STALLS = 20 };

static uint64_t changes, stalls, made[CHANGERS];
static int is_seen; /* a mistake, in a stall, and so in what was recorded */
static uint32_t accesses_left[CHANGERS];
_Noreturn void kernel(const char *line, const void *tables);

unsigned processor_group(unsigned processor)
{
	return node_of(processor);
}

uint64_t processor_root(unsigned processor)
{
	return node_target(node_of(processor))->root * 4096;
}

/* A changer makes a change between some accesses; the others access alone. One that is let while it is held makes the wished access. */
void processor_turn(unsigned processor, uint64_t *seed)
{
	if (updates_wish.slot != 0) {
		slots_access(updates_wish, 0, node_of(processor), processor, seed);
		return;
	}
	if (processor >= CHANGERS || accesses_left[processor]-- > 0 || made[processor] >= changes) {
		slots_access(slots_draw(seed), 0, node_of(processor), processor, seed);
		return;
	}
	accesses_left[processor] = (uint32_t)draw(seed, 48);
	updates_make(processor, seed);
	__atomic_fetch_add(&made[processor], 1, __ATOMIC_SEQ_CST);
}

/* There are some accesses for each change, at least. A mistake that was seen needs few more changes. */
static int is_over(void)
{
	if (!is_planted(PLANT_NONE) && (is_seen || updates_wrong() > 0))
		return 1;
	if (slots_accesses() < 10 * changes)
		return 0;
	for (unsigned k = 0; k < CHANGERS; k++)
		if (__atomic_load_n(&made[k], __ATOMIC_SEQ_CST) < changes)
			return 0;
	return 1;
}

static void stall(uint64_t *seed)
{
	const uint64_t before = slots_recorded();
	updates_stall(seed);
	stalls++;
	is_seen |= slots_recorded() > before;
}

/* The first processor takes its turns here. A segment ends, and nodes are made to lag, while no processor makes a call or an access. */
static void work(void)
{
	uint64_t seed = 1;
	while (!is_over()) {
		const int is_full = record_is_full(), is_stall = stalls * BETWEEN_STALLS <= made[0];
		if (is_full || is_stall)
			processors_hold();
		if (is_full)
			updates_cut();
		if (is_stall)
			stall(&seed);
		if (is_full || is_stall)
			processors_release();
		processor_turn(0, &seed);
	}
	processors_stop();
}

static uint64_t number_in(const char **line)
{
	uint64_t number = 0;
	for (; **line >= '0' && **line <= '9'; ++*line)
		number = number * 10 + (uint64_t)(**line - '0');
	while (**line == ' ')
		++*line;
	return number;
}

/* The line has the levels, the number of changes of each changer, and 1 where what is recorded is sent. */
_Noreturn void kernel(const char *line, const void *tables)
{
	const uint64_t levels = number_in(&line), number = number_in(&line), is_sent = number_in(&line);
	ports_begin();
	processors_set_gates();
	nodes_begin((unsigned)levels, tables);
	write_cr3(processor_root(0));
	updates_begin((unsigned)levels, is_sent != 0);
	changes = number;
	processors_start();
	say("%u processors on %u memory nodes, %u levels\n", (uint64_t)PROCESSORS, (uint64_t)nodes_count(), levels);
	work();
	updates_end();
	nodes_say();
	say("%u changes and %u stalls, %u updates, %u wrong answers, %u faults made again, %u waits for a full ring\n", CHANGERS * changes,
	    stalls, nodes_completed(), updates_wrong(), nodes_again, nodes_held_up);
	slots_say();
	machine_leave(slots_differ() + slots_lost() + updates_wrong() == 0 ? LEAVE_PASSED : LEAVE_DIFFERS);
}
