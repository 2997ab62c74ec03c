#include "nodes.h"

#include "../kernel/machine.h"
#include "../kernel/say.h"
#include "nrvs_nodes.h"
#include "plant.h"
#include "slots.h"

enum { FRAMES_OF_NODE = 240, PLACES = 4096 };

/* A node: its lock, its machine, its page tables, its frames. */
static struct home {
	uint32_t lock;
	struct nrvs_node machine;
	struct nrvs_target target;
	struct pool pool;
} homes[MOST_NODES];

static struct firmware firmware;
static struct nrvs_log_words words;
static struct nrvs_node_words shared[MOST_NODES];
static uint64_t flags[PLACES];
uint64_t nodes_again, nodes_held_up;
int page_faulted(uint64_t code, uint64_t address);

/* ---- locks: who waits for one answers shootdowns, since its holder may wait for them ---- */

static int try_lock(struct home *home)
{
	return __atomic_exchange_n(&home->lock, 1, __ATOMIC_SEQ_CST) == 0;
}

static void lock(struct home *home)
{
	while (!try_lock(home))
		processors_pause();
}

static void unlock(struct home *home)
{
	__atomic_store_n(&home->lock, 0, __ATOMIC_SEQ_CST);
}

/* ---- an update in two words, and its answer with its place in two ---- */

static struct nrvs_node_update packed(nrvs_request it)
{
	return (struct nrvs_node_update){ it.address + it.kind + 4u * it.size + 16u * it.rights, it.phys / 4096 };
}

static nrvs_request unpacked(const struct nrvs_node_update *entry)
{
	return (nrvs_request){ entry->first & 3, entry->first >> 2 & 3, entry->first >> 4 & 7, entry->first & ~UINT64_C(0xfff),
			       entry->second * 4096 };
}

static struct nrvs_node_reply packed_answer(struct nrvs_reply it, uint64_t place)
{
	return (struct nrvs_node_reply){ it.code + ((uint64_t)it.size << 8) + ((uint64_t)it.rights << 16) + (place << 24), it.number };
}

static nrvs_answer answer_of(uint64_t word, uint64_t number)
{
	return (nrvs_answer){ word & 0xff, word >> 8 & 0xff, word >> 16 & 0xff, number };
}

/* ---- what a node does with an entry ---- */

/* The plan is carried out, and flushed on the node's processors. */
static void change(struct home *home, nrvs_request what, struct nrvs_plan *plan)
{
	uint32_t step;
	if (what.kind == NRVS_KIND_MAP)
		step = nrvs_plan_map(plan, &home->target, what.address, what.size, what.phys, what.rights, 0);
	else if (what.kind == NRVS_KIND_UNMAP)
		step = nrvs_plan_unmap(plan, &home->target, what.address);
	else
		step = nrvs_plan_protect(plan, &home->target, what.address, what.rights);
	plans_run(&home->pool, plan, step);
}

static struct nrvs_node_reply apply(void *context, const struct nrvs_node_update *entry)
{
	struct home *home = context;
	const uint64_t place = nrvs_node_at(&home->machine);
	struct nrvs_plan plan;
	change(home, unpacked(entry), &plan);
	if (is_planted(PLANT_TWICE) && home == &homes[1])
		change(home, unpacked(entry), &plan);
	if (plan.reply.code == NRVS_REMOVED)
		__atomic_fetch_or(&flags[place % PLACES], plan.bits, __ATOMIC_SEQ_CST);
	return packed_answer(plan.reply, place);
}

static void lags(void *context, uint64_t other);

/* The call that was begun ends; its node's lock is held. */
static void run(struct home *home, uint32_t code)
{
	if (code >= NRVS_NODE_REFUSED)
		stop("a call is refused:", code);
	if (nrvs_node_run(&home->machine, &words, shared, apply, lags, home) != NRVS_NODE_DONE)
		stop("a node is broken:", (uint64_t)(home - homes));
}

/* Has a node apply at least so many entries, unless somebody is at it. */
static void bring(struct home *home, uint64_t at_least)
{
	if (!try_lock(home)) {
		processors_pause();
		return;
	}
	run(home, nrvs_node_sync(&home->machine, at_least));
	unlock(home);
}

/* The ring is full until that node has taken entries. */
static void lags(void *context, uint64_t other)
{
	(void)context;
	__atomic_fetch_add(&nodes_held_up, 1, __ATOMIC_SEQ_CST);
	bring(&homes[other], UINT64_MAX);
}

/* ---- calls ---- */

void nodes_update(unsigned node, const nrvs_request *requests, unsigned count, struct told *told)
{
	struct home *home = &homes[node];
	struct nrvs_node_update updates[BATCH];
	for (unsigned i = 0; i < count; i++)
		updates[i] = packed(requests[i]);
	lock(home);
	run(home, nrvs_node_update(&home->machine, updates, count));
	for (unsigned i = 0; i < count; i++) {
		told[i].answer = answer_of(home->machine.replies[i].first, home->machine.replies[i].second);
		told[i].place = home->machine.replies[i].first >> 24;
	}
	unlock(home);
}

void nodes_wait(uint64_t place)
{
	while (!nrvs_nodes_done(shared, firmware.nodes, place))
		for (unsigned n = 0; n < firmware.nodes; n++)
			bring(&homes[n], place + 1);
}

uint64_t nodes_flags(uint64_t place)
{
	return __atomic_exchange_n(&flags[place % PLACES], 0, __ATOMIC_SEQ_CST);
}

/* What a node's tables say of an address once it has applied at least so many entries; its lock is held. */
static struct nrvs_reply look(struct home *home, uint64_t address, uint64_t at_least)
{
	struct nrvs_plan plan;
	if (nrvs_read_ready(&home->machine, at_least, &words, shared, apply, lags, home) != NRVS_NODE_DONE)
		stop("a node can't be read:", (uint64_t)(home - homes));
	plans_run(&home->pool, &plan, nrvs_plan_ask(&plan, &home->target, address));
	return plan.reply;
}

nrvs_answer nodes_look(unsigned node, uint64_t address, uint64_t *at)
{
	struct home *home = &homes[node];
	const uint64_t completed = nodes_completed();
	struct nrvs_reply reply;
	lock(home);
	reply = look(home, address, is_planted(PLANT_LOOK) ? 0 : completed);
	*at = nrvs_node_at(&home->machine);
	unlock(home);
	return (nrvs_answer){ (uint8_t)reply.code, (uint8_t)reply.size, (uint8_t)reply.rights, reply.number };
}

/* A page fault on a node: it syncs, and looks. The access is made again, unless the node's tables say just this fault now. */
int page_faulted(uint64_t code, uint64_t address)
{
	struct home *home = &homes[node_of(processor_here())];
	const uint64_t completed = nodes_completed();
	const unsigned is_write = code >> 1 & 1;
	struct nrvs_reply reply;
	unsigned is_there, is_refused;
	lock(home);
	reply = look(home, address, is_planted(PLANT_FAULT) ? 0 : completed);
	unlock(home);
	is_there = reply.code == NRVS_MAPPED;
	is_refused = !is_there || (is_write && !(reply.rights & NRVS_WRITE));
	if (is_refused && is_there == (code & 1))
		return 0;
	__atomic_fetch_add(&nodes_again, 1, __ATOMIC_SEQ_CST);
	return 1;
}

uint64_t nodes_completed(void)
{
	return nrvs_read_begin(&words);
}

void nodes_level(void)
{
	for (unsigned n = 0; n < firmware.nodes; n++)
		bring(&homes[n], UINT64_MAX);
}

void nodes_forget(void)
{
	for (unsigned n = 0; n < firmware.nodes; n++) {
		lock(&homes[n]);
		processors_shoot_down(n, 0, 1);
		unlock(&homes[n]);
	}
}

/* ---- the nodes ---- */

unsigned nodes_count(void)
{
	return firmware.nodes;
}

unsigned node_of(unsigned processor)
{
	return firmware.node_of[processor];
}

const struct nrvs_target *node_target(unsigned node)
{
	return &homes[node].target;
}

/* Frames of the node's own memory, where no slot's page is. */
static uint64_t first_frame(struct memory memory)
{
	return memory.first / 0x200000 * 512 + 0x2100;
}

static void begin(unsigned node, unsigned levels)
{
	struct home *home = &homes[node];
	if (nrvs_node_new(&home->machine, firmware.nodes, node) != NRVS_NODE_DONE)
		stop("there is no such node:", node);
	pool_begin(&home->pool, first_frame(firmware.memories[node]), FRAMES_OF_NODE, node);
	home->target = (struct nrvs_target){ .root = pool_take(&home->pool), .levels = levels, .phys_bits = 40 };
	for (uint64_t g = 0; g < 4; g++) {
		struct nrvs_plan plan;
		change(home, nrvs_map(g << 30, NRVS_1G, g << 30, NRVS_WRITE | NRVS_EXEC), &plan);
		if (plan.reply.code != NRVS_DONE)
			stop("a map is answered", plan.reply.code);
	}
}

void nodes_begin(unsigned levels, const void *tables)
{
	firmware_read(&firmware, tables);
	for (unsigned n = 0; n < firmware.nodes; n++)
		begin(n, levels);
}

void nodes_say(void)
{
	for (unsigned n = 0; n < firmware.nodes; n++)
		say("node %u: memory from %x on, %u entries, %u shootdowns, %u frames of its own in use\n", (uint64_t)n,
		    firmware.memories[n].first, nrvs_node_at(&homes[n].machine), homes[n].pool.shootdowns,
		    (uint64_t)(FRAMES_OF_NODE - homes[n].pool.left));
}
