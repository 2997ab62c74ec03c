/* All schedules of two and three nodes, one operation at a time, of a plain model of the protocol. Its ring is small, so that entries are
 * overwritten and nodes lag. The machine goes through them beside that model, with rings that are nearly full: both ask for the same.
 *     schedules [MISTAKE]
 * Each node applies the one log, in order, each entry once; each update is answered at its place; a call that ended before another began
 * comes first. Nobody is done with what it hasn't applied, and what ended is completed. Each node alone ends its call, from wherever the
 * others stopped, or names one that leaves its updates no room. With a planted mistake one of this is found to fail.
 */
#include "plain_model.h"

#include <stdio.h>
#include <stdlib.h>
#include <string.h>

enum { NODES = 3, WORDS = 2 + 2 * NRVS_NODE_RING, LOG = 32, TABLE = 1 << 24, MOST_ALONE = 400 };

/* How far a node's calls are: which is open ('u' one update, 'b' two, 'r' a read, 's' a sync that another asked for), and from where on. */
struct task {
	char open;
	uint8_t calls, made, floor, replies, place, id, torn;
	uint16_t loaded; /* by a torn exchange */
};

struct state {
	uint16_t word[2 + NODES * WORDS];
	uint8_t log[LOG], tail, reached;
	struct plain node[NODES];
	struct task task[NODES];
	struct nrvs_node machine[NODES]; /* where it is beside the model */
};

/* A scenario: its nodes and their calls, and how many updates the first has made before, which nodes from `behind` on haven't taken. */
struct scenario {
	const char *name;
	unsigned nodes, ring, before, behind;
	bool real;
	const char *calls[NODES];
};

static const struct scenario *now;
static enum plant plant;
static bool tears, short_ring;
static uint64_t *seen;
static unsigned long met;

static void fail(const char *why)
{
	printf("%s: %s, after %lu states\n", now->name, why, met);
	exit(1);
}

static uint16_t *word_of(struct state *it, const struct nrvs_node_asked *asked)
{
	uint16_t *own = &it->word[2 + asked->node * WORDS];
	uint64_t index = short_ring ? asked->index % 15 : asked->index;

	if (asked->word == NRVS_WORD_HEAD || asked->word == NRVS_WORD_COMPLETED)
		return &it->word[asked->word];
	if (asked->word == NRVS_WORD_LOCAL || asked->word == NRVS_WORD_DONE)
		return &own[asked->word - NRVS_WORD_LOCAL];
	return &own[2 + 2 * index + (asked->word == NRVS_WORD_SECOND)];
}

/* The updates of a node's call are in the log from now on. */
static void append(struct state *it, unsigned n, unsigned at)
{
	if (at != it->tail)
		fail("two updates have one place");
	for (unsigned i = 0; i < it->node[n].count; i++) {
		if (it->tail == LOG)
			fail("the log is too long");
		it->log[it->tail++] = (uint8_t)(it->task[n].id + i);
	}
}

static uint64_t carry_out(struct state *it, unsigned n, const struct nrvs_node_asked *asked)
{
	uint16_t *word = word_of(it, asked), was = *word;

	if (asked->code == NRVS_NODE_STORE || (asked->code == NRVS_NODE_MAX && was < asked->value))
		*word = (uint16_t)asked->value;
	if (asked->code == NRVS_NODE_EXCHANGE && was == asked->value) {
		*word = (uint16_t)asked->new_value;
		append(it, n, was / 128u);
	}
	return was;
}

/* The machine asks for what the model does. */
static void compare(const struct state *it, unsigned n)
{
	const struct nrvs_node_asked asked = plain_asks(&it->node[n]), *by = &it->machine[n].asked;

	if (now->real && (by->code != asked.code || by->word != asked.word || by->node != asked.node || by->index != asked.index ||
			  by->value != asked.value || by->new_value != asked.new_value || by->entry.first != asked.entry.first ||
			  by->entry.second != asked.entry.second || nrvs_node_at(&it->machine[n]) != it->node[n].applied))
		fail("the machine asks for something else than the model");
}

static void tell(struct state *it, unsigned n, uint64_t value)
{
	plain_told(&it->node[n], value);
	if (now->real)
		nrvs_node_told(&it->machine[n], value);
	compare(it, n);
}

static void begin(struct state *it, unsigned n, char open)
{
	struct task *task = &it->task[n];
	struct plain_entry batch[MODEL_BATCH];
	struct nrvs_node_update updates[MODEL_BATCH];
	unsigned count = open == 'u' ? 1 : open == 'b' ? 2 : 0;

	*task = (struct task){ .open = open, .calls = task->calls, .made = task->made, .floor = it->reached };
	task->id = (uint8_t)(80 * n + 2 * task->made + 1);
	task->made = (uint8_t)(task->made + (count > 0));
	for (unsigned i = 0; i < count; i++) {
		batch[i] = (struct plain_entry){ (uint16_t)(task->id + i), (uint16_t)(255 - task->id - i) };
		updates[i] = (struct nrvs_node_update){ batch[i].first, batch[i].second };
	}
	plain_begin(&it->node[n], batch, count);
	if (now->real && (count > 0 ? nrvs_node_update(&it->machine[n], updates, count) :
				      nrvs_node_sync(&it->machine[n], UINT64_MAX)) >= NRVS_NODE_REFUSED)
		fail("a call is refused");
	compare(it, n);
}

static void apply(struct state *it, unsigned n)
{
	const struct nrvs_node_asked asked = plain_asks(&it->node[n]);
	struct task *task = &it->task[n];
	unsigned place = it->node[n].applied, id = place < it->tail ? it->log[place] : 0;
	struct nrvs_node_reply reply = { place, id };

	if (id == 0 || asked.entry.first != id || asked.entry.second != 255u - id)
		fail("a node applies what isn't in the log at that place");
	if (plain_applied(&it->node[n])) {
		task->place = task->replies == 0 ? (uint8_t)place : task->place;
		if (id != (unsigned)task->id + task->replies++)
			fail("another update was replied to");
	}
	if (now->real)
		nrvs_node_applied(&it->machine[n], &reply);
	compare(it, n);
}

/* A call has ended. */
static void end(struct state *it, unsigned n)
{
	struct task *task = &it->task[n];
	unsigned count = it->node[n].count, position = count > 0 ? task->place : it->node[n].applied, reach = position + count;

	if (task->replies != count)
		fail("an update wasn't replied to");
	if (position < task->floor)
		fail("a call comes before one that ended before it began");
	if (it->word[NRVS_WORD_COMPLETED] < reach)
		fail("what ended isn't completed");
	for (unsigned i = 0; now->real && i < count; i++)
		if (it->machine[n].reply_count != count || it->machine[n].replies[i].first != position + i)
			fail("the machine has other replies");
	if (reach > it->reached)
		it->reached = (uint8_t)reach;
	task->calls = (uint8_t)(task->calls + (task->open != 's'));
	task->open = 0;
}

/* What needs no operation: entries are applied, a call ends. */
static void settle(struct state *it, unsigned n)
{
	while (it->node[n].phase == APPLIES)
		apply(it, n);
	if (it->node[n].phase == REST && it->task[n].open)
		end(it, n);
	for (unsigned r = 0; r < now->nodes; r++)
		if (it->word[2 + r * WORDS + 1] > it->node[r].applied)
			fail("a node is done with what it hasn't applied");
}

/* An exchange that is carried out as a load and a store. */
static void tear(struct state *it, unsigned n, const struct nrvs_node_asked *asked)
{
	struct task *task = &it->task[n];

	task->torn = !task->torn;
	if (task->torn) {
		task->loaded = it->word[NRVS_WORD_HEAD];
		return;
	}
	if (task->loaded == asked->value) {
		it->word[NRVS_WORD_HEAD] = (uint16_t)asked->new_value;
		append(it, n, task->loaded / 128u);
	}
	tell(it, n, task->loaded);
}

/* A read has loaded what is completed, which its node may have applied. */
static bool reads(struct state *it, unsigned n)
{
	const uint16_t completed = it->word[NRVS_WORD_COMPLETED];

	if (completed > it->node[n].applied) {
		begin(it, n, 'r');
		return false;
	}
	it->task[n].open = 'r';
	it->task[n].floor = it->reached;
	it->task[n].replies = it->node[n].count = 0;
	end(it, n);
	return true;
}

/* One operation of a node's. The begin of a call goes with its first one, and what needs none with the one before. */
static void step(struct state *it, unsigned n)
{
	struct nrvs_node_asked asked;

	if (!it->task[n].open) {
		char open = now->calls[n][it->task[n].calls];

		if (open == 'r' && reads(it, n))
			return;
		if (open != 'r')
			begin(it, n, open);
	}
	asked = plain_asks(&it->node[n]);
	if (asked.code == NRVS_NODE_LAGS) {
		if (!it->task[asked.node].open)
			begin(it, (unsigned)asked.node, 's');
		tell(it, n, 0);
	} else if (asked.code == NRVS_NODE_EXCHANGE && tears) {
		tear(it, n, &asked);
	} else {
		tell(it, n, carry_out(it, n, &asked));
	}
	settle(it, n);
}

static bool is_over(const struct state *it, unsigned n)
{
	return !it->task[n].open && now->calls[n][it->task[n].calls] == 0;
}

/* From here a node alone ends its call; where it names another, that leaves no room, and once that one has taken, it goes on. */
static void alone(const struct state *from, unsigned n)
{
	static struct state it;
	unsigned steps = 0, waits = 0;

	memcpy(&it, from, sizeof it);
	while (it.task[n].open && ++steps < MOST_ALONE) {
		const struct plain *node = &it.node[n];
		unsigned other = node->next;

		step(&it, n);
		if (node->phase != WAITS || waits++ == 0)
			continue;
		other = node->next;
		if (it.word[2 + other * WORDS] >= plain_need(node))
			fail("a node is named that isn't behind");
		step(&it, n);
		while (it.word[2 + other * WORDS] < plain_need(node) && ++steps < MOST_ALONE)
			step(&it, other);
	}
	if (steps >= MOST_ALONE)
		fail("a node alone doesn't end its call");
}

/* Whether the state is met for the first time: what comes after it depends on the state alone. The table has its sum of 64 bits. */
static bool is_new(const struct state *it)
{
	const size_t size = now->real ? sizeof *it : offsetof(struct state, machine);
	uint64_t hash = 14695981039346656037u, word;
	size_t at;

	for (size_t i = 0; i < size; i += sizeof word) {
		word = 0;
		memcpy(&word, (const char *)it + i, size - i < sizeof word ? size - i : sizeof word);
		hash = (hash ^ word) * 0x9E3779B97F4A7C15u;
		hash ^= hash >> 29;
	}
	hash |= 1;
	for (at = hash % TABLE; seen[at] != 0 && seen[at] != hash; at = (at + 1) % TABLE)
		;
	if (seen[at] == hash)
		return false;
	seen[at] = hash;
	if (++met > TABLE / 4 * 3)
		fail("too many states");
	return true;
}

static void explore(const struct state *it)
{
	if (!is_new(it))
		return;
	for (unsigned n = 0; n < now->nodes; n++) {
		struct state next;

		if (it->task[n].open)
			alone(it, n);
		if (is_over(it, n))
			continue;
		memcpy(&next, it, sizeof next);
		step(&next, n);
		explore(&next);
	}
}

/* The updates that the first node has made before, one by one; the nodes below `behind` have taken them. */
static void prepare(struct state *it)
{
	for (unsigned n = 0; n < now->nodes; n++) {
		plain_new(&it->node[n], now->nodes, n, now->ring, plant);
		if (now->real && nrvs_node_new(&it->machine[n], now->nodes, n) != NRVS_NODE_DONE)
			fail("no node");
	}
	for (unsigned i = 0; i < now->before; i++) {
		begin(it, 0, 'u');
		while (it->task[0].open)
			step(it, 0);
	}
	for (unsigned n = 1; n < now->behind; n++) {
		begin(it, n, 's');
		while (it->task[n].open)
			step(it, n);
	}
	for (unsigned n = 0; n < now->nodes; n++)
		it->task[n].calls = 0;
}

int main(int count, char **args)
{
	static const char *const names[] = { "none", "room", "link", "wins", "early", "taken", "behind", "first" };
	static const struct scenario all[] = {
		{ "two nodes, a ring of 2", 2, 2, 0, 0, false, { "uur", "uru" } },
		{ "two nodes, a ring of 4", 2, 4, 0, 0, false, { "bub", "bbr" } },
		{ "three nodes, a ring of 2", 3, 2, 0, 0, false, { "ur", "ur", "u" } },
		{ "the machine on two nodes", 2, 16, 15, 0, true, { "uu", "uu" } },
		{ "the machine on three nodes", 3, 16, 15, 2, true, { "u", "u", "r" } },
	};
	static struct state first;
	const char *mistake = count > 1 ? args[1] : "none";

	for (unsigned i = 0; i < sizeof names / sizeof *names; i++)
		if (strcmp(mistake, names[i]) == 0)
			plant = (enum plant)i;
	tears = strcmp(mistake, "torn") == 0;
	short_ring = strcmp(mistake, "short") == 0;
	seen = malloc(TABLE * sizeof *seen);
	for (unsigned i = 0; i < sizeof all / sizeof *all && seen; i++) {
		now = &all[i];
		met = 0;
		memset(seen, 0, TABLE * sizeof *seen);
		memset(&first, 0, sizeof first);
		prepare(&first);
		explore(&first);
		printf("%s: %lu states\n", now->name, met);
		fflush(stdout);
	}
	return seen ? 0 : 2;
}
