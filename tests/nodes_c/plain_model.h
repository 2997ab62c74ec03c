/* The protocol of include/nrvs_nodes.h once more, in plain C with no proof, for a ring of any size up to 16: what a node asks for next, and
 * what it does with each answer. Its numbers are small, so that a state of several nodes is some hundred bytes. With a planted mistake
 * it breaks what the header promises.
 */
#ifndef PLAIN_MODEL_H
#define PLAIN_MODEL_H

#include <nrvs_nodes.h>

enum plant {
	NO_PLANT,
	ROOM,	/* it takes the ring for one longer than it is */
	LINK,	/* the first of its entries names itself, in place of who appended the one before */
	WINS,	/* it takes each exchange for won */
	EARLY,	/* it raises its local tail before it has loaded the last entry */
	TAKEN,	/* it says that it is done with all that it has taken, before they are applied */
	BEHIND, /* it ends a call with no look at what is completed */
	FIRST	/* it loads the words of an entry from its own ring */
};

enum phase { REST, LOOKS, SCANS, WAITS, STORES, SWAPS, LOADS, RAISES, APPLIES, FLUSHES, CHECKS, PUBLISHES };

enum { MODEL_RING = 16, MODEL_BATCH = 2 };

struct plain_entry {
	uint16_t first, second;
};

struct plain {
	uint8_t nodes, number, ring_size, plant, phase;
	uint8_t taken, applied, published;  /* entries */
	uint8_t asked, least, next;	    /* the nodes below `asked` have taken `least` */
	uint8_t count, stored, placed, first; /* the batch: its updates, words stored, whether it is in the log, and from where on */
	uint8_t seen, last, from, link, got_count, has_half;
	uint16_t half;
	struct plain_entry batch[MODEL_BATCH], got[MODEL_RING];
};

static inline void plain_new(struct plain *it, unsigned nodes, unsigned number, unsigned ring_size, enum plant plant)
{
	*it = (struct plain){ .nodes = (uint8_t)nodes, .number = (uint8_t)number, .ring_size = (uint8_t)ring_size,
			      .plant = (uint8_t)plant, .asked = (uint8_t)nodes };
}

/* An update of this many entries, or with none a sync, of a node that rests. */
static inline void plain_begin(struct plain *it, const struct plain_entry *batch, unsigned count)
{
	for (unsigned i = 0; i < MODEL_BATCH; i++)
		it->batch[i] = i < count ? batch[i] : (struct plain_entry){ 0, 0 };
	it->count = (uint8_t)count;
	it->stored = it->placed = it->first = 0;
	it->phase = LOOKS;
}

static inline bool plain_wants(const struct plain *it)
{
	return it->count > 0 && !it->placed;
}

/* So many entries each node has to have taken before the batch has room. */
static inline unsigned plain_need(const struct plain *it)
{
	unsigned end = (unsigned)it->seen + it->count, room = it->ring_size + (it->plant == ROOM ? 1u : 0);

	return end > room ? end - room : 0;
}

static inline struct nrvs_node_asked plain_carry(uint32_t code, uint32_t word, unsigned node, unsigned index, unsigned value)
{
	return (struct nrvs_node_asked){ code, word, node, index, value, 0, { 0, 0 } };
}

static inline struct nrvs_node_asked plain_store(const struct plain *it)
{
	unsigned which = it->stored / 2, index = (it->seen + which) % it->ring_size;
	unsigned link = which == 0 && it->plant != LINK ? it->last : it->number;

	if (it->stored % 2 == 0)
		return plain_carry(NRVS_NODE_STORE, NRVS_WORD_FIRST, it->number, index, it->batch[which].first);
	return plain_carry(NRVS_NODE_STORE, NRVS_WORD_SECOND, it->number, index, 128u * it->batch[which].second + link);
}

static inline struct nrvs_node_asked plain_load(const struct plain *it)
{
	uint32_t word = it->has_half ? NRVS_WORD_SECOND : NRVS_WORD_FIRST;

	return plain_carry(NRVS_NODE_LOAD, word, it->plant == FIRST ? it->number : it->link, (it->from - 1u) % it->ring_size, 0);
}

/* What it asks for. */
static inline struct nrvs_node_asked plain_asks(const struct plain *it)
{
	struct nrvs_node_asked asked = { NRVS_NODE_DONE, 0, 0, 0, 0, 0, { 0, 0 } };

	switch (it->phase) {
	case REST:
		return asked;
	case LOOKS:
		return plain_carry(NRVS_NODE_LOAD, NRVS_WORD_HEAD, 0, 0, 0);
	case SCANS:
		return plain_carry(NRVS_NODE_LOAD, NRVS_WORD_LOCAL, it->next, 0, 0);
	case WAITS:
		return plain_carry(NRVS_NODE_LAGS, 0, it->next, 0, 0);
	case STORES:
		return plain_store(it);
	case SWAPS:
		asked = plain_carry(NRVS_NODE_EXCHANGE, NRVS_WORD_HEAD, 0, 0, 128u * it->seen + it->last);
		asked.new_value = 128u * ((unsigned)it->seen + it->count) + it->number;
		return asked;
	case LOADS:
		return plain_load(it);
	case RAISES:
		return plain_carry(NRVS_NODE_STORE, NRVS_WORD_LOCAL, it->number, 0, it->seen);
	case APPLIES:
		asked.code = NRVS_NODE_APPLY;
		asked.entry = (struct nrvs_node_update){ it->got[it->got_count - 1].first, it->got[it->got_count - 1].second };
		return asked;
	case FLUSHES:
		return plain_carry(NRVS_NODE_STORE, NRVS_WORD_DONE, it->number, 0, it->plant == TAKEN ? it->seen : it->applied);
	case CHECKS:
		return plain_carry(NRVS_NODE_LOAD, NRVS_WORD_COMPLETED, 0, 0, 0);
	default:
		return plain_carry(NRVS_NODE_MAX, NRVS_WORD_COMPLETED, 0, 0, it->taken);
	}
}

/* It forgets what it had for another tail. */
static inline void plain_look(struct plain *it, unsigned tail, unsigned last)
{
	it->seen = it->from = (uint8_t)tail;
	it->last = it->link = (uint8_t)last;
	it->stored = it->next = it->has_half = it->got_count = 0;
	it->half = 0;
	for (unsigned i = 0; i < MODEL_RING; i++)
		it->got[i] = (struct plain_entry){ 0, 0 };
}

static inline void plain_see(struct plain *it, uint64_t head)
{
	plain_look(it, (unsigned)head / 128, (unsigned)head % 128);
	if (plain_wants(it) && plain_need(it) <= it->taken)
		it->phase = it->asked == it->nodes && plain_need(it) <= it->least ? STORES : SCANS;
	else
		it->phase = it->taken < it->seen ? LOADS : CHECKS;
}

static inline void plain_scan(struct plain *it, uint64_t value)
{
	if (it->next == 0 || value < it->least)
		it->least = (uint8_t)value;
	it->asked = (uint8_t)(it->next + 1);
	if (value < plain_need(it))
		it->phase = WAITS;
	else if (it->asked == it->nodes)
		it->phase = STORES;
	else
		it->next++;
}

static inline void plain_swapped(struct plain *it, uint64_t head)
{
	if (head != 128u * it->seen + it->last && it->plant != WINS) {
		plain_see(it, head);
		return;
	}
	it->placed = 1;
	it->first = it->seen;
	plain_look(it, (unsigned)it->seen + it->count, it->number);
	it->phase = LOADS;
}

static inline void plain_loaded(struct plain *it, uint64_t value)
{
	if (!it->has_half) {
		it->half = (uint16_t)value;
		it->has_half = 1;
		if (it->plant == EARLY && it->from == it->taken + 1 && it->from < it->seen)
			it->phase = RAISES;
		return;
	}
	it->got[it->got_count++] = (struct plain_entry){ it->half, (uint16_t)(value / 128) };
	it->half = it->has_half = 0;
	it->link = (uint8_t)(value % 128);
	it->from--;
	it->phase = it->from > it->taken ? LOADS : it->plant == TAKEN ? FLUSHES : RAISES;
}

/* Its local tail is raised; or, with a plant, it was raised too early, or what follows was done already. */
static inline void plain_raised(struct plain *it)
{
	if (it->plant == EARLY && it->has_half) {
		it->phase = LOADS;
		return;
	}
	it->taken = it->seen;
	it->phase = APPLIES;
}

/* Takes what a word was before the operation that it asked for; after a wait any value. */
static inline void plain_told(struct plain *it, uint64_t value)
{
	switch (it->phase) {
	case LOOKS:
		plain_see(it, value);
		break;
	case SCANS:
		plain_scan(it, value);
		break;
	case WAITS:
		it->phase = LOOKS;
		break;
	case STORES:
		it->stored++;
		it->phase = it->stored < 2 * it->count ? STORES : SWAPS;
		break;
	case SWAPS:
		plain_swapped(it, value);
		break;
	case LOADS:
		plain_loaded(it, value);
		break;
	case RAISES:
		plain_raised(it);
		break;
	case FLUSHES:
		it->phase = it->got_count > 0 ? RAISES : plain_wants(it) ? LOOKS : it->plant == BEHIND ? REST : CHECKS;
		break;
	case CHECKS:
		if (value > it->published)
			it->published = (uint8_t)value;
		it->phase = it->published < it->taken ? PUBLISHES : REST;
		break;
	default:
		if (it->taken > it->published)
			it->published = it->taken;
		it->phase = REST;
	}
}

/* The entry that it asked for is applied: whether it is one of its own. */
static inline bool plain_applied(struct plain *it)
{
	bool own = it->placed && it->first <= it->applied && it->applied < it->first + it->count;

	it->got[--it->got_count] = (struct plain_entry){ 0, 0 };
	it->applied++;
	it->from++;
	if (it->got_count == 0)
		it->phase = it->plant != TAKEN ? FLUSHES : plain_wants(it) ? LOOKS : CHECKS;
	return own;
}

#endif
