/* Node replication for a kernel: a log that a computer's memory nodes share, as a state machine that asks for one atomic operation at a
 * time.
 *
 * Each node keeps a copy of something, such as the page tables of an address space, under a lock of its own. An update is appended to one
 * log, and each node applies all entries in their order. A call has no memory except the node's struct, no lock and no handle. It returns
 * one operation on one word, which the caller carries out, or an entry to apply. nrvs_node_run, below, does that in C11, in C++11 and in
 * Linux:
 *
 *     lock(me);
 *     code = nrvs_node_update(&node[me], &update, 1);
 *     if (code < NRVS_NODE_REFUSED)
 *             code = nrvs_node_run(&node[me], &words, rings, apply, lags, context);
 *     if (code == NRVS_NODE_DONE)
 *             reply = node[me].replies[0];
 *     unlock(me);
 *
 * And a read, which sees each update that was over before it began:
 *
 *     completed = nrvs_read_begin(&words);
 *     lock(me);
 *     code = nrvs_read_ready(&node[me], completed, &words, rings, apply, lags, context);
 *     if (code == NRVS_NODE_DONE)
 *             the copy of node me may be looked at, until unlock
 *     unlock(me);
 *
 * What an entry means is up to the caller. It has two words, of which the second is below 2^57. A reply has two words as well.
 *
 * The following is promised, if the caller keeps what is listed further below (crates/nrvs_nodes_c/README.md has the clauses). It holds of
 * any calls at any nodes, one operation at a time, in any order (the law machines_make_schedules):
 *   - whatever the order of the single operations is, there is one log. Each node applies a prefix of it, in order, each entry once. An
 *     update is answered at its place in the log; `replies` has the answers in the order of the call's updates;
 *   - a call that ended before another began comes before it in the log. A read sees all that was completed when it began: it loads
 *     `completed` first, and looks at the node's copy under the node's lock, once nrvs_node_at is at least that. Until then it syncs;
 *   - each word that is asked for exists: `node` is below the number of nodes, and `index` below 16;
 *   - no entry is overwritten that some node has still to take. A call of u updates needs room in the ring, so NRVS_NODE_LAGS names a node
 *     whose word, as loaded, is 17 - u entries or more behind the tail that the call saw. For one update that is a whole ring of 16
 *     entries; for 16 updates one entry is enough;
 *   - if its node takes e entries meanwhile, its own included, a call of u updates on n nodes ends after at most (n + 2 u + 7) (e + 1)
 *     operations and entries, and n + 2 more for each NRVS_NODE_LAGS. A sync ends after at most 6 e + 5. Beyond the entries that its node
 *     hasn't taken yet, and those of calls that are open already, only calls that begin meanwhile make e grow. So a call ends if the others
 *     stop beginning updates, and nodes that lag take entries. Of the calls that go on one always gets further (lock-free); but while
 *     others append without end, a call may be overtaken again and again. A node that was stopped blocks nobody until a call needs its room
 *     in the ring: until 17 - u entries are in the log that it hasn't taken;
 *   - once every node is done with an entry, that stays so (nrvs_nodes_everywhere). Suppose each node keeps page tables in a memory of its
 *     own, which begin with a root of zeros. It applies each entry by a plan of nrvs_plan.h, changes its tables in no other way, and
 *     flushes its processors before nrvs_node_applied. Then its tables translate as the address space does after the entries that it has
 *     applied. A processor finds what the space has after that many entries, or one more while a plan is carried out. Once every node is
 *     done with an unmap, no processor finds the page any more until a later entry maps it, so its frame may be freed;
 *   - suppose such a run is recorded, calls before the work and replies after it, and a trace has room for it (four nodes at most). Each
 *     dump has the tables of its node and no other frame, meets no fault, and translates as the node's space. Then nrvs_audit.h finds no
 *     fault in the trace.
 * No clause knows where a field of a struct lies: that this header and the library agree on that is tested (tests/nodes).
 *
 * What the caller has to keep, which no call can test:
 *   - each operation is carried out as asked, atomically, and in one order with all others (sequentially consistent). nrvs_node_told gets
 *     its value: the word as it was before, or any value for a store. Nobody else writes the words. At first all words are 0, and all nodes
 *     are new;
 *   - from the beginning of a call to its end no other call uses the node: the node's lock is held;
 *   - the log has fewer than 2^57 - 16 entries;
 *   - an entry is applied to the node's copy, and flushed on its processors, before nrvs_node_applied;
 *   - each node makes the same of an entry, whatever it is. So each has the frames that its plans need: where one node answers
 *     NRVS_NO_FRAME to a map that another one did, their copies differ for good, though every node is done with the entry. Hand out the
 *     frames for an entry before it is appended, on all nodes, or keep enough in reserve on each;
 *   - pointers are not null, aligned for their types, and lead to as many elements as stated. Each call gets the struct as the call before
 *     left it;
 *   - linking: the archive needs at most memcpy, memset and memmove;
 *   - the calls of out/libnrvs_nodes_c.a use XMM registers. In a kernel that doesn't save these, link the archive that
 *     `tools/for_kernels nrvs_nodes_c` compiles of the same proved code, without them: out/libnrvs_nodes_kernel.a.
 */
#ifndef NRVS_NODES_H
#define NRVS_NODES_H

#ifdef __KERNEL__
#include <linux/types.h>
#else
#include <stdbool.h>
#include <stddef.h>
#include <stdint.h>
#endif

/* On cache lines of its own: two structs of an array share none. */
#if defined(__cplusplus) && __cplusplus >= 201103L
#define NRVS_OWN_LINES alignas(128)
#elif defined(__GNUC__)
#define NRVS_OWN_LINES __attribute__((aligned(128)))
#elif defined(__STDC_VERSION__) && __STDC_VERSION__ >= 201112L
#define NRVS_OWN_LINES _Alignas(128)
#else
#define NRVS_OWN_LINES
#endif

#ifdef __cplusplus
extern "C" {
#endif

enum { NRVS_MOST_NODES = 64, NRVS_NODE_RING = 16 };

/* What a call returns: what it asks for next, or why it is refused. If it is refused, nothing has changed. */
enum {
	NRVS_NODE_DONE = 0,     /* nothing: the call is over */
	NRVS_NODE_LOAD = 1,     /* load the word */
	NRVS_NODE_STORE = 2,    /* store `value` */
	NRVS_NODE_EXCHANGE = 3, /* compare with `value`, and if equal, store `new_value` */
	NRVS_NODE_MAX = 4,      /* store the greater of the word and `value` */
	NRVS_NODE_APPLY = 5,    /* apply `entry`, then nrvs_node_applied */
	NRVS_NODE_LAGS = 6,     /* have node `node` sync, or wait until it does; then nrvs_node_told with any value */
	NRVS_NODE_BROKEN = 7,   /* nothing ever again: it got a value that the word cannot have had, or the log is full */
	NRVS_NODE_REFUSED = 16, /* and above: a refusal */
	NRVS_NODE_BUSY = 16,    /* the call before isn't over */
	NRVS_NODE_EMPTY = 17,   /* no update */
	NRVS_NODE_TOO_MANY = 18,
	NRVS_NODE_TOO_LARGE = 19, /* a second word isn't below 2^57 */
	NRVS_NODE_NO_NODE = 20  /* more than 64 nodes, or a number that isn't below theirs */
};

/* A word: `head` and `completed` belong to all nodes, the others to one. */
enum {
	NRVS_WORD_HEAD = 0,
	NRVS_WORD_COMPLETED = 1,
	NRVS_WORD_LOCAL = 2,
	NRVS_WORD_DONE = 3,
	NRVS_WORD_FIRST = 4, /* the first and the second word of the entry at `index` of the ring of `node` */
	NRVS_WORD_SECOND = 5
};

struct nrvs_node_update {
	uint64_t first;
	uint64_t second; /* below 2^57 */
};

struct nrvs_node_reply {
	uint64_t first;
	uint64_t second;
};

struct nrvs_node_asked {
	uint32_t code;      /* as the call returned it */
	uint32_t word;      /* NRVS_WORD_HEAD .. */
	uint64_t node;      /* whose word; or which node lags */
	uint64_t index;     /* 0 to 15 */
	uint64_t value;
	uint64_t new_value;
	struct nrvs_node_update entry;
};

/* The state machine of a node: plain numbers, in 1,024 bytes. */
struct nrvs_node {
	NRVS_OWN_LINES struct nrvs_node_asked asked;
	uint64_t applied;     /* how many entries the node has applied */
	uint64_t reply_count; /* the replies to the updates of the call */
	struct nrvs_node_reply replies[NRVS_NODE_RING];
	uint64_t nodes;       /* how many nodes there are */
	uint64_t own[86];     /* the library's: the last three are never used */
};

/* Makes the state machine of node `number` of `nodes` nodes, all of whose words are 0. */
uint32_t nrvs_node_new(struct nrvs_node *node, uint64_t nodes, uint64_t number);

/* Begins a call that appends 1 to 16 updates, one after another in the log. */
uint32_t nrvs_node_update(struct nrvs_node *node, const struct nrvs_node_update *updates, size_t count);

/* Begins a call that ends at once if the node has applied at least that many entries. Otherwise it applies all entries that are there when
 * the call loads the head, which may be fewer.
 */
uint32_t nrvs_node_sync(struct nrvs_node *node, uint64_t at_least);

/* Gets what the word was before the operation that was asked for. */
uint32_t nrvs_node_told(struct nrvs_node *node, uint64_t value);

/* Gets the reply to the entry that was to be applied. */
uint32_t nrvs_node_applied(struct nrvs_node *node, const struct nrvs_node_reply *reply);

/* Whether every node is done with the entry at a place, given the words `done` of all nodes. */
bool nrvs_nodes_everywhere(const uint64_t *done, size_t nodes, uint64_t place);

/* How many entries the node has applied. While no call is open, these are completed too. */
static inline uint64_t nrvs_node_at(const struct nrvs_node *node)
{
	return node->applied;
}

#ifdef __cplusplus
}
#endif

/* A word that nodes share, and the operations on it, all of them sequentially consistent. Linux has no such operations, but a full barrier
 * before each makes them so in its memory model. A load is acquired, so that what its caller does next comes after it. A store needs no
 * more than atomic64_set behind the barrier, and an exchange no more than the relaxed one.
 */
#if defined(__KERNEL__)
#include <linux/atomic.h>
#define NRVS_HAS_WORDS

typedef atomic64_t nrvs_word;

static inline uint64_t nrvs_word_load(nrvs_word *word)
{
	smp_mb();
	return (uint64_t)atomic64_read_acquire(word);
}

static inline void nrvs_word_store(nrvs_word *word, uint64_t value)
{
	smp_mb();
	atomic64_set(word, (s64)value);
}

static inline uint64_t nrvs_word_exchange(nrvs_word *word, uint64_t old, uint64_t value)
{
	smp_mb();
	return (uint64_t)atomic64_cmpxchg_relaxed(word, (s64)old, (s64)value);
}
#elif defined(__cplusplus) && __cplusplus >= 201103L
#include <atomic>
#define NRVS_HAS_WORDS

typedef std::atomic<uint64_t> nrvs_word;

static inline uint64_t nrvs_word_load(nrvs_word *word)
{
	return word->load();
}

static inline void nrvs_word_store(nrvs_word *word, uint64_t value)
{
	word->store(value);
}

static inline uint64_t nrvs_word_exchange(nrvs_word *word, uint64_t old, uint64_t value)
{
	word->compare_exchange_strong(old, value);
	return old;
}
#elif defined(__STDC_VERSION__) && __STDC_VERSION__ >= 201112L && !defined(__STDC_NO_ATOMICS__)
#include <stdatomic.h>
#define NRVS_HAS_WORDS

typedef _Atomic uint64_t nrvs_word;

static inline uint64_t nrvs_word_load(nrvs_word *word)
{
	return atomic_load(word);
}

static inline void nrvs_word_store(nrvs_word *word, uint64_t value)
{
	atomic_store(word, value);
}

static inline uint64_t nrvs_word_exchange(nrvs_word *word, uint64_t old, uint64_t value)
{
	atomic_compare_exchange_strong(word, &old, value);
	return old;
}
#endif

#ifdef NRVS_HAS_WORDS
/* The words of all nodes, and those of one, all 0 at first. Each word that several processors write or wait for has cache lines of its
 * own.
 */
struct nrvs_log_words {
	NRVS_OWN_LINES nrvs_word head;
	NRVS_OWN_LINES nrvs_word completed;
};

struct nrvs_node_words {
	NRVS_OWN_LINES nrvs_word local;
	NRVS_OWN_LINES nrvs_word done;
	NRVS_OWN_LINES nrvs_word ring[2 * NRVS_NODE_RING];
};

static inline nrvs_word *nrvs_word_of(struct nrvs_log_words *words, struct nrvs_node_words *nodes, const struct nrvs_node_asked *asked)
{
	switch (asked->word) {
	case NRVS_WORD_HEAD:
		return &words->head;
	case NRVS_WORD_COMPLETED:
		return &words->completed;
	case NRVS_WORD_LOCAL:
		return &nodes[asked->node].local;
	case NRVS_WORD_DONE:
		return &nodes[asked->node].done;
	case NRVS_WORD_FIRST:
		return &nodes[asked->node].ring[2 * asked->index];
	default:
		return &nodes[asked->node].ring[2 * asked->index + 1];
	}
}

/* Carries an operation out, and returns what the word was before; for a store 0, which nrvs_node_told ignores. */
static inline uint64_t nrvs_carry_out(nrvs_word *word, const struct nrvs_node_asked *asked)
{
	uint64_t was, found;

	switch (asked->code) {
	case NRVS_NODE_LOAD:
		return nrvs_word_load(word);
	case NRVS_NODE_STORE:
		nrvs_word_store(word, asked->value);
		return 0;
	case NRVS_NODE_EXCHANGE:
		return nrvs_word_exchange(word, asked->value, asked->new_value);
	default:
		for (was = nrvs_word_load(word); was < asked->value; was = found) {
			found = nrvs_word_exchange(word, was, asked->value);
			if (found == was)
				break;
		}
		return was;
	}
}

/* Runs a call to its end: NRVS_NODE_DONE, or NRVS_NODE_BROKEN. */
static inline uint32_t nrvs_node_run(struct nrvs_node *node, struct nrvs_log_words *words, struct nrvs_node_words *nodes,
				     struct nrvs_node_reply (*apply)(void *context, const struct nrvs_node_update *entry),
				     void (*lags)(void *context, uint64_t other), void *context)
{
	uint32_t code = node->asked.code;

	while (code != NRVS_NODE_DONE && code != NRVS_NODE_BROKEN) {
		if (code == NRVS_NODE_APPLY) {
			struct nrvs_node_reply reply = apply(context, &node->asked.entry);

			code = nrvs_node_applied(node, &reply);
		} else if (code == NRVS_NODE_LAGS) {
			lags(context, node->asked.node);
			code = nrvs_node_told(node, 0);
		} else {
			code = nrvs_node_told(node, nrvs_carry_out(nrvs_word_of(words, nodes, &node->asked), &node->asked));
		}
	}
	return code;
}

/* Begins a read, before its node is locked: how many entries are completed. */
static inline uint64_t nrvs_read_begin(struct nrvs_log_words *words)
{
	return nrvs_word_load(&words->completed);
}

/* Has a node, whose lock is held, apply what nrvs_read_begin returned at least. At NRVS_NODE_DONE its copy may be looked at until the lock
 * is released: it has the first nrvs_node_at entries. NRVS_NODE_BUSY where a call is open, and NRVS_NODE_BROKEN.
 */
static inline uint32_t nrvs_read_ready(struct nrvs_node *node, uint64_t completed, struct nrvs_log_words *words,
				       struct nrvs_node_words *nodes,
				       struct nrvs_node_reply (*apply)(void *context, const struct nrvs_node_update *entry),
				       void (*lags)(void *context, uint64_t other), void *context)
{
	uint32_t code = nrvs_node_sync(node, completed);

	return code < NRVS_NODE_REFUSED ? nrvs_node_run(node, words, nodes, apply, lags, context) : code;
}

/* Whether every node is done with the entry at a place; false where there are none, or more than 64. */
static inline bool nrvs_nodes_done(struct nrvs_node_words *nodes, size_t count, uint64_t place)
{
	uint64_t done[NRVS_MOST_NODES];

	if (count < 1 || count > NRVS_MOST_NODES)
		return false;
	for (size_t i = 0; i < count; i++)
		done[i] = nrvs_word_load(&nodes[i].done);
	return nrvs_nodes_everywhere(done, count, place);
}
#endif

#endif
