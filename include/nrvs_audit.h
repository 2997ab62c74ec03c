/* The audit for C: whether recorded bytes are those of a right run of an address space. `nrvs_audit` judges a trace. The calls
 * `nrvs_audit_chain_..` judge a chain of segments as it comes, in pieces of any size.
 *
 * The verdict is proved to be that of the audit on just these bytes (crates/nrvs_audit_c/README.md). NRVS_RIGHT means for a trace:
 *   - the bytes spell one trace. Each reply answers an earlier call, no call is answered twice, and no thread has two calls open;
 *   - all its answered calls and some unanswered updates are in the order, each once. If one call was answered before another was made, it
 *     comes first;
 *   - every answer is what one sequential address space gives at that point;
 *   - each dumped page table translates every canonical address as that space does after as many of the order's updates as the replica had
 *     applied.
 *
 * For a chain it means that the run of all segments is right so. Besides, every answered touch is answered as after a prefix that is
 * allowed, or faults by a table that lags. And no memory is given away while an access that begins then could reach it
 * (docs/DEFINITIONS.md).
 *
 * Any bytes may be judged. What the caller has to keep, since no call can test it:
 *   - pointers are not null, aligned for their types, and lead to as many elements as stated. What they lead to doesn't overlap. Nobody
 *     else writes it, or reads what the call may write, before the call returns. But `order` and `text` may be null if `room` is 0, and
 *     `bytes` if `length` is 0: this is tested and not proved, since the proof doesn't cover null pointers;
 *   - the heap that is linked with the archive does what is said of `rattle_alloc`, `rattle_realloc` and `rattle_dealloc` below;
 *   - no call is made from a signal handler, nor in the forked child of a process that has threads;
 *   - a `struct nrvs_audit_chain` is all zero before its first call, and then as the last call left it. One copy of it is used, by one
 *     thread: the one that began the chain. Other threads may make calls meanwhile, for chains of their own or with `nrvs_audit`, if the
 *     heap bears that, as `malloc` does.
 * A call allocates from that heap, keeps no pointer of the caller's, and takes no lock. It frees all before it returns, but for what a
 * chain keeps between calls, which `nrvs_audit_chain_free` frees (tested: tests/library).
 */
#ifndef NRVS_AUDIT_H
#define NRVS_AUDIT_H

#include <stdbool.h>
#include <stddef.h>
#include <stdint.h>

#ifdef __cplusplus
extern "C" {
#endif

/* What the calls return. */
enum {
	NRVS_RIGHT = 0,        /* the bytes are right */
	NRVS_WRONG = 1,        /* they have a fault: `finding` has the first */
	NRVS_MORE = 2,         /* no fault was found in the chain yet, and its next segment isn't whole: feed more */
	NRVS_NO_MEMORY = 3,    /* a growth of memory was refused; nothing was written but a chain's struct */
	NRVS_NO_CHAIN = 4,     /* the chain was never begun, or is freed */
	NRVS_CHAIN_OVER = 5,   /* the chain has its verdict, or memory ran out for it: it takes nothing more */
	NRVS_CHAIN_IN_USE = 6, /* the chain was begun before: free it first */
	NRVS_NOT_EXPLAINED = 7 /* the chain has no verdict yet, or was begun without explanations */
};

/* The numbers of the faults; docs/DEFINITIONS.md says what each means. */
enum {
	NRVS_FORMAT = 1,         /* format: what is wrong with the bytes; index, replica: what that names */
	NRVS_THREAD_OPEN = 2,    /* index: the event */
	NRVS_NO_SUCH_CALL = 3,   /* index: the event */
	NRVS_ANSWERED_TWICE = 4, /* index: the event */
	NRVS_NOT_AN_UPDATE = 5,  /* index: the place of the log */
	NRVS_PLACED_TWICE = 6,   /* index: the place of the log */
	NRVS_NOT_PLACED = 7,     /* index: the event */
	NRVS_PAST_LOG = 8,       /* index: the event */
	NRVS_EARLY = 9,          /* index: the call */
	NRVS_WRONG_ANSWER = 10,  /* index: the call */
	NRVS_PREFIX_PAST_LOG = 11, /* replica */
	NRVS_PREFIX_SHORT = 12,    /* replica */
	NRVS_MISSING_FRAME = 13,   /* replica; number: of the frame */
	NRVS_SHARED_FRAME = 14,    /* replica; number: of the frame */
	NRVS_RESERVED_BIT = 15,    /* replica; number: of the frame; index: of the word */
	NRVS_STRAY_FRAME = 16,     /* replica; number: of the frame */
	NRVS_DIFFERS = 17,         /* replica; number: the address */
	/* Of segments alone: */
	NRVS_START_MISSING = 18,  /* number: of the frame */
	NRVS_START_SHARED = 19,   /* number: of the frame */
	NRVS_START_RESERVED = 20, /* number: of the frame; index: of the word */
	NRVS_START_STRAY = 21,    /* number: of the frame */
	NRVS_START_BEYOND = 22,   /* number: the address */
	NRVS_START_DIFFERS = 23,  /* number: the address */
	NRVS_STALE = 24,          /* index: the call */
	NRVS_REACHABLE = 25       /* index: the call */
};

/* What can be wrong with the bytes. */
enum {
	NRVS_FORMAT_TRUNCATED = 1,
	NRVS_FORMAT_MAGIC = 2,
	NRVS_FORMAT_VERSION = 3,
	NRVS_FORMAT_COUNT = 4,
	NRVS_FORMAT_EVENT = 5, /* index: the event */
	NRVS_FORMAT_FRAME = 6, /* replica; index: the frame of its dump */
	NRVS_FORMAT_TRAILING = 7,
	NRVS_FORMAT_CHAIN = 8, /* a segment of another layout than the one before */
	NRVS_FORMAT_START = 9  /* index: the frame of the start */
};

/* A verdict in numbers; those that it doesn't have are 0. */
struct nrvs_finding {
	uint32_t fault;  /* 0 if the bytes are right, else 1 to 17, or to 25 in a chain */
	uint32_t format; /* of fault 1: 1 to 7, or to 9 in a chain */
	uint32_t index;
	uint32_t replica;
	uint64_t number;
	size_t calls; /* how many calls the order has */
};

/* Judges `length` bytes. For NRVS_RIGHT `finding->calls` is how many calls the order has. If that is at most `room`, they are written to
 * `order`, each as the index of its event. Otherwise nothing is written there. No order has more than 131,072 calls.
 */
uint32_t nrvs_audit(const uint8_t *bytes, size_t length, uint32_t *order, size_t room, struct nrvs_finding *finding);

/* A chain that is judged as it comes. The caller provides this struct, all zero at first. Only the calls below write it. */
struct nrvs_audit_chain {
	uint64_t magic;
	void *at;
};

/* Begins a chain. If `explain` is true, its verdict can be explained later. Each segment is then judged twice, and takes twice the memory.
 * Returns NRVS_MORE, or NRVS_NO_MEMORY or NRVS_CHAIN_IN_USE, and then the struct is as it was.
 */
uint32_t nrvs_audit_chain_new(struct nrvs_audit_chain *chain, bool explain);

/* Feeds `length` bytes, which go on where the last ones taken ended. It takes all of them, or fewer if a segment ends: feed the rest again.
 *   - NRVS_RIGHT: the first `*taken` bytes end a segment that is right. With it the chain so far is right. `finding->calls` is how many
 *     calls the segment's order has. If that is at most `room`, they are written to `order`, each as the index of its event in the segment.
 *   - NRVS_WRONG: the segment has the fault in `finding`, its first, whatever comes behind. Events, calls and places are counted in this
 *     segment, which is the one behind those that were right. The chain is over. `*taken` is `length`.
 *   - NRVS_MORE: all bytes were taken, and no segment ended. `*taken` is `length`.
 *   - NRVS_NO_MEMORY: the chain is over, and has no verdict.
 *   - NRVS_CHAIN_OVER and NRVS_NO_CHAIN: nothing was taken.
 * Nothing is written to `finding` and `order` but with NRVS_RIGHT and NRVS_WRONG, nor to `*taken` but with these and NRVS_MORE.
 */
uint32_t nrvs_audit_chain_feed(struct nrvs_audit_chain *chain, const uint8_t *bytes, size_t length, uint32_t *order, size_t room,
			       struct nrvs_finding *finding, size_t *taken);

/* Ends a chain that was fed all its bytes. NRVS_RIGHT: it is right. NRVS_WRONG: the bytes end within a segment, or there are none, and
 * `finding` says so. Then the chain is over, and its verdict can be explained. NRVS_NO_MEMORY: it is over, and has no verdict.
 * NRVS_CHAIN_OVER and NRVS_NO_CHAIN: as ever, and `finding` isn't written.
 */
uint32_t nrvs_audit_chain_end(struct nrvs_audit_chain *chain, struct nrvs_finding *finding);

/* The explanation of a chain's verdict, as `nrvs explain --chain` prints it: lines, or with `as_json` an object on a line. `*length` is how
 * many bytes it has. If that is at most `room`, they are written to `text`, and nothing behind them; otherwise nothing is written there.
 * So `text` may be null if `room` is 0. Returns the verdict, NRVS_RIGHT or NRVS_WRONG. Or it returns NRVS_NOT_EXPLAINED, NRVS_NO_MEMORY or
 * NRVS_NO_CHAIN, and then nothing is written. It may be called again after any of these.
 */
uint32_t nrvs_audit_chain_explain(struct nrvs_audit_chain *chain, bool as_json, char *text, size_t room, size_t *length);

/* Frees what a chain keeps, at any time after it was begun: also after NRVS_NO_MEMORY, and after its verdict. The struct can then begin
 * another chain. If it has none, since it is all zero or was freed, nothing happens.
 */
void nrvs_audit_chain_free(struct nrvs_audit_chain *chain);

/* The heap. The archive has none: besides memcpy, memmove, memset and memcmp it needs these three functions from whoever links it. The
 * toolchain's liblibc_c.a has them over `malloc`, `realloc` and `free`. These have to be those of one allocator that aligns a block to each
 * power of two up to 16 that divides its size. A program may define its own instead, as examples/python/heap.c does in a few lines. With
 * `rattle_dealloc` a call frees each block that it allocated, whether it answers or runs out of memory, but for those of a chain.
 */

/* A block: whether there is memory for it, and where. `at` isn't null, even if there is none. */
struct rattle_block {
	bool ok;
	void *at;
};

/* Allocates a block of `size` bytes, which may be 0, aligned to `align`: a power of two up to 16. */
struct rattle_block rattle_alloc(size_t size, size_t align);

/* Resizes a block to `size` bytes, and may move it: its first `kept` bytes stay the same. If it can't, the block stays as it is. */
struct rattle_block rattle_realloc(void *at, size_t kept, size_t size, size_t align);

/* Frees a block. */
void rattle_dealloc(void *at);

#ifdef __cplusplus
}
#endif

#endif
