/* Plans for the caller's own x86-64 page table: what to store, in which order, what to flush, and what may be freed then.
 *
 * This is for a kernel whose frames come one at a time from an allocator and may lie anywhere. Other processors walk the tables while one
 * changes them, and roots may share half of their tables. A call allocates nothing, writes only the plan, and reads only the plan, the
 * target and the words that it is shown. You ask for a change. The library asks for the words of one frame after another, and for empty
 * frames, and ends with a plan. You carry it out, flush, and free, under your own lock:
 *
 *     struct nrvs_plan plan;
 *     uint32_t step = nrvs_plan_map(&plan, &target, base, NRVS_4K, physical, NRVS_WRITE, 0);
 *     while (step == NRVS_SEE)
 *             step = nrvs_plan_see(&plan, words_of(NULL, plan.frame));         // where the direct map has the frame
 *     while (step == NRVS_GIVE)
 *             step = empty_frame(&number) ? nrvs_plan_give(&plan, number) : nrvs_plan_give_none(&plan);
 *     if (step != NRVS_PLANNED)
 *             return step;                                                     // a refusal: the request is not well formed
 *     if (nrvs_plan_carry_out(&plan, words_of, NULL) != NRVS_OK)
 *             panic();                                                         // somebody else wrote: the lock doesn't hold
 *     if (plan.flush != NRVS_FLUSH_NOTHING)
 *             shoot_down(plan.flush, plan.flush_base, plan.flush_size);        // on every processor that uses this table
 *     for (i = 0; i < plan.unlinked_count; i++)
 *             free_frame(plan.unlinked[i]);                                    // only now; if no store is planned, free those given.
 *                                                                              // After a join, a collapse or a prune its words aren't 0:
 *                                                                              // clear them
 *     return plan.reply.code == NRVS_DONE ? 0 : ..;
 *
 * What you keep, since no call can test it. crates/nrvs_plan_c/README.md has it in full, with the processor's settings:
 *   - one lock is held from the first call until the flush is over on each processor. Meanwhile nobody else changes a table, and each call
 *     gets the plan as the call before left it. Only processors write words of tables, and only flags (bits 5 and 6) of present entries;
 *   - the words shown are the 512 of the frame asked for. A frame that is given has only words of 0, is no table, and isn't given twice;
 *   - the walk of each canonical address meets no missing frame and no reserved bit, and each page lies below physical 2^51. No other path
 *     leads to the tables on the walk of the call's address;
 *   - stores are compare-exchanges of whole words, in their order. Then comes the flush, and only then are unlinked frames free;
 *   - the stack has 6 KiB left for a plan, 8 KiB for a range. The archive uses XMM registers, as in nrvs.h; tools/for_kernels compiles it
 *     again for a kernel, without them.
 *
 * What you get: the answer of one sequential address space. A processor that walks at any moment finds the old translation or the new one.
 * No flag that a processor sets is lost, and the named flush is sufficient. If another root leads to some of these tables, its processors
 * find the same on four conditions, for one plan with a flush of its own, but not for ranges. The same README has each promise with its
 * clauses, in "What a plan promises" and "What a range promises". Names in brackets here are clauses. No clause knows where a field of a
 * struct lies: that this header and the library agree on that is tested (tests/plans).
 */
#ifndef NRVS_PLAN_H
#define NRVS_PLAN_H

#include "nrvs.h"

#ifdef __cplusplus
extern "C" {
#endif

/* The page table that a plan is for. */
struct nrvs_target {
	uint64_t root;      /* a frame number: CR3 is root * 4096 */
	uint32_t levels;    /* 4 or 5 */
	uint32_t phys_bits; /* how many bits a physical address has: 36 to 52 */
	uint32_t pinned;    /* tables that entries of this level and above lead to stay linked, as where other roots lead to them; 0: none.
			     * `levels`: those to which the root leads; 1: all [highest_link]. Then an unmap looks at no entry off the
			     * walk, and asks for each frame once (tested: tests/plans_c/pinned.c) */
};

/* A store: word `index` of a frame is `old_word`, and becomes `new_word`. */
struct nrvs_store {
	uint64_t frame;
	uint64_t index;
	uint64_t old_word;
	uint64_t new_word;
};

/* A table that is written before the stores: word i of a frame, 0 to 511, becomes `first_word` + i * `step`, but `gap_count` words from
 * index `gap` on stay 0. For a split there are none of these.
 */
struct nrvs_fill {
	uint64_t frame;
	uint64_t first_word;
	uint64_t step;
	uint64_t gap;
	uint64_t gap_count;
};

enum { NRVS_MOST_STORES = 5, NRVS_MOST_UNLINKED = 4 };

/* A plan, finished or not. What most plans need (those with one store) lies in the first 128 bytes. */
struct nrvs_plan {
	uint64_t frame;           /* after NRVS_SEE: the frame whose words are to be shown */
	struct nrvs_reply reply;  /* this and all that follows is set after NRVS_PLANNED: what the call answers */
	uint64_t bits;            /* of NRVS_REMOVED, NRVS_CHANGED, NRVS_MAPPED: the page's attributes, flags 5 and 6 among them [`told`];
				   * of NRVS_EMPTY an address, of NRVS_RESERVED an index */
	uint32_t flush;           /* NRVS_FLUSH_NOTHING .. */
	uint32_t flush_size;      /* of the page, or of the range: NRVS_4K .. */
	uint64_t flush_base;      /* its first address; of a prune the address that was given */
	uint64_t unlinked_count;
	uint64_t fills;           /* 1 if a frame is filled before the stores, else 0 */
	uint64_t store_count;
	uint64_t way[2];          /* the library's */
	struct nrvs_store stores[NRVS_MOST_STORES];
	uint64_t unlinked[NRVS_MOST_UNLINKED];
	struct nrvs_fill fill;    /* the frame that is filled, and its words; written only if `fills` is 1 */
	uint64_t own[19];         /* the library's */
};

/* What comes next. Each call except nrvs_plan_again returns one of these, unless it is refused, and the plan waits for just that [status;
 * begun of the calls that begin a plan].
 */
enum {
	NRVS_PLANNED = 0, /* the plan is there [ended] */
	NRVS_SEE = 32,    /* the words of `plan->frame` are to be shown: nrvs_plan_see */
	NRVS_GIVE = 33    /* an empty frame is to be given: nrvs_plan_give, or nrvs_plan_give_none */
};

/* Why a call is refused [status, asked]; some reasons are in nrvs.h. The first that holds is returned, in this order: NRVS_BAD_LEVELS;
 * NRVS_PHYS_BITS above 52; NRVS_BAD_SIZE; NRVS_BAD_RIGHTS; NRVS_PHYS_BITS below 36; NRVS_BAD_ROOT; NRVS_NOT_CANONICAL; NRVS_UNALIGNED;
 * NRVS_PHYS_UNALIGNED; NRVS_PHYS_RANGE, if the page doesn't lie below physical 2^51 and 2^phys_bits; NRVS_BAD_BITS; NRVS_BAD_PART. The plan
 * is then as it was [refused]. No call checks whether an existing page lies within phys_bits.
 */
enum {
	NRVS_PHYS_BITS = 14, /* `phys_bits` is none of 36 to 52 */
	NRVS_BAD_BITS = 15,  /* a bit is set that is none of NRVS_ATTRIBUTES */
	NRVS_BAD_ROOT = 16,  /* the root's frame lies beyond phys_bits */
	NRVS_NOT_ASKED = 17, /* the plan doesn't ask for that; of nrvs_plan_again: no plan or no such store, the old word's bit 0 is 0, or
			      * more than flags differ */
	NRVS_BAD_PART = 18   /* parts that are to be removed: none, all 512, or not all among 0 to 511 */
};

/* Codes of replies, beside those of nrvs.h. With these no store is planned [nothing]. Each is answered only if it holds [reply]. If one of
 * 15 to 19 holds, one of them is answered, or NRVS_RESERVED for a link beyond phys_bits, and nothing else [due]. If two of them hold it is
 * the first in this order: for a remap 15, 16, for a join 18, 19, 15, for a collapse 18, 19, 15, 16 [phys_refusal, not_first, not_over].
 */
enum {
	NRVS_NO_FRAME = 10,    /* none was given; those that were are free */
	NRVS_FRAME_RANGE = 11, /* number: a frame that was given, and lies beyond phys_bits; all that were given are free */
	NRVS_NARROW = 12,      /* the entries that lead to the page's table allow less than the page is to allow [WantsMore] */
	NRVS_EMPTY = 13,       /* a table lies where the page would be mapped, and none of its entries is present (they may be other than 0,
				* as of swapped pages). number: its frame. bits: an address whose walk ends in it: nrvs_plan_prune of that
				* unlinks the table, unless `pinned` keeps it [LiesOverEmpty, already]. Then a map may still overlap a page */
	NRVS_RESERVED = 14,    /* of each call below. number: the frame of a word; bits: its index. It links to a frame beyond phys_bits
				* [LeadsBeyond], or has another reserved bit set: never, if the caller keeps what has to be kept [reply].
				* We read in the code that a call over frames follows no such link */
	NRVS_MISPLACED = 15,   /* the physical address is no multiple of the size of the page that is there, or that is to be there: a remap's
				* [remap_refusal], a join's [join_refusal], a collapse's [collapse_refusal] */
	NRVS_BEYOND = 16,      /* the page would not lie below physical 2^51 and 2^phys_bits [remap_refusal, collapse_refusal] */
	NRVS_SMALLEST = 17,    /* the page has 4 KiB: it can't be split, and has no parts [split_refusal] */
	NRVS_LARGEST = 18,     /* the page has 1 GiB: it can't be joined with others, nor collapsed [join_refusal, collapse_refusal] */
	NRVS_NOT_FIRST = 19,   /* the base is no multiple of the next larger size than that of the page that begins there [join_refusal,
				* collapse_refusal] */
	NRVS_APART = 20,       /* number: the least index, 0 to 511, of an entry of the table that is no page that follows on from the first
				* [KeepsApart; what follows on: the law entries_follow_on_by_their_parts]. By a collapse: of one that has
				* other rights or attributes than the first, or is no page [IsUnlike] */
	NRVS_PINNED = 21       /* the pages that are to be joined or collapsed lie in a table that stays, by `pinned` [KeepsTable] */
};

/* What the processors that use this table have to drop after the last store is carried out. They do so by an invlpg of the base, for a range
 * by one of each of its 512 smaller pages, or by a load of CR3 with bit 63 clear. The README's part "The flush" says when less is enough.
 */
enum {
	NRVS_FLUSH_NOTHING = 0,
	NRVS_FLUSH_PAGE = 1,            /* the translations of a page */
	NRVS_FLUSH_PAGE_AND_TABLES = 2, /* and what they keep of tables, some of which were unlinked */
	NRVS_FLUSH_RANGE = 3            /* all translations from the base on for as many bytes as this size, and what they keep of tables */
};

/* Attributes of a page, at the bit positions of a 4 KiB entry, whatever the size is: PWT 3, PCD 4, accessed 5, dirty 6, PAT 7, global 8,
 * for software 11:9 and 58:52, protection key 62:59. Map with both flags (5 and 6) if no processor is to write the entry.
 */
#define NRVS_ATTRIBUTES UINT64_C(0x7ff0000000000ff8)

/* Maps a page [reply, written]: NRVS_DONE, NRVS_OVERLAP (number: the least overlapped page), NRVS_NARROW, NRVS_EMPTY, NRVS_NO_FRAME,
 * NRVS_FRAME_RANGE.
 */
uint32_t nrvs_plan_map(struct nrvs_plan *plan, const struct nrvs_target *target, uint64_t base, uint32_t size, uint64_t physical,
		       uint32_t rights, uint64_t bits);

/* Unmaps the page that begins at an address, and unlinks the tables that become empty [reply, put, pruned]: NRVS_REMOVED, NRVS_INSIDE,
 * NRVS_NOT_MAPPED.
 */
uint32_t nrvs_plan_unmap(struct nrvs_plan *plan, const struct nrvs_target *target, uint64_t base);

/* Gives the page that begins at an address these rights and no others [reply, written, already]: NRVS_CHANGED (with the rights that it
 * had), NRVS_INSIDE, NRVS_NOT_MAPPED, NRVS_NARROW.
 */
uint32_t nrvs_plan_protect(struct nrvs_plan *plan, const struct nrvs_target *target, uint64_t base, uint32_t rights);

/* Moves the page that begins at an address to another physical address, with these rights; its size stays [reply, due, put, already]:
 * NRVS_CHANGED (with the rights that it had), NRVS_INSIDE, NRVS_NOT_MAPPED, NRVS_MISPLACED, NRVS_BEYOND, NRVS_NARROW. Only `old_word` of
 * the store has its old physical address. If no store is planned, that is the same as the new one.
 */
uint32_t nrvs_plan_remap(struct nrvs_plan *plan, const struct nrvs_target *target, uint64_t base, uint64_t physical, uint32_t rights);

/* Replaces the page that begins at an address by 512 pages of the next smaller size, which translate as it does. Asks for an empty frame
 * [reply, due, put; the law splits_keep_translations]: NRVS_CHANGED (with the rights, which stay), NRVS_INSIDE, NRVS_NOT_MAPPED,
 * NRVS_SMALLEST, NRVS_NO_FRAME, NRVS_FRAME_RANGE.
 */
uint32_t nrvs_plan_split(struct nrvs_plan *plan, const struct nrvs_target *target, uint64_t base);

/* Replaces 512 pages, the first of which begins at an address, by one page. They have to be contiguous in memory, and alike except for flags
 * 5 and 6 [reply, due, put, fits; the law joins_keep_translations]: NRVS_CHANGED (with the rights, which stay), NRVS_INSIDE, NRVS_NOT_MAPPED,
 * NRVS_LARGEST, NRVS_NOT_FIRST, NRVS_MISPLACED, NRVS_PINNED, NRVS_APART.
 */
uint32_t nrvs_plan_join(struct nrvs_plan *plan, const struct nrvs_target *target, uint64_t base);

/* Unlinks the table in which the walk of an address ends, if none of its entries is present [reply, put, already]: NRVS_DONE. The table is
 * in `unlinked`. If nothing is there, the table has a present entry, is the root, or stays by `pinned`. Any address whose walk ends there
 * will do, such as the one in `bits` after NRVS_EMPTY. One call unlinks one table.
 */
uint32_t nrvs_plan_prune(struct nrvs_plan *plan, const struct nrvs_target *target, uint64_t address);

/* Removes `count` of the 512 parts of the page of 2 MiB or 1 GiB that begins at an address, from part number `first` on. The result is as
 * after a split and an unmap of each of these parts [reply; stepped]. It asks for an empty frame, which is filled with the parts that stay,
 * and linked by one store. So each address is translated as before or as after [put, safe]: NRVS_CHANGED (with the rights, which stay),
 * NRVS_INSIDE, NRVS_NOT_MAPPED, NRVS_SMALLEST, NRVS_NO_FRAME, NRVS_FRAME_RANGE. It is refused with NRVS_BAD_PART, checked after
 * NRVS_UNALIGNED, if there are no such parts, or if these are all: then unmap the page.
 */
uint32_t nrvs_plan_unmap_part(struct nrvs_plan *plan, const struct nrvs_target *target, uint64_t base, uint64_t first, uint64_t count);

/* Replaces 512 pages, the first of which begins at an address, by one page of the next larger size, at this physical address and with these
 * rights. The 512 pages may lie anywhere. They have to have the same rights, and the same attributes except for flags 5 and 6 [reply, due,
 * put]: NRVS_CHANGED (with the rights that the first had), NRVS_INSIDE, NRVS_NOT_MAPPED, NRVS_LARGEST, NRVS_NOT_FIRST, NRVS_MISPLACED,
 * NRVS_BEYOND, NRVS_NARROW, NRVS_PINNED, NRVS_APART. What lies at the physical address is up to the caller: it has to have the contents of
 * the pages, and nobody may write to them from the copy until the flush is over. For example, protect and flush them before.
 */
uint32_t nrvs_plan_collapse(struct nrvs_plan *plan, const struct nrvs_target *target, uint64_t base, uint64_t physical, uint32_t rights);

/* Looks an address up: NRVS_MAPPED, with the physical address of this address (not of its page), or NRVS_NOT_MAPPED. No store is planned
 * [reply, nothing].
 */
uint32_t nrvs_plan_ask(struct nrvs_plan *plan, const struct nrvs_target *target, uint64_t address);

/* Five of these requests over consecutive frames, as in a direct map: frame number `first` + i has the words frames[i].word, for each i
 * below `count`. Such a call begins the plan [refused] and shows it the frames that it asks for, as far as they lie there [seen]. So,
 * unless it is refused, it returns NRVS_PLANNED, or NRVS_GIVE, or NRVS_SEE for a frame that lies elsewhere, after which nrvs_plan_see goes
 * on [HasSeen: waits, elsewhere, kept]. The plan is right for each memory that has these frames [HasSeen: next].
 *
 * If the walk leads to a table of level 1 there, and no table is linked or unlinked, the plan is made in one walk, in some 200
 * instructions. Everything else is planned as by the single calls. Then the words of the first walk are read once more, and what the first
 * read gave isn't used. We tested that the plan is just that of the single calls (tests/plans), and read in the code that only frames on
 * the walk are read. So only these have to stay as they are while the call runs, except for flags. Others may change, for example under
 * other locks. The proof is about frames that all stay as they are, with plan and target in none that is asked for.
 */
uint32_t nrvs_plan_map_in(struct nrvs_plan *plan, const struct nrvs_target *target, const struct nrvs_words *frames, size_t count,
			  uint64_t first, uint64_t base, uint32_t size, uint64_t physical, uint32_t rights, uint64_t bits);
uint32_t nrvs_plan_unmap_in(struct nrvs_plan *plan, const struct nrvs_target *target, const struct nrvs_words *frames, size_t count,
			    uint64_t first, uint64_t base);
uint32_t nrvs_plan_protect_in(struct nrvs_plan *plan, const struct nrvs_target *target, const struct nrvs_words *frames, size_t count,
			      uint64_t first, uint64_t base, uint32_t rights);
uint32_t nrvs_plan_remap_in(struct nrvs_plan *plan, const struct nrvs_target *target, const struct nrvs_words *frames, size_t count,
			    uint64_t first, uint64_t base, uint64_t physical, uint32_t rights);
uint32_t nrvs_plan_ask_in(struct nrvs_plan *plan, const struct nrvs_target *target, const struct nrvs_words *frames, size_t count,
			  uint64_t first, uint64_t address);

/* Shows the words of `plan->frame` [next]. At most one frame a level is asked for, or two by an unmap that may unlink its page's table
 * [most of HasBegun; fewer]. NRVS_NOT_ASKED if the plan doesn't wait for words [asked].
 */
uint32_t nrvs_plan_see(struct nrvs_plan *plan, const uint64_t words[512]);

/* Gives a frame whose words are all 0, or says that there is none [next]. NRVS_NOT_ASKED if the plan doesn't wait for a frame [asked]. */
uint32_t nrvs_plan_give(struct nrvs_plan *plan, uint64_t frame);
uint32_t nrvs_plan_give_none(struct nrvs_plan *plan);

/* Store `index` found `found` instead of its `old_word`. If that is present (bit 0), and differs from it by flags 5 and 6 at most, set or
 * cleared, this returns NRVS_OK, and the plan has the word `found` instead [flags, again; done]. Otherwise it is refused [asked, flags]. If
 * the plan fills a frame, fill it again.
 */
uint32_t nrvs_plan_again(struct nrvs_plan *plan, uint64_t index, uint64_t found);

/* Finds the words of a frame, by its number. */
typedef uint64_t *nrvs_words_of(void *context, uint64_t frame);

/* Fills the frame that is to be filled, if one is: before the stores, and once more after an nrvs_plan_again. */
static inline void nrvs_plan_fill(const struct nrvs_plan *plan, nrvs_words_of *words_of, void *context)
{
	const struct nrvs_fill *fill = &plan->fill;
	uint64_t *words, i;

	if (!plan->fills)
		return;
	words = words_of(context, fill->frame);
	for (i = 0; i < 512; i++)
		__atomic_store_n(words + i, i - fill->gap < fill->gap_count ? 0 : fill->first_word + i * fill->step, __ATOMIC_RELAXED);
}

/* Fills, and carries out the stores in their order, each by compare-exchanges. Flags that a processor sets meanwhile are in the plan then.
 * NRVS_OK, or NRVS_NOT_ASKED if somebody else wrote a word: the stores before that one are made. This is C, and not proved; it is tested
 * (tests/plans).
 */
static inline uint32_t nrvs_plan_carry_out(struct nrvs_plan *plan, nrvs_words_of *words_of, void *context)
{
	uint64_t i;

	nrvs_plan_fill(plan, words_of, context);
	for (i = 0; i < plan->store_count; i++) {
		uint64_t *at = words_of(context, plan->stores[i].frame) + plan->stores[i].index, found = plan->stores[i].old_word;
		while (!__atomic_compare_exchange_n(at, &found, plan->stores[i].new_word, 0, __ATOMIC_SEQ_CST, __ATOMIC_RELAXED)) {
			if (nrvs_plan_again(plan, i, found) != NRVS_OK)
				return NRVS_NOT_ASKED;
			nrvs_plan_fill(plan, words_of, context);
		}
	}
	return NRVS_OK;
}

/* Ranges: consecutive pages, with one run of words for each table. A call deals with pages of one table, from the base of the range on, as
 * single calls for each page would in their order, up to the first that would be refused. It asks for words and frames as a plan does, and
 * ends with one of the codes below. The caller carries that out and goes on with the rest of the range:
 *
 *     while (bytes) {
 *             step = nrvs_plan_unmap_range(&run, &target, base, bytes);
 *             while (step == NRVS_SEE)
 *                     step = nrvs_run_see(&run, words_of(run.plan.frame));
 *             switch (step) {                                                  // by a map NRVS_GIVE too: nrvs_run_give, nrvs_run_give_none
 *             case NRVS_RUN:
 *                     nrvs_run_carry_out(&run, words_of(run.frame), NULL);
 *                     covered = run.covered;
 *                     break;
 *             case NRVS_ABSENT:
 *                     covered = run.covered;                                   // may go beyond the range
 *                     break;
 *             case NRVS_PLANNED:
 *                     carry_out_and_keep(&run.plan);                           // as any plan, but flushed with all, and only then what
 *                     covered = ..;                                            // it unlinks is free. The bytes of its page, if done
 *                     break;
 *             default:
 *                     return step;                                             // a refusal, or NRVS_ENDS_BEYOND
 *             }
 *             base += covered; bytes -= min(covered, bytes);
 *     }
 *     shoot_down(..);                                                          // once, for all runs and plans
 *
 * A run links and unlinks no table: the first page in a new table, and the last page of a table that becomes empty, come as plans
 * [NRVS_PLANNED]. What is promised of a run: crates/nrvs_plan_c/README.md, "What a range promises".
 */
struct nrvs_run {
	uint64_t frame;        /* this and all up to `covered` is set after NRVS_RUN and NRVS_HARVEST: the table */
	uint64_t index;        /* of the first word */
	uint64_t count;        /* how many words: index + count is at most 512 */
	uint64_t keep;         /* word i of them becomes (word & keep) + first_word + i * step [IsRunTold: words] */
	uint64_t first_word;
	uint64_t step;
	uint32_t size;         /* of the pages, or after NRVS_ENDS_BEYOND of the page: NRVS_4K .. */
	uint32_t flush;        /* NRVS_FLUSH_NOTHING, or NRVS_FLUSH_PAGE of each of `count` pages of this size from `base` on */
	uint64_t covered;      /* the bytes of the pages; after NRVS_ABSENT those of which no page has any */
	uint64_t base;         /* where the range begins */
	uint64_t bytes;        /* how many it has */
	uint64_t own;          /* the library's */
	struct nrvs_plan plan; /* after NRVS_SEE `plan.frame` is to be shown; after NRVS_PLANNED it is the plan */
};

/* What comes next, besides NRVS_SEE and NRVS_GIVE [IsRangeStatus; IsRangeNextOf]. */
enum {
	/* NRVS_PLANNED: `plan` is the plan of the page at the base alone: it links or unlinks tables, or the page is refused or isn't there.
	 * Of a harvest it is what nrvs_plan_ask answers of a page that begins before the base [planned] */
	NRVS_RUN = 34,     /* a run of pages from the base on [runs] */
	NRVS_HARVEST = 35, /* the same, whose exchanges find flags and clear them [harvests] */
	NRVS_ABSENT = 36,  /* no page has any of the first `covered` bytes, of which there are some; nothing is to be done. They end with an
			    * entry, and the table ends there or its next entry is present. Never by a map [absent] */
	NRVS_ENDS_BEYOND = 37 /* the page that begins at the base has this `size` and ends beyond the range; nothing is to be done, and none is
			    * split. Never by a map [beyond] */
};

/* Begins a range of `bytes` bytes: NRVS_SEE, or a refusal, as of nrvs_plan_map for its first page, and of nrvs_plan_unmap,
 * nrvs_plan_protect and nrvs_plan_ask for its base. After a refusal the struct is as it was [status, begun, refused]. The pages of a map
 * are contiguous in physical memory too. A map is refused with NRVS_UNALIGNED before all else if `bytes` is 0, or no multiple of the size,
 * if that is a size: so it never goes beyond its range [status: map_range_status]. After that, any range that goes beyond the last address,
 * so that base + bytes is more than 2^64, is refused with NRVS_NOT_CANONICAL [range_status]. A range over the hole between the two halves
 * isn't refused, and NRVS_ABSENT may end in the hole, where no range begins: ask for the halves apart. An unmap, a protect and a harvest
 * deal with pages of all sizes, but a run has pages of one size.
 */
uint32_t nrvs_plan_map_range(struct nrvs_run *run, const struct nrvs_target *target, uint64_t base, uint32_t size, uint64_t physical,
			     uint32_t rights, uint64_t bits, uint64_t bytes);
uint32_t nrvs_plan_unmap_range(struct nrvs_run *run, const struct nrvs_target *target, uint64_t base, uint64_t bytes);
uint32_t nrvs_plan_protect_range(struct nrvs_run *run, const struct nrvs_target *target, uint64_t base, uint64_t bytes, uint32_t rights);
uint32_t nrvs_plan_harvest_range(struct nrvs_run *run, const struct nrvs_target *target, uint64_t base, uint64_t bytes);

/* Shows the words of `run->plan.frame` [next]. At most one frame a level is asked for, and one once more [fewer]. That is the lowest table,
 * if an unmap would leave it empty, as we read in the code. A page at the base that ends beyond the range is named so, and one that can go
 * in a run does [taken]. NRVS_NOT_ASKED if no words are waited for [asked].
 */
uint32_t nrvs_run_see(struct nrvs_run *run, const uint64_t words[512]);

/* Like nrvs_plan_give and nrvs_plan_give_none [next, given, fewer]. NRVS_NOT_ASKED if no frame is waited for [asked]. */
uint32_t nrvs_run_give(struct nrvs_run *run, uint64_t frame);
uint32_t nrvs_run_give_none(struct nrvs_run *run);

/* Ranges over consecutive frames, as in a direct map: they are to ranges what nrvs_plan_map_in is to nrvs_plan_map [refused, seen:
 * HasSeenRange].
 */
uint32_t nrvs_plan_map_range_in(struct nrvs_run *run, const struct nrvs_target *target, const struct nrvs_words *frames, size_t count,
				uint64_t first, uint64_t base, uint32_t size, uint64_t physical, uint32_t rights, uint64_t bits,
				uint64_t bytes);
uint32_t nrvs_plan_unmap_range_in(struct nrvs_run *run, const struct nrvs_target *target, const struct nrvs_words *frames, size_t count,
				  uint64_t first, uint64_t base, uint64_t bytes);
uint32_t nrvs_plan_protect_range_in(struct nrvs_run *run, const struct nrvs_target *target, const struct nrvs_words *frames, size_t count,
				    uint64_t first, uint64_t base, uint64_t bytes, uint32_t rights);
uint32_t nrvs_plan_harvest_range_in(struct nrvs_run *run, const struct nrvs_target *target, const struct nrvs_words *frames, size_t count,
				    uint64_t first, uint64_t base, uint64_t bytes);

/* What word i of a run becomes if it is `word`. */
static inline uint64_t nrvs_run_word(const struct nrvs_run *run, uint64_t i, uint64_t word)
{
	return (word & run->keep) + run->first_word + i * run->step;
}

/* Exchanges one word, and returns what was there. */
static inline uint64_t nrvs_run_exchange(uint64_t *at, uint64_t keep, uint64_t next)
{
	uint64_t was = __atomic_load_n(at, __ATOMIC_RELAXED);
	while (!__atomic_compare_exchange_n(at, &was, (was & keep) + next, 0, __ATOMIC_SEQ_CST, __ATOMIC_RELAXED))
		;
	return was;
}

/* Carries a run out in the words of its frame, from the first to the last, each by one exchange. So flags that a processor has set
 * meanwhile are kept, or found. For a map a store suffices, since its words aren't present, and no processor writes those. What each
 * exchange finds goes to `found`, which has room for run->count words or is NULL. This is C, and not proved; it is tested (tests/plans).
 */
static inline void nrvs_run_carry_out(const struct nrvs_run *run, uint64_t *words, uint64_t *found)
{
	uint64_t *at = words + run->index, *end = at + run->count, keep = run->keep, next = run->first_word, i;
	const uint64_t count = run->count, step = run->step;

	if (step) {
		for (i = 0; i < count; i++, next += step) {
			if (found)
				found[i] = __atomic_load_n(at + i, __ATOMIC_RELAXED);
			__atomic_store_n(at + i, next, __ATOMIC_RELEASE);
		}
	} else if (keep && found) {
		for (i = 0; i < count; i++)
			found[i] = nrvs_run_exchange(at + i, keep, next);
	} else if (keep) {
		for (; at != end; at++)
			nrvs_run_exchange(at, keep, next);
	} else {
		for (i = 0; i < count; i++) {
			uint64_t was = __atomic_exchange_n(at + i, next, __ATOMIC_SEQ_CST);
			if (found)
				found[i] = was;
		}
	}
}

#ifdef __cplusplus
}
#endif

#endif
