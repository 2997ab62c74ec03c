/* The five headers in one file, in the order in which the compiler is given them (tests/library): nrvs.h, nrvs_audit.h, nrvs_nodes.h,
 * nrvs_plan.h, nrvs_trace.h. Each constant has the number that the documents give it; a page table of the library is recorded, and its trace
 * judged; and a node appends one update.
 */
#include <stdio.h>
#include <stdlib.h>
#include <string.h>

#ifdef __cplusplus
#define VALUE(name, number) static_assert((uint64_t)(name) == (uint64_t)(number), #name)
#else
#define VALUE(name, number) _Static_assert((uint64_t)(name) == (uint64_t)(number), #name)
#endif

/* Sizes, rights, modes, accesses, kinds and answers: the tables of docs/FORMATS.md, and `size_code`, `rights_code`, `answer_code`. */
VALUE(NRVS_4K, 0);
VALUE(NRVS_2M, 1);
VALUE(NRVS_1G, 2);
VALUE(NRVS_WRITE, 1);
VALUE(NRVS_USER, 2);
VALUE(NRVS_EXEC, 4);
VALUE(NRVS_SUPERVISOR, 0);
VALUE(NRVS_SUPERVISOR_MODE, 0);
VALUE(NRVS_USER_MODE, 1);
VALUE(NRVS_READ, 0);
VALUE(NRVS_STORE, 1);
VALUE(NRVS_FETCH, 2);
VALUE(NRVS_READS, 0);
VALUE(NRVS_WRITES, 1);
VALUE(NRVS_FETCHES, 2);
VALUE(NRVS_KIND_MAP, 0);
VALUE(NRVS_KIND_UNMAP, 1);
VALUE(NRVS_KIND_PROTECT, 2);
VALUE(NRVS_KIND_RESOLVE, 3);
VALUE(NRVS_KIND_ACCESS, 4);
VALUE(NRVS_KIND_TOUCH, 5);
VALUE(NRVS_KIND_RELEASE, 6);
VALUE(NRVS_DONE, 0);
VALUE(NRVS_OVERLAP, 1);
VALUE(NRVS_FULL, 2);
VALUE(NRVS_REMOVED, 3);
VALUE(NRVS_NOT_MAPPED, 4);
VALUE(NRVS_INSIDE, 5);
VALUE(NRVS_CHANGED, 6);
VALUE(NRVS_MAPPED, 7);
VALUE(NRVS_ALLOWED, 8);
VALUE(NRVS_FAULT, 9);

/* Replies of plans: `reply_numbers` of `crates/nrvs_plan_c/specs/Told.antt`. */
VALUE(NRVS_NO_FRAME, 10);
VALUE(NRVS_FRAME_RANGE, 11);
VALUE(NRVS_NARROW, 12);
VALUE(NRVS_EMPTY, 13);
VALUE(NRVS_RESERVED, 14);
VALUE(NRVS_MISPLACED, 15);
VALUE(NRVS_BEYOND, 16);
VALUE(NRVS_SMALLEST, 17);
VALUE(NRVS_LARGEST, 18);
VALUE(NRVS_NOT_FIRST, 19);
VALUE(NRVS_APART, 20);
VALUE(NRVS_PINNED, 21);

/* Flushes: `flush_numbers` there; the most stores and frames: `MOST_STORES`, `MOST_UNLINKED` of crates/vs_plan/src/plans/plan.rt; attributes:
 * bits 3 to 11 and 52 to 62, `AreBits` of crates/vs_types/specs/Bits.antt.
 */
VALUE(NRVS_FLUSH_NOTHING, 0);
VALUE(NRVS_FLUSH_PAGE, 1);
VALUE(NRVS_FLUSH_PAGE_AND_TABLES, 2);
VALUE(NRVS_FLUSH_RANGE, 3);
VALUE(NRVS_MOST_STORES, 5);
VALUE(NRVS_MOST_UNLINKED, 4);
VALUE(NRVS_ATTRIBUTES, 9218868437227409400);

/* Statuses: of a page table and of a plan `status_of`, `new_status`, `begun_status`, `target_status` and `status_in` of
 * crates/nrvs_c/specs and crates/nrvs_plan_c/specs, and crates/nrvs_c/src/status.rt.
 */
VALUE(NRVS_OK, 0);
VALUE(NRVS_NO_TABLE, 1);
VALUE(NRVS_BAD_LEVELS, 2);
VALUE(NRVS_BAD_FRAMES, 3);
VALUE(NRVS_BAD_MARKS, 4);
VALUE(NRVS_BAD_BASE, 5);
VALUE(NRVS_BAD_SIZE, 6);
VALUE(NRVS_BAD_RIGHTS, 7);
VALUE(NRVS_BAD_MODE, 8);
VALUE(NRVS_BAD_ACCESS, 9);
VALUE(NRVS_NOT_CANONICAL, 10);
VALUE(NRVS_UNALIGNED, 11);
VALUE(NRVS_PHYS_UNALIGNED, 12);
VALUE(NRVS_PHYS_RANGE, 13);
VALUE(NRVS_PHYS_BITS, 14);
VALUE(NRVS_BAD_BITS, 15);
VALUE(NRVS_BAD_ROOT, 16);
VALUE(NRVS_NOT_ASKED, 17);
VALUE(NRVS_BAD_PART, 18);
VALUE(NRVS_PLANNED, 0);
VALUE(NRVS_SEE, 32);
VALUE(NRVS_GIVE, 33);
VALUE(NRVS_RUN, 34);
VALUE(NRVS_HARVEST, 35);
VALUE(NRVS_ABSENT, 36);
VALUE(NRVS_ENDS_BEYOND, 37);

/* The audit: `verdict_status`, and crates/audit_numbers/src/status.rt; faults and formats: `fault_numbers`, `format_numbers` of
 * crates/audit_numbers/specs/Numbers.antt.
 */
VALUE(NRVS_RIGHT, 0);
VALUE(NRVS_WRONG, 1);
VALUE(NRVS_MORE, 2);
VALUE(NRVS_NO_MEMORY, 3);
VALUE(NRVS_NO_CHAIN, 4);
VALUE(NRVS_CHAIN_OVER, 5);
VALUE(NRVS_CHAIN_IN_USE, 6);
VALUE(NRVS_NOT_EXPLAINED, 7);
VALUE(NRVS_FORMAT, 1);
VALUE(NRVS_THREAD_OPEN, 2);
VALUE(NRVS_NO_SUCH_CALL, 3);
VALUE(NRVS_ANSWERED_TWICE, 4);
VALUE(NRVS_NOT_AN_UPDATE, 5);
VALUE(NRVS_PLACED_TWICE, 6);
VALUE(NRVS_NOT_PLACED, 7);
VALUE(NRVS_PAST_LOG, 8);
VALUE(NRVS_EARLY, 9);
VALUE(NRVS_WRONG_ANSWER, 10);
VALUE(NRVS_PREFIX_PAST_LOG, 11);
VALUE(NRVS_PREFIX_SHORT, 12);
VALUE(NRVS_MISSING_FRAME, 13);
VALUE(NRVS_SHARED_FRAME, 14);
VALUE(NRVS_RESERVED_BIT, 15);
VALUE(NRVS_STRAY_FRAME, 16);
VALUE(NRVS_DIFFERS, 17);
VALUE(NRVS_START_MISSING, 18);
VALUE(NRVS_START_SHARED, 19);
VALUE(NRVS_START_RESERVED, 20);
VALUE(NRVS_START_STRAY, 21);
VALUE(NRVS_START_BEYOND, 22);
VALUE(NRVS_START_DIFFERS, 23);
VALUE(NRVS_STALE, 24);
VALUE(NRVS_REACHABLE, 25);
VALUE(NRVS_FORMAT_TRUNCATED, 1);
VALUE(NRVS_FORMAT_MAGIC, 2);
VALUE(NRVS_FORMAT_VERSION, 3);
VALUE(NRVS_FORMAT_COUNT, 4);
VALUE(NRVS_FORMAT_EVENT, 5);
VALUE(NRVS_FORMAT_FRAME, 6);
VALUE(NRVS_FORMAT_TRAILING, 7);
VALUE(NRVS_FORMAT_CHAIN, 8);
VALUE(NRVS_FORMAT_START, 9);

/* Nodes: what is asked for and its word, `numbers_of`, `numbers_of_word` of crates/nrvs_nodes_c/specs/Numbers.antt; refusals, `refusal_code`
 * there and `NO_NODE` of crates/nrvs_nodes_c/src/codes.rt; limits, `NODES` and `RING` of crates/nr_machine/src/words.rt.
 */
VALUE(NRVS_NODE_DONE, 0);
VALUE(NRVS_NODE_LOAD, 1);
VALUE(NRVS_NODE_STORE, 2);
VALUE(NRVS_NODE_EXCHANGE, 3);
VALUE(NRVS_NODE_MAX, 4);
VALUE(NRVS_NODE_APPLY, 5);
VALUE(NRVS_NODE_LAGS, 6);
VALUE(NRVS_NODE_BROKEN, 7);
VALUE(NRVS_NODE_REFUSED, 16);
VALUE(NRVS_NODE_BUSY, 16);
VALUE(NRVS_NODE_EMPTY, 17);
VALUE(NRVS_NODE_TOO_MANY, 18);
VALUE(NRVS_NODE_TOO_LARGE, 19);
VALUE(NRVS_NODE_NO_NODE, 20);
VALUE(NRVS_WORD_HEAD, 0);
VALUE(NRVS_WORD_COMPLETED, 1);
VALUE(NRVS_WORD_LOCAL, 2);
VALUE(NRVS_WORD_DONE, 3);
VALUE(NRVS_WORD_FIRST, 4);
VALUE(NRVS_WORD_SECOND, 5);
VALUE(NRVS_MOST_NODES, 64);
VALUE(NRVS_NODE_RING, 16);

/* Limits of a trace and of a chain: docs/FORMATS.md. */
VALUE(NRVS_MAX_REPLICAS, 4);
VALUE(NRVS_MAX_THREADS, 64);
VALUE(NRVS_MAX_TABLES, 4096);
VALUE(NRVS_MAX_PLACES, 65536);
VALUE(NRVS_MAX_EVENTS, 131072);
VALUE(NRVS_MAX_CHAIN_THREADS, 65535);
VALUE(NRVS_MAX_CHAIN_TABLES, 65535);

/* The recorder's own numbers, in the order in which nrvs_status_text names them; no document has them. */
VALUE(NRVS_RECORDED, 0);
VALUE(NRVS_BAD_CONFIG, 1);
VALUE(NRVS_BAD_EVENT, 2);
VALUE(NRVS_EVENTS_FULL, 3);
VALUE(NRVS_NO_CALL, 4);
VALUE(NRVS_LOG_FULL, 5);
VALUE(NRVS_PLACE_TAKEN, 6);
VALUE(NRVS_BAD_REPLICA, 7);
VALUE(NRVS_BAD_FRAME, 8);
VALUE(NRVS_FRAME_FAILED, 9);
VALUE(NRVS_FRAMES_FULL, 10);
VALUE(NRVS_TOO_MANY_FRAMES, 11);
VALUE(NRVS_NOT_DUMPED, 12);
VALUE(NRVS_NOT_WRITTEN, 13);
VALUE(NRVS_GAP_IN_LOG, 14);
VALUE(NRVS_WRITE_FAILED, 15);
VALUE(NRVS_BAD_START, 16);
VALUE(NRVS_CALL_OPEN, 17);
VALUE(NRVS_BAD_CHAIN, 18);
VALUE(NRVS_NOT_FINISHED, 19);
VALUE(NRVS_NONE, 4294967295);
VALUE(NRVS_NO_EVENT, 18446744073709551615u);
VALUE(NRVS_NO_NODE, 65535);

enum { FRAMES = 8, EVENTS = 32, PLACES = 8, BYTES = 1 << 17 };

static struct nrvs_words *words;
static struct nrvs_mark marks[FRAMES];
static struct nrvs_table table;
static uint64_t events[EVENTS][3];
static nrvs_atomic places[PLACES];
static nrvs_frame frames[FRAMES];
static nrvs_trace trace;
static uint8_t bytes[BYTES];
static size_t length;
static uint32_t updates;

static void must(int holds, int line)
{
	if (holds)
		return;
	printf("failed: line %d\n0 passed, 1 failed\n", line);
	exit(1);
}

#define MUST(holds) must(holds, __LINE__)

static int lend(void *context, uint64_t number, const uint64_t **lent)
{
	(void)context;
	*lent = number - table.base < FRAMES ? words[number - table.base].word : NULL;
	return 0;
}

static int put(void *context, const uint8_t *more, uint32_t count)
{
	(void)context;
	if (count > BYTES - length)
		return 1;
	memcpy(bytes + length, more, count);
	length += count;
	return 0;
}

/* A map, made and recorded. */
static void maps(uint64_t base, nrvs_size size, uint64_t physical, uint32_t rights)
{
	struct nrvs_reply reply;
	uint32_t call;
	MUST(nrvs_call(&trace, 0, 0, nrvs_map(base, size, physical, rights), &call) == NRVS_OK);
	MUST(nrvs_place(&trace, updates, call) == NRVS_OK);
	MUST(nrvs_table_map(&table, words, FRAMES, marks, FRAMES, base, size, physical, rights, &reply) == NRVS_OK);
	MUST(reply.code == NRVS_DONE || reply.code == NRVS_OVERLAP);
	MUST(nrvs_reply(&trace, call, updates, reply.code == NRVS_DONE ? nrvs_done() : nrvs_overlap(reply.number)) == NRVS_OK);
	updates++;
}

/* An access, made and recorded. */
static void accesses(uint64_t address, nrvs_mode mode, nrvs_act act)
{
	struct nrvs_reply reply;
	uint32_t call;
	MUST(nrvs_call(&trace, 0, 0, nrvs_access(address, mode, act), &call) == NRVS_OK);
	MUST(nrvs_table_access(&table, words, FRAMES, marks, FRAMES, address, mode, act, &reply) == NRVS_OK);
	MUST(nrvs_reply(&trace, call, updates,
			reply.code == NRVS_ALLOWED ? nrvs_allowed(reply.number) : nrvs_fault(reply.number)) == NRVS_OK);
}

/* A node alone appends an update: its words are loaded and stored as they are asked for. */
static void appends(void)
{
	static struct nrvs_node node;
	uint64_t word[4] = { 0, 0, 0, 0 }, ring[2 * NRVS_NODE_RING], was;
	const struct nrvs_node_update update = { 5, 6 };
	struct nrvs_node_reply reply = { 7, 8 };
	uint32_t code;
	MUST(nrvs_node_new(&node, 1, 0) == NRVS_NODE_DONE);
	for (code = nrvs_node_update(&node, &update, 1); code != NRVS_NODE_DONE;) {
		uint64_t *at = node.asked.word < NRVS_WORD_FIRST ? &word[node.asked.word] :
								   &ring[2 * node.asked.index + (node.asked.word == NRVS_WORD_SECOND)];
		MUST(code < NRVS_NODE_LAGS);
		if (code == NRVS_NODE_APPLY) {
			MUST(node.asked.entry.first == 5 && node.asked.entry.second == 6);
			code = nrvs_node_applied(&node, &reply);
			continue;
		}
		was = code == NRVS_NODE_STORE ? 0 : *at;
		if (code == NRVS_NODE_EXCHANGE)
			*at = node.asked.new_value;
		else if (code != NRVS_NODE_LOAD)
			*at = node.asked.value;
		code = nrvs_node_told(&node, was);
	}
	MUST(nrvs_node_at(&node) == 1 && node.reply_count == 1 && node.replies[0].first == 7);
	MUST(word[NRVS_WORD_HEAD] == 128 && nrvs_nodes_everywhere(&word[NRVS_WORD_DONE], 1, 0));
}

int main(void)
{
	nrvs_config config;
	struct nrvs_finding finding;
	memset(&config, 0, sizeof config);
	config.levels = 4, config.replicas = config.threads = 1, config.tables = FRAMES;
	config.events = events, config.event_room = EVENTS;
	config.log = places, config.log_room = PLACES;
	config.frames = frames, config.frame_room = FRAMES;
	words = (struct nrvs_words *)calloc(FRAMES, sizeof *words);
	MUST(words != NULL);
	MUST(nrvs_table_new(&table, words, FRAMES, marks, FRAMES, 4, 0x100) == NRVS_OK);
	MUST(nrvs_begin(&trace, &config) == NRVS_OK);
	maps(0x400000, NRVS_4K, 0x1000, NRVS_WRITE);
	maps(0x400000, NRVS_2M, 0x200000, NRVS_USER | NRVS_EXEC);
	maps(0x40000000, NRVS_1G, 0, NRVS_USER);
	accesses(0x400123, NRVS_SUPERVISOR_MODE, NRVS_WRITES);
	accesses(0x40000123, NRVS_USER_MODE, NRVS_READS);
	accesses(0x40000123, NRVS_USER_MODE, NRVS_FETCHES);
	MUST((int)NRVS_SUPERVISOR == (int)NRVS_SUPERVISOR_MODE && (int)NRVS_STORE == (int)NRVS_WRITES);
	MUST(nrvs_dump(&trace, 0, updates, table.root, lend, NULL) == NRVS_OK);
	MUST(nrvs_finish(&trace, put, NULL) == NRVS_OK);
	MUST(nrvs_audit(bytes, length, NULL, 0, &finding) == NRVS_RIGHT);
	MUST(finding.calls == 6);
	bytes[length - 1] ^= 1;
	MUST(nrvs_audit(bytes, length, NULL, 0, &finding) == NRVS_WRONG);
	appends();
	printf("1 passed, 0 failed\n");
	free(words);
	return 0;
}
