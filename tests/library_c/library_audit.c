/* The audit for C, on traces and chains whose verdicts are known from elsewhere. Each fault and what it names; orders with and without room
 * for them, and with no array. Chains in pieces of several sizes, and their explanations. Each growth of memory refused in turn. Run from
 * the top of the repository; linked with --wrap of malloc and realloc.
 */
#include "nrvs_audit.h"

#include <stdio.h>
#include <stdlib.h>
#include <string.h>

static int passed, failed;

static void is(uint64_t told, uint64_t wanted, const char *of, const char *what)
{
	if (told == wanted) {
		passed++;
		return;
	}
	failed++;
	printf("%s: %s is %llu, and not %llu\n", of, what, (unsigned long long)told, (unsigned long long)wanted);
}

/* Growths of memory: how many there were in a call, which one is refused, and how many were. */
static unsigned long growths, refused, refusals;

#ifdef __cplusplus
extern "C" {
#endif
void *__real_malloc(size_t size);
void *__real_realloc(void *block, size_t size);
void *__wrap_malloc(size_t size);
void *__wrap_realloc(void *block, size_t size);

void *__wrap_malloc(size_t size)
{
	return ++growths == refused ? NULL : __real_malloc(size);
}

void *__wrap_realloc(void *block, size_t size)
{
	return ++growths == refused ? NULL : __real_realloc(block, size);
}
#ifdef __cplusplus
}
#endif

enum { MOST = 16, ROOM = 8, UNTOUCHED = 0x55555555 };

struct known {
	const char *trace;
	uint32_t fault, format, index, replica;
	uint64_t number;
	size_t calls;
	uint32_t order[ROOM];
};

static const struct known KNOWN[] = {
	{"examples/map_then_resolve.trace", 0, 0, 0, 0, 0, 2, {0, 2}},
	{"examples/stale_read.trace", NRVS_EARLY, 0, 3, 0, 0, 0, {0}},
	{"examples/wrong_answer.trace", NRVS_WRONG_ANSWER, 0, 0, 0, 0, 0, {0}},
	{"tests/cases/empty_trace/input", 0, 0, 0, 0, 0, 0, {0}},
	{"tests/cases/both_halves_of_the_address_space/input", 0, 0, 0, 0, 0, 3, {0, 2, 4}},
	{"tests/cases/read_before_and_after/input", 0, 0, 0, 0, 0, 3, {2, 0, 1}},
	{"tests/cases/protect_changes_rights/input", 0, 0, 0, 0, 0, 4, {0, 2, 4, 6}},
	{"tests/cases/five_levels_high_half/input", 0, 0, 0, 0, 0, 1, {0}},
	{"tests/cases/malformed_without_the_last_byte/input", NRVS_FORMAT, NRVS_FORMAT_TRUNCATED, 0, 0, 0, 0, {0}},
	{"tests/cases/malformed_magic/input", NRVS_FORMAT, NRVS_FORMAT_MAGIC, 0, 0, 0, 0, {0}},
	{"tests/cases/malformed_version_3/input", NRVS_FORMAT, NRVS_FORMAT_VERSION, 0, 0, 0, 0, {0}},
	{"tests/cases/malformed_log_length/input", NRVS_FORMAT, NRVS_FORMAT_COUNT, 0, 0, 0, 0, {0}},
	{"tests/cases/malformed_access_3/input", NRVS_FORMAT, NRVS_FORMAT_EVENT, 2, 0, 0, 0, {0}},
	{"tests/cases/malformed_with_a_byte_more/input", NRVS_FORMAT, NRVS_FORMAT_TRAILING, 0, 0, 0, 0, {0}},
	{"tests/cases/one_fault_thread_open/input", NRVS_THREAD_OPEN, 0, 1, 0, 0, 0, {0}},
	{"tests/cases/one_fault_no_such_call/input", NRVS_NO_SUCH_CALL, 0, 3, 0, 0, 0, {0}},
	{"tests/cases/one_fault_answered_twice/input", NRVS_ANSWERED_TWICE, 0, 3, 0, 0, 0, {0}},
	{"tests/cases/one_fault_not_an_update/input", NRVS_NOT_AN_UPDATE, 0, 0, 0, 0, 0, {0}},
	{"tests/cases/one_fault_placed_twice/input", NRVS_PLACED_TWICE, 0, 1, 0, 0, 0, {0}},
	{"tests/cases/one_fault_not_placed/input", NRVS_NOT_PLACED, 0, 1, 0, 0, 0, {0}},
	{"tests/cases/one_fault_past_log/input", NRVS_PAST_LOG, 0, 3, 0, 0, 0, {0}},
	{"tests/cases/unanswered_update_too_early/input", NRVS_EARLY, 0, 2, 0, 0, 0, {0}},
	{"tests/cases/overlap_names_another_base/input", NRVS_WRONG_ANSWER, 0, 4, 0, 0, 0, {0}},
	{"tests/cases/one_fault_prefix_past_log/input", NRVS_PREFIX_PAST_LOG, 0, 0, 0, 0, 0, {0}},
	{"tests/cases/one_fault_prefix_short/input", NRVS_PREFIX_SHORT, 0, 0, 0, 0, 0, {0}},
	{"tests/cases/faulty_dump_missing_root/input", NRVS_MISSING_FRAME, 0, 0, 0, 5, 0, {0}},
	{"tests/cases/hostile_dump_shared_frame/input", NRVS_SHARED_FRAME, 0, 0, 0, 2, 0, {0}},
	{"tests/cases/faulty_dump_reserved_bit/input", NRVS_RESERVED_BIT, 0, 1, 0, 3, 0, {0}},
	{"tests/cases/faulty_dump_stray_frame/input", NRVS_STRAY_FRAME, 0, 0, 0, 2, 0, {0}},
	{"tests/cases/dump_with_fewer_rights/input", NRVS_DIFFERS, 0, 0, 0, 0x400000, 0, {0}},
};

struct bytes {
	uint8_t *at;
	size_t length;
};

/* The bytes of a file, in a block of just their length. */
static struct bytes bytes_of(const char *path)
{
	struct bytes b = {NULL, 0};
	FILE *file = fopen(path, "rb");
	long length;
	if (!file || fseek(file, 0, SEEK_END) || (length = ftell(file)) < 0 || fseek(file, 0, SEEK_SET)) {
		printf("cannot read %s\n", path);
		exit(2);
	}
	b.length = (size_t)length;
	b.at = (uint8_t *)malloc(b.length ? b.length : 1);
	if (!b.at || fread(b.at, 1, b.length, file) != b.length)
		exit(2);
	fclose(file);
	return b;
}

/* What the audit says of bytes, with room for so many calls. */
static void tells(const struct known *k, struct bytes b, size_t room)
{
	uint32_t order[MOST];
	struct nrvs_finding f;
	size_t i, written = k->calls <= room ? k->calls : 0;
	memset(order, 0x55, sizeof order);
	memset(&f, 0x55, sizeof f);
	is(nrvs_audit(b.at, b.length, order, room, &f), k->fault ? NRVS_WRONG : NRVS_RIGHT, k->trace, "status");
	is(f.fault, k->fault, k->trace, "fault");
	is(f.format, k->format, k->trace, "format");
	is(f.index, k->index, k->trace, "index");
	is(f.replica, k->replica, k->trace, "replica");
	is(f.number, k->number, k->trace, "number");
	is(f.calls, k->calls, k->trace, "calls");
	for (i = 0; i < MOST; i++)
		is(order[i], i < written ? k->order[i] : (uint32_t)UNTOUCHED, k->trace, "order");
}

/* The same verdict comes where no order is wanted and there is no array. */
static void tells_without_array(const struct known *k, struct bytes b)
{
	struct nrvs_finding f;
	memset(&f, 0x55, sizeof f);
	is(nrvs_audit(b.at, b.length, NULL, 0, &f), k->fault ? NRVS_WRONG : NRVS_RIGHT, k->trace, "status without an array");
	is(f.fault, k->fault, k->trace, "fault without an array");
	is(f.calls, k->calls, k->trace, "calls without an array");
}

/* Each growth of memory is refused in turn, until none is: what was there stays, and the next call answers. */
static void refuses(const struct known *k, struct bytes b)
{
	uint32_t order[MOST], before[MOST];
	struct nrvs_finding f, kept;
	uint32_t status = NRVS_NO_MEMORY;
	memset(order, 0x55, sizeof order);
	memcpy(before, order, sizeof order);
	memset(&f, 0x55, sizeof f);
	kept = f;
	for (refused = 1; status == NRVS_NO_MEMORY; refused++) {
		growths = 0;
		status = nrvs_audit(b.at, b.length, order, MOST, &f);
		if (status == NRVS_NO_MEMORY) {
			refusals++;
			is((uint64_t)memcmp(order, before, sizeof order), 0, k->trace, "an order kept");
			is((uint64_t)memcmp(&f, &kept, sizeof f), 0, k->trace, "a finding kept");
		}
	}
	is(status, k->fault ? NRVS_WRONG : NRVS_RIGHT, k->trace, "status once all grow");
	refused = 0;
}

/* The number of the second frame of the dump of a trace does not rise. */
static void bad_frame(void)
{
	static const struct known k = {"a second frame of number 0", NRVS_FORMAT, NRVS_FORMAT_FRAME, 1, 0, 0, 0, {0}};
	struct bytes b = bytes_of("examples/map_then_resolve.trace");
	memset(b.at + 20 + 4 + 4 * 24 + 16 + 4104, 0, 8);
	tells(&k, b, MOST);
	free(b.at);
}

/* No bytes at all, with no array of them. */
static void no_bytes(void)
{
	static const struct known k = {"no bytes", NRVS_FORMAT, NRVS_FORMAT_TRUNCATED, 0, 0, 0, 0, {0}};
	static const struct bytes none = {NULL, 0};
	tells(&k, none, MOST);
	tells_without_array(&k, none);
}

/* ---- chains */

enum { LINE = 8192, CALLS = 1024 };

static const char *const FAULTS[] = {
	"",	      "Format",	       "ThreadOpen",  "NoSuchCall",   "AnsweredTwice", "NotAnUpdate",  "PlacedTwice", "NotPlaced",   "PastLog",
	"Early",      "WrongAnswer",   "PrefixPastLog", "PrefixShort", "MissingFrame", "SharedFrame",  "ReservedBit", "StrayFrame",  "Differs",
	"StartMissing", "StartShared", "StartReserved", "StartStray", "StartBeyond",   "StartDiffers", "Stale",	      "Reachable",
};

static const char *const FORMATS[] = {
	"", "Truncated", "BadMagic", "BadVersion", "BadCount", "BadEvent", "BadFrame", "Trailing", "BadChain", "BadStart",
};

/* The name of a fault of the format, and its numbers, as the program prints them. */
static void format_words(char *to, const struct nrvs_finding *f)
{
	if (f->format == NRVS_FORMAT_FRAME)
		sprintf(to, "1 Format %s %u %u", FORMATS[f->format], f->replica, f->index);
	else if (f->format == NRVS_FORMAT_EVENT || f->format == NRVS_FORMAT_START)
		sprintf(to, "1 Format %s %u", FORMATS[f->format], f->index);
	else
		sprintf(to, "1 Format %s", FORMATS[f->format]);
}

/* The same of any fault. */
static void fault_words(char *to, const struct nrvs_finding *f)
{
	unsigned long long number = f->number;
	int length = sprintf(to, "%u %s ", f->fault, FAULTS[f->fault]);
	switch (f->fault) {
	case NRVS_FORMAT:
		format_words(to, f);
		break;
	case NRVS_PREFIX_PAST_LOG:
	case NRVS_PREFIX_SHORT:
		sprintf(to + length, "%u", f->replica);
		break;
	case NRVS_MISSING_FRAME:
	case NRVS_SHARED_FRAME:
	case NRVS_STRAY_FRAME:
		sprintf(to + length, "%u %llu", f->replica, number);
		break;
	case NRVS_RESERVED_BIT:
		sprintf(to + length, "%u %llu %u", f->replica, number, f->index);
		break;
	case NRVS_DIFFERS:
		sprintf(to + length, "%u 0x%llx", f->replica, number);
		break;
	case NRVS_START_MISSING:
	case NRVS_START_SHARED:
	case NRVS_START_STRAY:
		sprintf(to + length, "%llu", number);
		break;
	case NRVS_START_RESERVED:
		sprintf(to + length, "%llu %u", number, f->index);
		break;
	case NRVS_START_BEYOND:
	case NRVS_START_DIFFERS:
		sprintf(to + length, "0x%llx", number);
		break;
	default:
		sprintf(to + length, "%u", f->index);
	}
}

/* Feeds a chain in pieces of at most so many bytes, and ends it. What the program would print of it is written to `said`, lines parted by
 * slashes. Returns the last status: the verdict, or that memory ran out.
 */
static uint32_t judges(struct nrvs_audit_chain *chain, struct bytes b, size_t most, char *said)
{
	static uint32_t order[CALLS];
	struct nrvs_finding f;
	size_t at = 0, taken, i;
	unsigned segments = 0;
	uint32_t status = NRVS_MORE;
	while (at < b.length && (status == NRVS_MORE || status == NRVS_RIGHT)) {
		size_t piece = b.length - at < most ? b.length - at : most;
		status = nrvs_audit_chain_feed(chain, b.at + at, piece, order, CALLS, &f, &taken);
		if (status == NRVS_NO_MEMORY)
			return status;
		at += taken;
		if (status != NRVS_RIGHT)
			continue;
		said += sprintf(said, "segment %u/yes/order", segments++);
		for (i = 0; i < f.calls; i++)
			said += sprintf(said, " %u", order[i]);
		said += sprintf(said, "/");
	}
	if (status != NRVS_WRONG)
		status = nrvs_audit_chain_end(chain, &f);
	if (status == NRVS_RIGHT)
		sprintf(said, "segments %u", segments);
	if (status == NRVS_WRONG)
		fault_words(said + sprintf(said, "segment %u/no ", segments), &f);
	return status;
}

/* What is said of a chain is what was expected, in pieces of this size. */
static void tells_chain(const char *name, struct bytes b, size_t most, const char *wanted)
{
	static char said[LINE];
	struct nrvs_audit_chain chain;
	memset(&chain, 0, sizeof chain);
	is(nrvs_audit_chain_new(&chain, false), NRVS_MORE, name, "status of a new chain");
	is(judges(&chain, b, most, said), strstr(wanted, "no ") ? NRVS_WRONG : NRVS_RIGHT, name, "status at the end");
	is((uint64_t)strcmp(said, wanted), 0, name, "what is said of a chain");
	nrvs_audit_chain_free(&chain);
}

/* The worked chains. */
static void worked_chains(void)
{
	static char line[LINE], path[LINE + 32];
	FILE *file = fopen("tests/chains/EXPECTED", "r");
	size_t chains = 0;
	if (!file)
		exit(2);
	while (fgets(line, sizeof line, file)) {
		char *wanted = strchr(line, '\t');
		struct bytes b;
		if (line[0] == '#' || !wanted)
			continue;
		*wanted++ = 0;
		wanted[strcspn(wanted, "\n")] = 0;
		snprintf(path, sizeof path, "tests/chains/%s.chain", line);
		b = bytes_of(path);
		tells_chain(line, b, b.length <= 1024 ? 1 : 97, wanted);
		tells_chain(line, b, 4096, wanted);
		tells_chain(line, b, b.length + 1, wanted);
		free(b.at);
		chains++;
	}
	fclose(file);
	is(chains > 100, 1, "the worked chains", "more than a hundred");
}

/* Each growth of memory is refused in turn, until none is: then the chain is over, and has no verdict. */
static void refuses_chain(const char *name, struct bytes b, const char *wanted)
{
	static char said[LINE];
	struct nrvs_audit_chain chain;
	struct nrvs_finding f;
	uint32_t status = NRVS_NO_MEMORY;
	size_t length, taken;
	memset(&chain, 0, sizeof chain);
	for (refused = 1; status == NRVS_NO_MEMORY; refused++) {
		growths = 0;
		status = nrvs_audit_chain_new(&chain, true);
		if (status == NRVS_NO_MEMORY) {
			is(nrvs_audit_chain_end(&chain, &f), NRVS_NO_CHAIN, name, "a chain that was not begun");
			continue;
		}
		status = judges(&chain, b, 4096, said);
		if (status == NRVS_NO_MEMORY) {
			refusals++;
			is(nrvs_audit_chain_feed(&chain, b.at, b.length, NULL, 0, &f, &taken), NRVS_CHAIN_OVER, name, "a chain without memory");
			is(nrvs_audit_chain_explain(&chain, false, NULL, 0, &length), NRVS_NOT_EXPLAINED, name, "its explanation");
		}
		nrvs_audit_chain_free(&chain);
	}
	refused = 0;
	is((uint64_t)strcmp(said, wanted), 0, name, "what is said once all grow");
}

/* The same of an explanation: it comes once all grow. */
static void refuses_to_explain(const char *name, struct bytes b)
{
	static char said[LINE];
	struct nrvs_audit_chain chain;
	uint32_t verdict, status = NRVS_NO_MEMORY;
	size_t length = 7;
	memset(&chain, 0, sizeof chain);
	is(nrvs_audit_chain_new(&chain, true), NRVS_MORE, name, "status of a new chain");
	verdict = judges(&chain, b, 4096, said);
	for (refused = 1; status == NRVS_NO_MEMORY; refused++) {
		growths = 0;
		status = nrvs_audit_chain_explain(&chain, true, NULL, 0, &length);
		if (status == NRVS_NO_MEMORY)
			is(length, 7, name, "a length kept");
	}
	refused = 0;
	is(status, verdict, name, "status of an explanation once all grow");
	nrvs_audit_chain_free(&chain);
}

/* The explanation of a case of tests/cases is its output, and fits no smaller array. */
static void explains(const char *name, bool as_json)
{
	static char path[256], said[LINE], text[LINE];
	struct nrvs_audit_chain chain;
	struct bytes b, wanted;
	size_t length = 0;
	uint32_t status;
	memset(&chain, 0, sizeof chain);
	memset(text, 0x55, sizeof text);
	snprintf(path, sizeof path, "tests/cases/%s/input", name);
	b = bytes_of(path);
	snprintf(path, sizeof path, "tests/cases/%s/output", name);
	wanted = bytes_of(path);
	is(nrvs_audit_chain_new(&chain, true), NRVS_MORE, name, "status of a new chain");
	is(nrvs_audit_chain_explain(&chain, as_json, text, sizeof text, &length), NRVS_NOT_EXPLAINED, name, "too early");
	status = judges(&chain, b, 1000, said);
	is(nrvs_audit_chain_explain(&chain, as_json, text, wanted.length - 1, &length), status, name, "status without room");
	is(text[0], 0x55, name, "text without room");
	is(nrvs_audit_chain_explain(&chain, as_json, text, sizeof text, &length), status, name, "status of its explanation");
	is(length, wanted.length, name, "length of the text");
	is((uint64_t)memcmp(text, wanted.at, wanted.length), 0, name, "text");
	is(text[length], 0x55, name, "what is behind the text");
	nrvs_audit_chain_free(&chain);
	free(wanted.at);
	free(b.at);
}

/* Each call that makes no sense has its status, and changes nothing. */
static void mistakes(struct bytes b)
{
	static char said[LINE];
	const char *name = "mistakes";
	struct nrvs_audit_chain chain;
	struct nrvs_finding f;
	size_t taken = 7, length = 7;
	memset(&chain, 0, sizeof chain);
	is(nrvs_audit_chain_feed(&chain, b.at, b.length, NULL, 0, &f, &taken), NRVS_NO_CHAIN, name, "fed before it was begun");
	is(nrvs_audit_chain_end(&chain, &f), NRVS_NO_CHAIN, name, "ended before it was begun");
	is(nrvs_audit_chain_explain(&chain, false, NULL, 0, &length), NRVS_NO_CHAIN, name, "explained before it was begun");
	nrvs_audit_chain_free(&chain);
	is(nrvs_audit_chain_new(&chain, false), NRVS_MORE, name, "begun");
	is(nrvs_audit_chain_new(&chain, false), NRVS_CHAIN_IN_USE, name, "begun twice");
	is(nrvs_audit_chain_feed(&chain, NULL, 0, NULL, 0, &f, &taken), NRVS_MORE, name, "fed nothing");
	is(taken, 0, name, "taken of nothing");
	is(judges(&chain, b, 4096, said), NRVS_RIGHT, name, "judged");
	taken = 7;
	is(nrvs_audit_chain_feed(&chain, b.at, b.length, NULL, 0, &f, &taken), NRVS_CHAIN_OVER, name, "fed after its end");
	is(taken, 7, name, "taken after the end");
	is(nrvs_audit_chain_end(&chain, &f), NRVS_CHAIN_OVER, name, "ended twice");
	is(nrvs_audit_chain_explain(&chain, false, NULL, 0, &length), NRVS_NOT_EXPLAINED, name, "without explanations");
	is(length, 7, name, "its length");
	nrvs_audit_chain_free(&chain);
	is(nrvs_audit_chain_end(&chain, &f), NRVS_NO_CHAIN, name, "ended after it was freed");
	nrvs_audit_chain_free(&chain);
}

static void chains(void)
{
	struct bytes right = bytes_of("tests/chains/two_segments.chain");
	struct bytes wrong = bytes_of("tests/chains/second_begins_elsewhere.chain");
	worked_chains();
	refuses_chain("two segments", right, "segment 0/yes/order 0 2/segment 1/yes/order 0/segments 2");
	refuses_chain("another start", wrong, "segment 0/yes/order 0 2/segment 1/no 23 StartDiffers 0x400000");
	refuses_to_explain("another start", wrong);
	explains("chain_explained_right", false);
	explains("chain_explained_right_as_json", true);
	explains("chain_explained_cut", false);
	explains("chain_explained_cut_in_a_start_as_json", true);
	explains("chain_explained_kind_in_the_third", false);
	explains("chain_explained_of_an_earlier_segment", false);
	explains("chain_explained_stale_touch", false);
	explains("chain_explained_stale_touch_as_json", true);
	explains("chain_explained_start_differs", false);
	explains("chain_explained_start_shared", false);
	mistakes(right);
	free(wrong.at);
	free(right.at);
}

int main(void)
{
	size_t i, room;
	for (i = 0; i < sizeof KNOWN / sizeof *KNOWN; i++) {
		struct bytes b = bytes_of(KNOWN[i].trace);
		for (room = 0; room <= ROOM; room++)
			tells(&KNOWN[i], b, room);
		tells_without_array(&KNOWN[i], b);
		refuses(&KNOWN[i], b);
		free(b.at);
	}
	bad_frame();
	no_bytes();
	is(refusals > sizeof KNOWN / sizeof *KNOWN, 1, "all traces", "some refusals");
	chains();
	printf("%d passed, %d failed\n", passed, failed);
	return failed != 0;
}
