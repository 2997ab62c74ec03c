#include "firmware.h"

#include "../kernel/say.h"

/* Offsets in ACPI's structures, of the versions with 32-bit addresses. */
enum { TO_LIST = 16, TO_LENGTH = 4, HEADER = 36, SRAT_HEADER = 48, PROCESSOR = 0, MEMORY = 1 };

/* Numbers of these structures aren't aligned. */
static uint64_t number_at(const uint8_t *at, unsigned bytes)
{
	uint64_t number = 0;
	for (unsigned k = bytes; k > 0; k--)
		number = number << 8 | at[k - 1];
	return number;
}

static int is_named(const uint8_t *at, const char *name)
{
	for (; *name != 0; at++, name++)
		if (*at != (uint8_t)*name)
			return 0;
	return 1;
}

static const uint8_t *find(const uint8_t *begin, const char *name)
{
	const uint8_t *list;
	if (begin == 0 || !is_named(begin, "RSD PTR "))
		stop("there are no tables of ACPI", (uint64_t)begin);
	list = (const uint8_t *)number_at(begin + TO_LIST, 4);
	for (uint64_t at = HEADER; at < number_at(list + TO_LENGTH, 4); at += 4) {
		const uint8_t *table = (const uint8_t *)number_at(list + at, 4);
		if (is_named(table, name))
			return table;
	}
	stop("ACPI has no table of nodes", (uint64_t)list);
}

static void read_processor(struct firmware *firmware, const uint8_t *at)
{
	const uint64_t node = number_at(at + 2, 1), id = number_at(at + 3, 1);
	if (!(number_at(at + 4, 4) & 1))
		return;
	if (id >= PROCESSORS || node >= MOST_NODES)
		stop("a processor too many:", id);
	firmware->node_of[id] = (unsigned)node;
	if (firmware->nodes <= node)
		firmware->nodes = (unsigned)node + 1;
}

static void read_memory(struct firmware *firmware, const uint8_t *at)
{
	const uint64_t node = number_at(at + 2, 4);
	const struct memory memory = { number_at(at + 8, 8), number_at(at + 16, 8) };
	if (!(number_at(at + 28, 4) & 1))
		return;
	if (node >= MOST_NODES)
		stop("a node too many:", node);
	if (firmware->memories[node].length < memory.length)
		firmware->memories[node] = memory;
}

void firmware_read(struct firmware *firmware, const void *tables)
{
	const uint8_t *table = find(tables, "SRAT"), *end = table + number_at(table + TO_LENGTH, 4);
	for (const uint8_t *at = table + SRAT_HEADER; at < end && at[1] > 0; at += at[1]) {
		if (at[0] == PROCESSOR)
			read_processor(firmware, at);
		else if (at[0] == MEMORY)
			read_memory(firmware, at);
	}
	for (unsigned n = 0; n < firmware->nodes; n++)
		if (firmware->memories[n].length == 0)
			stop("a node without memory:", n);
}
