#include "guest.h"

#include "rests.h"

#include <stdio.h>
#include <stdlib.h>
#include <string.h>

struct guest guest = { .levels = 4, .rest_at = REST_AT_STORE | REST_AT_FLUSH };

static const uint8_t *memory;
static uint64_t size;
static uint64_t kernel_root; /* the frame of a table that has the kernel's half */

static uint64_t direct_map(void)
{
	return guest.levels == 5 ? 0xff11000000000000u : 0xffff888000000000u;
}

static uint64_t struct_pages(void)
{
	return guest.levels == 5 ? 0xffd4000000000000u : 0xffffea0000000000u;
}

int guest_is_found(void)
{
	return memory != NULL;
}

static const struct {
	const char *name;
	uint64_t *number;
} settings[] = {
	{ "levels", &guest.levels }, { "isolated", &guest.isolated }, { "percpu", &guest.percpu }, { "loaded", &guest.loaded },
	{ "current", &guest.current }, { "flushing", &guest.flushing }, { "birth", &guest.birth }, { "pgd", &guest.pgd },
	{ "entry", &guest.entry }, { "entry_end", &guest.entry_end }, { "text", &guest.text }, { "text_end", &guest.text_end },
	{ "page_bytes", &guest.page_bytes }, { "page_flags", &guest.page_flags }, { "page_type", &guest.page_type },
	{ "table_mask", &guest.table_mask }, { "table_kind", &guest.table_kind }, { "rest", &guest.rest },
	{ "rest_at", &guest.rest_at }, { "child", &guest.child }, { "nested", &guest.nested }, { "nested_end", &guest.nested_end },
};

int guest_set(const char *name, const char *value)
{
	if (!strcmp(name, "memory"))
		return snprintf(guest.memory, sizeof guest.memory, "%s", value) < (int)sizeof guest.memory;
	for (size_t k = 0; k < sizeof settings / sizeof settings[0]; k++) {
		if (strcmp(name, settings[k].name))
			continue;
		*settings[k].number = strtoull(value, NULL, 0);
		return 1;
	}
	return 0;
}

/* The memory is the largest map of its file in QEMU's own address space. */
void guest_find(void)
{
	FILE *maps = fopen("/proc/self/maps", "r");
	unsigned long begin, end;
	char line[1024];

	while (maps && fgets(line, sizeof line, maps)) {
		if (!strstr(line, guest.memory) || sscanf(line, "%lx-%lx", &begin, &end) != 2 || end - begin <= size)
			continue;
		memory = (const uint8_t *)begin;
		size = end - begin;
	}
	if (maps)
		fclose(maps);
	if (!memory) {
		fprintf(stderr, "watch: the guest's memory isn't the file %s\n", guest.memory);
		exit(2);
	}
}

uint64_t guest_frames(void)
{
	return size >> 12;
}

uint64_t guest_word(uint64_t physical)
{
	return physical <= size - 8 ? *(const volatile uint64_t *)(memory + physical) : 0;
}

uint64_t guest_direct(uint64_t address)
{
	return address >= direct_map() && address - direct_map() < size ? address - direct_map() : NOWHERE;
}

uint64_t guest_of_host(const void *byte)
{
	uint64_t offset = (uint64_t)byte - (uint64_t)memory;

	return offset < size ? offset : NOWHERE;
}

uint64_t guest_own_base(unsigned cpu)
{
	return guest_word(guest.percpu - KERNEL_TEXT + 8 * cpu);
}

uint64_t guest_frame_of(uint64_t address)
{
	uint64_t offset = address - struct_pages() - guest.page_flags;

	return offset % guest.page_bytes ? NOWHERE : offset / guest.page_bytes;
}

/* The physical address of a processor's copy of a variable. */
static uint64_t own(unsigned cpu, uint64_t variable)
{
	return guest_own_base(cpu) - direct_map() + variable;
}

uint64_t guest_loaded(unsigned cpu)
{
	return guest_word(own(cpu, guest.loaded));
}

uint64_t guest_task(unsigned cpu)
{
	return guest_word(own(cpu, guest.current));
}

void guest_enter(uint64_t space)
{
	kernel_root = guest_direct(guest_word(guest_direct(space + guest.pgd))) >> 12;
}

uint64_t guest_root(void)
{
	return kernel_root + guest.isolated;
}

struct flush guest_flush(unsigned cpu)
{
	uint64_t at = own(cpu, guest.flushing);
	struct flush flush = { guest_word(at), guest_word(at + 8), guest_word(at + 16) };

	return flush;
}

int guest_is_of_flush(unsigned cpu, uint64_t address)
{
	return address - guest_own_base(cpu) - guest.flushing < sizeof(struct flush);
}

uint64_t guest_walk(uint64_t address)
{
	uint64_t word, bytes, table = kernel_root;

	for (unsigned level = (unsigned)guest.levels;; level--) {
		word = guest_word((table << 12) + 8 * (address >> (3 + 9 * level) & (ENTRIES - 1)));
		if (!(word & 1))
			return NOWHERE;
		bytes = (uint64_t)1 << (3 + 9 * level);
		if (level == 1 || (level <= 3 && word & 0x80))
			return (word & 0x000ffffffffff000u & ~(bytes - 1)) + (address & (bytes - 1));
		table = (word & 0x000ffffffffff000u) >> 12;
	}
}

uint64_t guest_kernel_word(uint64_t address)
{
	uint64_t physical = guest_walk(address);

	return physical == NOWHERE ? 0 : guest_word(physical);
}

int guest_holds_table(uint64_t frame)
{
	uint64_t address = struct_pages() + frame * guest.page_bytes + guest.page_type, at = guest_walk(address & ~(uint64_t)7);

	if (at == NOWHERE)
		return 1;
	return (guest_word(at) >> 8 * (address & 7) & guest.table_mask) == guest.table_kind;
}
