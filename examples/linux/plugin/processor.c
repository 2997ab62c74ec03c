#include "processor.h"

#include "guest.h"

#include <stdio.h>
#include <string.h>

#if PLUGIN_VERSION >= 2

#define PROCESSORS 8

static struct qemu_plugin_register *own_base, *other_base; /* of the segment by which a kernel finds its processor's own variables */
static GByteArray *bytes;
static unsigned count;

static void on_new_processor(qemu_plugin_id_t id, unsigned cpu)
{
	GArray *registers = qemu_plugin_get_registers();
	const qemu_plugin_reg_descriptor *each = (const void *)registers->data;

	(void)id;
	(void)cpu;
	count++;
	for (unsigned k = 0; k < registers->len; k++) {
		if (!strcmp(each[k].name, "gs_base"))
			own_base = each[k].handle;
		if (!strcmp(each[k].name, "k_gs_base"))
			other_base = each[k].handle;
	}
	g_array_free(registers, 1);
}

static uint64_t number_in(struct qemu_plugin_register *from)
{
	uint64_t number = 0;

	g_byte_array_set_size(bytes, 0);
	if (from && qemu_plugin_read_register(from, bytes) == sizeof number)
		memcpy(&number, bytes->data, sizeof number);
	return number;
}

void processor_begin(qemu_plugin_id_t id)
{
	bytes = g_byte_array_new();
	qemu_plugin_register_vcpu_init_cb(id, on_new_processor);
}

/* In user mode, and until the kernel has exchanged them, its base is the other one. */
unsigned processor_that_runs(unsigned cpu)
{
	uint64_t base;

	if (count < 2)
		return cpu;
	base = number_in(own_base);
	if (!(base >> 63))
		base = number_in(other_base);
	for (unsigned k = 0; k < count && k < PROCESSORS; k++)
		if (guest_own_base(k) == base)
			return k;
	return cpu;
}

#else

void processor_begin(qemu_plugin_id_t id)
{
	(void)id;
}

unsigned processor_that_runs(unsigned cpu)
{
	return cpu;
}

#endif
