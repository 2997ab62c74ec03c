/* The serial ports, and the end: what say.c asks for. */
#include "../kernel/machine.h"
#include "record.h"

static const uint16_t ports[] = { 0x3f8, 0x2f8, 0x3e8 };

void ports_begin(void)
{
	for (unsigned k = 0; k < sizeof(ports) / sizeof(ports[0]); k++) {
		out8(ports[k] + 1, 0); /* no interrupts */
		out8(ports[k] + 2, 7); /* queues, emptied */
	}
}

void machine_send(unsigned port, const uint8_t *bytes, uint32_t length)
{
	enum { QUEUE = 16 }; /* bytes that the port takes at once, when it has none */
	for (uint32_t k = 0; k < length; k++) {
		while (k % QUEUE == 0 && !(in8(ports[port] + 5) & 0x20))
			;
		out8(ports[port], bytes[k]);
	}
}

_Noreturn void machine_leave(unsigned code)
{
	out8(0xf4, (uint8_t)code);
	for (;;)
		__asm__ volatile("cli; hlt");
}
