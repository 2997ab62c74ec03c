#include "machine.h"

#include "say.h"

volatile uint64_t ticks;

struct gate {
	uint16_t low, selector;
	uint8_t stack, type;
	uint16_t middle;
	uint32_t high, zero;
};

struct __attribute__((packed)) task_state {
	uint32_t zero;
	uint64_t stacks[3];
	uint64_t zeros;
	uint64_t stacks_of_interrupts[7];
	uint8_t rest[10];
	uint16_t ports;
};

struct __attribute__((packed)) pointer {
	uint16_t limit;
	const void *first;
};

enum { FAULT_STACK = 1, TICK_STACK = 2 };
enum { INTERRUPT_GATE = 0x8e, FOR_USERS = 0x60 };

extern const char vectors[], end_of_access[], tick[], fault_stack_top[], tick_stack_top[];

static struct gate gates[256];
static struct task_state task;
static uint64_t segments[] = {
	0,
	0x00af9b000000ffff, /* KERNEL_CODE */
	0x00cf93000000ffff, /* KERNEL_DATA */
	0x00cff3000000ffff, /* USER_DATA */
	0x00affb000000ffff, /* USER_CODE */
	0, 0,               /* TASK */
};

static void set_gate(unsigned vector, const char *entry, unsigned stack, unsigned type)
{
	uint64_t address = (uint64_t)entry;

	gates[vector] = (struct gate){
		.low = (uint16_t)address, .selector = KERNEL_CODE, .stack = (uint8_t)stack, .type = (uint8_t)type,
		.middle = (uint16_t)(address >> 16), .high = (uint32_t)(address >> 32),
	};
}

static void set_segments(void)
{
	const struct pointer gdt = { sizeof(segments) - 1, segments };
	const uint64_t base = (uint64_t)&task;

	task.stacks_of_interrupts[FAULT_STACK - 1] = (uint64_t)fault_stack_top;
	task.stacks_of_interrupts[TICK_STACK - 1] = (uint64_t)tick_stack_top;
	task.ports = sizeof(task);
	segments[TASK / 8] = (sizeof(task) - 1) | (base & 0xffffff) << 16 | (uint64_t)0x89 << 40 | (base >> 24 & 0xff) << 56;
	segments[TASK / 8 + 1] = base >> 32;
	__asm__ volatile("lgdt %0\n\tltr %w1" : : "m"(gdt), "r"(TASK) : "memory");
}

static void set_gates(void)
{
	const struct pointer idt = { sizeof(gates) - 1, gates };
	unsigned n;

	for (n = 0; n < 32; n++)
		set_gate(n, vectors + 16 * n, FAULT_STACK, INTERRUPT_GATE);
	set_gate(TICK_VECTOR, tick, TICK_STACK, INTERRUPT_GATE);
	set_gate(END_VECTOR, end_of_access, FAULT_STACK, INTERRUPT_GATE | FOR_USERS);
	__asm__ volatile("lidt %0" : : "m"(idt) : "memory");
}

static const uint16_t ports[] = { 0x3f8, 0x2f8 };

static void set_serial(uint16_t port)
{
	out8(port + 1, 0);    /* no interrupts */
	out8(port + 3, 0x80); /* the rate: 115,200 */
	out8(port + 0, 1);
	out8(port + 1, 0);
	out8(port + 3, 3);    /* 8 bits, 1 stop bit */
	out8(port + 2, 7);    /* queues, emptied */
	out8(port + 4, 3);
}

void machine_send(unsigned port, const uint8_t *bytes, uint32_t length)
{
	enum { QUEUE = 16 }; /* bytes that the port takes at once, when it has none */

	for (uint32_t k = 0; k < length; k++) {
		while (k % QUEUE == 0 && !(in8(ports[port] + 5) & 0x20))
			;
		out8(ports[port], bytes[k]);
	}
}

void machine_begin(void)
{
	set_segments();
	set_gates();
	set_serial(ports[0]);
	set_serial(ports[1]);
}

void machine_start_clock(void)
{
	static const uint8_t controllers[][2] = {
		{ 0x20, 0x11 }, { 0xa0, 0x11 }, { 0x21, TICK_VECTOR }, { 0xa1, TICK_VECTOR + 8 },
		{ 0x21, 4 }, { 0xa1, 2 }, { 0x21, 1 }, { 0xa1, 1 },
		{ 0x21, 0xfe }, { 0xa1, 0xff }, /* the clock alone */
	};
	const unsigned divisor = 1193182 / 1000;
	unsigned n;

	for (n = 0; n < sizeof(controllers) / sizeof(controllers[0]); n++)
		out8(controllers[n][0], controllers[n][1]);
	out8(0x43, 0x34);
	out8(0x40, divisor & 255);
	out8(0x40, divisor >> 8);
	__asm__ volatile("sti" : : : "memory");
}

_Noreturn void machine_leave(unsigned code)
{
	out8(0xf4, (uint8_t)code);
	for (;;)
		__asm__ volatile("cli; hlt");
}
