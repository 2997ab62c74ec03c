#include "processors.h"

#include "../kernel/machine.h"
#include "../kernel/say.h"

enum { VECTOR = 0xf0, PAGE_FAULT = 14, TRAMPOLINE = 0x8000, END = 0xb0, SPURIOUS = 0xf0, COMMAND = 0x300, TO_WHOM = 0x310 };

/* What a group was asked to flush last, and how many times it was asked; and for how many of these each processor has flushed. */
static struct {
	uint64_t base;
	uint32_t all, asked;
} groups[PROCESSORS];
static uint32_t flushed[PROCESSORS];

extern uint32_t processors, trampoline_root, trampoline_cr4;
extern const char trampoline[], trampoline_end[], stacks[];
extern void page_fault(void), other_fault(void), interrupt(void);
_Noreturn void processor(unsigned number);
_Noreturn void unexpected(uint64_t code, uint64_t rip, uint64_t address);
void interrupted(void);

static uint32_t stopped, holding, held, let[PROCESSORS];
static struct { uint16_t low, selector; uint8_t stack, type; uint16_t middle; uint32_t high, zero; } gates[256];

static volatile uint32_t *local(unsigned at)
{
	return (volatile uint32_t *)(UINT64_C(0xfee00000) + at);
}

void processors_set_gates(void)
{
	const struct __attribute__((packed)) { uint16_t limit; const void *at; } idt = { sizeof gates - 1, gates };
	for (unsigned n = 0; n < 256; n++) {
		uint64_t to = (uint64_t)(n == PAGE_FAULT ? page_fault : n == VECTOR ? interrupt : other_fault);
		gates[n].low = (uint16_t)to, gates[n].selector = KERNEL_CODE, gates[n].type = 0x8e, gates[n].middle = (uint16_t)(to >> 16);
		gates[n].high = (uint32_t)(to >> 32);
	}
	__asm__ volatile("lidt %0" : : "m"(idt) : "memory");
	out8(0x21, 0xff); /* the old interrupt controllers are masked */
	out8(0xa1, 0xff);
	*local(SPURIOUS) = 0x1ff; /* the local interrupt controller is on */
}

unsigned processor_here(void)
{
	return (unsigned)(((const char *)__builtin_frame_address(0) - stacks) / STACK_BYTES);
}

/* What the trampoline needs is written into its copy. */
static void write_down(const uint32_t *what, uint64_t word)
{
	*(uint32_t *)(TRAMPOLINE + (uint64_t)((const char *)what - trampoline)) = (uint32_t)word;
}

void processors_start(void)
{
	char *to = (char *)(uint64_t)TRAMPOLINE;
	for (const char *at = trampoline; at < trampoline_end; at++)
		*to++ = *at;
	write_down(&trampoline_root, read_cr3());
	write_down(&trampoline_cr4, read_cr4());
	*local(COMMAND) = 0xc4500;
	for (unsigned k = 0; k < 1000000; k++)
		__asm__ volatile("pause");
	*local(COMMAND) = 0xc4600 | TRAMPOLINE >> 12;
	for (uint64_t k = 0; !processors_run(); k++)
		if (k > UINT64_C(4000000000))
			stop("processors:", processors);
}

int processors_run(void)
{
	return __atomic_load_n(&processors, __ATOMIC_SEQ_CST) == PROCESSORS;
}

static void wait_held(unsigned number, uint64_t *seed)
{
	while (__atomic_load_n(&holding, __ATOMIC_SEQ_CST)) {
		processors_pause();
		if (!__atomic_load_n(&let[number], __ATOMIC_SEQ_CST))
			continue;
		processor_turn(number, seed);
		__atomic_store_n(&let[number], 0, __ATOMIC_SEQ_CST);
	}
}

_Noreturn void processor(unsigned number)
{
	uint64_t seed = 1000 + number;
	processors_set_gates();
	write_cr3(processor_root(number));
	__asm__ volatile("sti" : : : "memory");
	processors_pause(); /* what was asked before it had gates */
	while (!__atomic_load_n(&stopped, __ATOMIC_SEQ_CST)) {
		if (!__atomic_load_n(&holding, __ATOMIC_SEQ_CST)) {
			processor_turn(number, &seed);
			continue;
		}
		__atomic_fetch_add(&held, 1, __ATOMIC_SEQ_CST);
		wait_held(number, &seed);
		__atomic_fetch_sub(&held, 1, __ATOMIC_SEQ_CST);
	}
	__atomic_fetch_add(&held, 1, __ATOMIC_SEQ_CST);
	for (;;)
		__asm__ volatile("hlt");
}

static void wait_for(const uint32_t *number, uint32_t wanted)
{
	while (__atomic_load_n(number, __ATOMIC_SEQ_CST) != wanted)
		processors_pause();
}

void processors_hold(void)
{
	__atomic_store_n(&holding, 1, __ATOMIC_SEQ_CST);
	wait_for(&held, PROCESSORS - 1);
}

void processors_let(unsigned processor)
{
	__atomic_store_n(&let[processor], 1, __ATOMIC_SEQ_CST);
	wait_for(&let[processor], 0);
}

int processors_are_held(void)
{
	return __atomic_load_n(&holding, __ATOMIC_SEQ_CST) || __atomic_load_n(&stopped, __ATOMIC_SEQ_CST);
}

void processors_release(void)
{
	__atomic_store_n(&holding, 0, __ATOMIC_SEQ_CST);
	wait_for(&held, 0);
}

void processors_stop(void)
{
	__atomic_store_n(&stopped, 1, __ATOMIC_SEQ_CST);
	wait_for(&held, PROCESSORS - 1);
}

/* Flushes, where that is asked of this processor; interrupts are off. */
static void answer(void)
{
	const unsigned me = processor_here(), group = processor_group(me);
	const uint32_t asked = __atomic_load_n(&groups[group].asked, __ATOMIC_SEQ_CST);
	if (asked == flushed[me])
		return;
	flush_page(groups[group].base);
	if (groups[group].all)
		write_cr3(read_cr3());
	__atomic_store_n(&flushed[me], asked, __ATOMIC_SEQ_CST);
}

void interrupted(void)
{
	answer();
	*local(END) = 0;
}

void processors_pause(void)
{
	uint64_t flags;
	__asm__ volatile("pushfq; pop %0; cli" : "=r"(flags) : : "memory");
	answer();
	__asm__ volatile("push %0; popfq; pause" : : "r"(flags) : "memory", "cc");
}

static int is_of(unsigned processor, unsigned group)
{
	return processor_group(processor) == group && (processor == processor_here() || processors_run());
}

void processors_shoot_down(unsigned group, uint64_t base, int all)
{
	uint32_t asked;
	groups[group].base = base;
	groups[group].all = all != 0;
	asked = __atomic_add_fetch(&groups[group].asked, 1, __ATOMIC_SEQ_CST);
	for (unsigned k = 0; k < PROCESSORS; k++) {
		if (!is_of(k, group) || k == processor_here())
			continue;
		*local(TO_WHOM) = k << 24;
		*local(COMMAND) = 0x4000 | VECTOR;
	}
	for (unsigned k = 0; k < PROCESSORS; k++)
		if (is_of(k, group))
			wait_for(&flushed[k], asked);
}

_Noreturn void unexpected(uint64_t code, uint64_t rip, uint64_t address)
{
	say("fault, code %x, at %x, address %x\n", code, rip, address);
	stop("a fault that no access made", code);
}
