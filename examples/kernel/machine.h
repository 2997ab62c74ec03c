/* The processor and the PC's devices, as far as this kernel uses them. */
#ifndef MACHINE_H
#define MACHINE_H

#define CR0_MP (1 << 1)
#define CR0_EM (1 << 2)
#define CR0_TS (1 << 3)
#define CR0_WP (1 << 16)
#define CR0_PG (1 << 31)
#define CR4_PAE (1 << 5)
#define CR4_OSFXSR (1 << 9)
#define CR4_OSXMMEXCPT (1 << 10)
#define CR4_LA57 (1 << 12)
#define MSR_EFER 0xc0000080
#define EFER_LME (1 << 8)
#define EFER_NXE (1 << 11)
#define RFLAGS_IF (1 << 9)

/* Selectors. */
#define KERNEL_CODE 0x08
#define KERNEL_DATA 0x10
#define USER_DATA 0x18
#define USER_CODE 0x20
#define TASK 0x28

#define TICK_VECTOR 32
#define END_VECTOR 128 /* of an access that was made */

#define STACK_BYTES 16384

/* struct outcome, for assembly */
#define OUTCOME_VECTOR 0
#define OUTCOME_CODE 8
#define OUTCOME_CR2 16
#define OUTCOME_RIP 24
#define OUTCOME_CS 32
#define OUTCOME_WORD 40
#define OUTCOME_BYTES 48

#ifndef __ASSEMBLER__

#include <stdint.h>

/* How the last access ended. */
struct outcome {
	uint64_t vector; /* END_VECTOR: it was made */
	uint64_t code;   /* the fault's error code */
	uint64_t cr2;
	uint64_t rip;
	uint64_t cs;
	uint64_t word; /* RAX: what was read, or what the code that was fetched put there */
};

extern struct outcome outcome;
extern volatile uint64_t ticks;

/* attempt.S: makes the access of a stub as a supervisor (0) or a user (1), and fills in outcome. */
void attempt(const void *stub, uint64_t address, uint64_t word, unsigned mode);
extern const char stub_of_read[], stub_of_store[], stub_of_fetch[];

/* Segments, vectors and stacks for faults and for the clock; the serial ports. Interrupts are off. */
void machine_begin(void);
/* The clock ticks, a thousand times a second. */
void machine_start_clock(void);
/* Leaves QEMU. Its status is 2 * code + 1. */
_Noreturn void machine_leave(unsigned code);
/* Writes bytes to serial port 0 or 1. */
void machine_send(unsigned port, const uint8_t *bytes, uint32_t length);

static inline void out8(uint16_t port, uint8_t byte)
{
	__asm__ volatile("outb %0, %1" : : "a"(byte), "Nd"(port));
}

static inline uint8_t in8(uint16_t port)
{
	uint8_t byte;

	__asm__ volatile("inb %1, %0" : "=a"(byte) : "Nd"(port));
	return byte;
}

static inline uint64_t read_cr0(void)
{
	uint64_t word;

	__asm__ volatile("mov %%cr0, %0" : "=r"(word));
	return word;
}

static inline void write_cr0(uint64_t word)
{
	__asm__ volatile("mov %0, %%cr0" : : "r"(word) : "memory");
}

static inline uint64_t read_cr4(void)
{
	uint64_t word;

	__asm__ volatile("mov %%cr4, %0" : "=r"(word));
	return word;
}

static inline uint64_t read_cr3(void)
{
	uint64_t word;

	__asm__ volatile("mov %%cr3, %0" : "=r"(word));
	return word;
}

static inline void write_cr3(uint64_t word)
{
	__asm__ volatile("mov %0, %%cr3" : : "r"(word) : "memory");
}

static inline uint64_t read_msr(uint32_t which)
{
	uint32_t low, high;

	__asm__ volatile("rdmsr" : "=a"(low), "=d"(high) : "c"(which));
	return (uint64_t)high << 32 | low;
}

static inline void write_msr(uint32_t which, uint64_t word)
{
	__asm__ volatile("wrmsr" : : "a"((uint32_t)word), "d"((uint32_t)(word >> 32)), "c"(which) : "memory");
}

static inline void flush_page(uint64_t address)
{
	__asm__ volatile("invlpg (%0)" : : "r"(address) : "memory");
}

#endif
#endif
