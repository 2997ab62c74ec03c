/* The guest: its memory as QEMU holds it, and the words of its kernel that say what a processor does. */
#ifndef GUEST_H
#define GUEST_H

#include <stdint.h>

#define ENTRIES 512
#define NOWHERE (~(uint64_t)0)
#define KERNEL_TEXT 0xffffffff80000000u /* where physical 0 is in the map of the kernel's own code */

/* What the plugin gets to know of the guest's kernel, each as name=value. Addresses are the kernel's own, without KASLR. */
struct guest {
	char memory[512];      /* the file that is the guest's memory */
	uint64_t levels;       /* of its page tables: 4 or 5 */
	uint64_t isolated;     /* 1: the user's table comes after the kernel's (page-table isolation) */
	uint64_t percpu;       /* __per_cpu_offset */
	uint64_t loaded;       /* cpu_tlbstate, whose first word is the address space that a processor has loaded */
	uint64_t current;      /* where a processor's current task is */
	uint64_t flushing;     /* flush_tlb_info: the address space and the range of a processor's latest flush */
	uint64_t birth, pgd;   /* pgd_alloc, which makes the table of a new address space, and where in mm_struct its caller stores that */
	uint64_t entry, entry_end; /* do_syscall_64 */
	uint64_t text, text_end;   /* the kernel's code, without its modules' */
	uint64_t page_bytes, page_flags; /* of struct page, and where in it a frame's flags are, */
	uint64_t page_type;              /* .. and its kind, */
	uint64_t table_mask, table_kind; /* and what of that word is what, while the frame is a page table */
	uint64_t rest;         /* 0, or: at each so many places QEMU goes to the next processor, */
	uint64_t rest_at;      /* .. and of which kinds these are (rests.h) */
	uint64_t child;        /* 1: nothing is watched but the address space that a fork makes */
	uint64_t nested, nested_end;   /* 0, or the function of KVM that loads a guest's nested tables: these are watched, no process */
};

extern struct guest guest;

/* Takes one of these; whether there is one of that name. */
int guest_set(const char *name, const char *value);

/* Finds the guest's memory; ends QEMU where it isn't there. Afterwards it is found. */
void guest_find(void);
int guest_is_found(void);

uint64_t guest_frames(void);
uint64_t guest_word(uint64_t physical);

/* The physical address that the kernel's map of all memory has there, or NOWHERE. */
uint64_t guest_direct(uint64_t address);

/* The physical address of a byte that QEMU holds, or NOWHERE. */
uint64_t guest_of_host(const void *byte);

/* The frame whose struct page has its flags at that address of the kernel; NOWHERE, or a number of no frame, where there are none. */
uint64_t guest_frame_of(uint64_t address);

/* The place of a processor's own variables: what is added to an address of the kernel. */
uint64_t guest_own_base(unsigned cpu);

uint64_t guest_loaded(unsigned cpu);
uint64_t guest_task(unsigned cpu);

/* From here on the kernel's own addresses are looked up by the table of this mm_struct. */
void guest_enter(uint64_t space);

/* The frame of the process's table there. */
uint64_t guest_root(void);

/* The place of an address of the kernel, and the word there, 0 where there is none. */
uint64_t guest_walk(uint64_t address);
uint64_t guest_kernel_word(uint64_t address);

struct flush {
	uint64_t space, begin, end;
};
struct flush guest_flush(unsigned cpu);

/* Whether the processor's own words of a flush are at that address of the kernel. */
int guest_is_of_flush(unsigned cpu, uint64_t address);

/* Whether the kernel holds a frame as a page table, by its struct page. It does so for tables of levels 1 and 2 alone. */
int guest_holds_table(uint64_t frame);

#endif
