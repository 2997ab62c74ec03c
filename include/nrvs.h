/* A page table for x86-64 in the caller's memory: four or five levels, pages of 4 KiB, 2 MiB and 1 GiB.
 *
 * Each call gets a handle and the memory that it works in. It allocates nothing, keeps no pointer, and takes no lock. What it does is
 * proved: its contract is that of the same call of `Space` (crates/nrvs_c/README.md). No contract knows where a field of a struct lies:
 * that this header and the library agree on that is tested (tests/library).
 *
 * The memory is `words`, which has `frames` frames, and `marks`, which has at least one mark for each frame; further marks stay as they
 * are. Frame number `base + i` is words[i]. If words[0] lies at the physical address `base * 4096`, a processor can walk these frames, from
 * the root at `table->root * 4096`. Words and marks need not be 0 at first.
 *
 * What the caller has to keep, which no call can test:
 *   - pointers are not null, aligned for their types, and lead to as many elements as stated. What they lead to doesn't overlap;
 *   - after nrvs_table_new made a handle, nobody else writes the handle or the memory that was lent to that call. Each further call gets
 *     the same frames and marks (another number of them is refused). But a processor that walks the frames may set accessed and dirty
 *     flags, bits 5 and 6 of words whose bit 0 is 1, and the caller may clear these. It is proved that flags which change between calls
 *     change no answer. A protect clears those of its page. Nothing is proved of flags that are set while a call runs;
 *   - a handle that was never made doesn't have the magic word by chance: set it to 0. Besides that word a call tests that `levels` is 4 or
 *     5, that `taken` is at most `frames` and `given` at most `taken`, and that the root and the last freed frame are among those taken. It
 *     can't notice anything else that was written over a handle;
 *   - while a call changes a table (new, map, unmap, protect), no other call has its handle or its memory. Calls that only ask (resolve,
 *     access, tables) may run at the same time: they take both as const, and write nothing. A processor may walk the frames while these
 *     run. It may also do so during a map, an unmap or a protect, as the processor does on which a kernel runs: the code writes each entry
 *     of a linked table at most once, and writes a link after it has cleared the frame to which it leads. Whether a walk meets nothing else
 *     meanwhile depends on the code and on how it is compiled: this isn't proved. No processor may walk the frames while nrvs_table_new
 *     runs;
 *   - TLBs and paging-structure caches are flushed after an unmap or a protect, and before a further map, which may use a frame that the
 *     unmap freed. That this is enough depends on what each call is proved to leave as it was (`kept` of `IsTableStep`). A map changes no
 *     word that isn't 0, and moves no table. An unmap clears words only on the path of its address, and frees only tables of that path. A
 *     protect changes one word, that of its page.
 *
 * What a kernel that runs on these tables also has to keep (examples/kernel does so in QEMU, and says more):
 *   - the processor's settings, which the answers assume: CR0.WP and EFER.NXE are 1. CR4.SMEP, SMAP, PKE and PKS are 0: if one is 1, the
 *     processor refuses more than nrvs_table_access says. CR4.LA57 is 1 if the table has five levels, and 0 if it has four. The processor
 *     has as many bits of physical address as the frames and pages need: nothing below 2^51 is refused here. If it has no pages of 1 GiB
 *     (CPUID 80000001H, EDX bit 26 is 0), map none;
 *   - XMM registers: the archive is built for x86-64-v2 and moves words in them. So CR0.EM and CR0.TS are 0 and CR4.OSFXSR is 1 before the
 *     first call. If you call from a handler, or preempt a call, save them (FXSAVE; kernel_fpu_begin in Linux). Or link the archive that
 *     `tools/for_kernels nrvs_c` compiles of the same proved code, out/libnrvs_kernel.a: it uses no XMM registers and no red zone;
 *   - the red zone: a call keeps words within 128 bytes below RSP. So interrupts and faults that may come during a call run on a stack of
 *     their own (IST), or are off. -mno-red-zone for the kernel's own code doesn't change that;
 *   - the stack is aligned to 16 at the call, and has 1 KiB left: tests/for_kernels adds up the frames of each call;
 *   - interrupts: a call may be interrupted and go on later. But a handler that may interrupt a change of a table makes no call with its
 *     handle;
 *   - flushing: after NRVS_REMOVED and NRVS_CHANGED, do an invlpg of the page on each processor that may have used it, and under each PCID
 *     with which it did. An unmap frees tables that became empty, and the next map may use them: so all processors have flushed before that
 *     map, whichever page it maps;
 *   - the frames that pages map: no call checks whether a page leads to the lent frames, or to other memory of the kernel. Whoever may
 *     write such a page can write the tables. Nor does a call know which pages the kernel itself needs: an unmap or a protect of those
 *     takes effect like any other;
 *   - linking: the archive needs at most memcpy, memset and memmove. It has only code and constants, which run at any address.
 */
#ifndef NRVS_H
#define NRVS_H

#ifdef __KERNEL__ /* Linux: its modules are compiled with -nostdinc */
#include <linux/types.h>
#ifndef UINT64_C
#define UINT64_C(number) number##ULL
#endif
#else
#include <stddef.h>
#include <stdint.h>
#endif

#ifdef __cplusplus
extern "C" {
#endif

/* The words of a frame. A processor needs it aligned to 4,096 bytes, the library to 8. */
struct nrvs_words {
	uint64_t word[512];
};

/* What the library keeps about a frame: 4 bytes, with any content at first. */
struct nrvs_mark {
	uint16_t own[2];
};

/* A page table. The caller may read `root`, and writes nothing in it. */
struct nrvs_table {
	uint64_t magic;
	uint64_t levels;
	uint64_t root; /* a frame number: CR3 is root * 4096 */
	uint64_t base;
	size_t frames;
	size_t taken;
	size_t given;
	uint64_t last;
};

/* The answer of a call; a number that it doesn't have is 0. */
struct nrvs_reply {
	uint8_t code;   /* NRVS_DONE .. */
	uint8_t size;   /* NRVS_4K .. */
	uint8_t rights; /* NRVS_WRITE | .. */
	uint64_t number;
};

/* Sizes of pages; nrvs_trace.h has the same. */
#ifndef NRVS_SIZES
#define NRVS_SIZES
typedef enum nrvs_size { NRVS_4K = 0, NRVS_2M = 1, NRVS_1G = 2 } nrvs_size;
#endif

/* Rights, besides a supervisor's read, which is always allowed; nrvs_trace.h has the same. */
#define NRVS_WRITE 1u
#define NRVS_USER 2u
#define NRVS_EXEC 4u

/* Who makes an access; nrvs_trace.h has the same. */
#ifndef NRVS_MODES
#define NRVS_MODES
typedef enum nrvs_mode { NRVS_SUPERVISOR_MODE = 0, NRVS_USER_MODE = 1 } nrvs_mode;
#endif
enum { NRVS_SUPERVISOR = 0 }; /* the same as NRVS_SUPERVISOR_MODE */

/* What the access does. */
enum { NRVS_READ = 0, NRVS_STORE = 1, NRVS_FETCH = 2 };

/* Codes of replies. */
enum {
	NRVS_DONE = 0,       /* the page was added */
	NRVS_OVERLAP = 1,    /* a page is in the way; number: the least base of one */
	NRVS_FULL = 2,       /* number: how many tables there would be with the page, which are more than the frames */
	NRVS_REMOVED = 3,    /* number: the physical address that the page had; its size and rights */
	NRVS_NOT_MAPPED = 4, /* no page covers the address */
	NRVS_INSIDE = 5,     /* a page covers the address and begins at this one */
	NRVS_CHANGED = 6,    /* rights: the old ones */
	NRVS_MAPPED = 7,     /* number: the physical address; the page's size and rights */
	NRVS_ALLOWED = 8,    /* number: the physical address */
	NRVS_FAULT = 9       /* number: the error code of the page fault */
};

/* What a call returns. If it isn't NRVS_OK, the call has changed nothing, and written no reply. */
enum {
#ifndef NRVS_OK /* the 0 of nrvs_trace.h */
	NRVS_OK = 0,
#endif
	NRVS_NO_TABLE = 1,       /* nrvs_table_new never made the handle: the magic word is missing, or a number is out of range */
	NRVS_BAD_LEVELS = 2,     /* neither 4 nor 5 */
	NRVS_BAD_FRAMES = 3,     /* no frame, or more than 4,096; or not the number with which the handle was made */
	NRVS_BAD_MARKS = 4,      /* fewer marks than frames */
	NRVS_BAD_BASE = 5,       /* the last frame's number isn't below 2^40 */
	NRVS_BAD_SIZE = 6,       /* the number means no size */
	NRVS_BAD_RIGHTS = 7,     /* the number means no rights: it is above 7 */
	NRVS_BAD_MODE = 8,       /* the number means no mode */
	NRVS_BAD_ACCESS = 9,     /* the number means no access */
	NRVS_NOT_CANONICAL = 10, /* the address isn't canonical with these levels */
	NRVS_UNALIGNED = 11,     /* it is no multiple of the page's size, or of 4,096 */
	NRVS_PHYS_UNALIGNED = 12, /* the physical address is no multiple of the page's size */
	NRVS_PHYS_RANGE = 13     /* the page doesn't lie below physical 2^51 */
};

#define NRVS_LENT struct nrvs_table *table, struct nrvs_words *words, size_t frames, struct nrvs_mark *marks, size_t marked
#define NRVS_SHOWN \
	const struct nrvs_table *table, const struct nrvs_words *words, size_t frames, const struct nrvs_mark *marks, size_t marked

/* Makes a page table with no pages, whatever the handle and the memory contain. Its root uses one frame. */
uint32_t nrvs_table_new(NRVS_LENT, uint64_t levels, uint64_t base);

/* Maps a page: NRVS_DONE, NRVS_OVERLAP or NRVS_FULL. */
uint32_t nrvs_table_map(NRVS_LENT, uint64_t base, uint32_t size, uint64_t physical, uint32_t rights, struct nrvs_reply *reply);

/* Unmaps the page that begins at an address: NRVS_REMOVED, NRVS_INSIDE or NRVS_NOT_MAPPED. Tables that become empty are freed at once. */
uint32_t nrvs_table_unmap(NRVS_LENT, uint64_t base, struct nrvs_reply *reply);

/* Sets the rights of the page that begins at an address: NRVS_CHANGED, NRVS_INSIDE or NRVS_NOT_MAPPED. */
uint32_t nrvs_table_protect(NRVS_LENT, uint64_t base, uint32_t rights, struct nrvs_reply *reply);

/* Translates an address: NRVS_MAPPED or NRVS_NOT_MAPPED. */
uint32_t nrvs_table_resolve(NRVS_SHOWN, uint64_t address, struct nrvs_reply *reply);

/* Whether an access is allowed, and which physical address it reaches: NRVS_ALLOWED or NRVS_FAULT. */
uint32_t nrvs_table_access(NRVS_SHOWN, uint64_t address, uint32_t mode, uint32_t access, struct nrvs_reply *reply);

/* How many tables there are, including the root. */
uint32_t nrvs_table_tables(NRVS_SHOWN, size_t *count);

#ifdef __cplusplus
}
#endif

#endif
