#define _GNU_SOURCE
#include "accesses.h"
#include "options.h"

#include <signal.h>
#include <string.h>
#include <ucontext.h>

#if !defined(__x86_64__) || !defined(__linux__)
#error "this program needs Linux, or what runs its programs, on x86-64"
#endif

/*
 * Each ends with `ret`. A fault goes on at access_failed, with the code in rdx: the fault of a fetch, whose instruction is the page's
 * own, after its return address was taken from the stack.
 */
__asm__(".text\n"
	".globl access_read\n"
	"access_read: mov (%rdi), %rax\n"
	"	xor %edx, %edx\n"
	"	ret\n"
	".globl access_write, access_write_at\n"
	"access_write: xor %eax, %eax\n"
	"access_write_at: lock xadd %rax, (%rdi)\n"
	"	xor %edx, %edx\n"
	"	ret\n"
	".globl access_store, access_store_at\n"
	"access_store: mov %rsi, %rax\n"
	"access_store_at: xchg %rax, (%rdi)\n"
	"	xor %edx, %edx\n"
	"	ret\n"
	".globl access_fetch\n"
	"access_fetch: call *%rdi\n"
	"	xor %edx, %edx\n"
	".globl access_failed\n"
	"access_failed: ret\n");
extern const char access_write_at[], access_store_at[], access_failed[];

static uint64_t code_begin, code_end;
static int has_trap = 1; /* signals have the trap's error code */

uint64_t fault_code(int si_code, uint64_t trap)
{
	return (si_code == SEGV_ACCERR ? 1u : 0u) | (trap & (2 | 4 | 16));
}

/* The bits that an access has in the error code of its fault: 1 is a write, 2 the user's, 4 a fetch. */
enum { OF_READ = 4, OF_WRITE = 4 | 2, OF_FETCH = 4 | 16 };

/* Those of the access whose instruction this is; 0 where it is none. */
static uint64_t bits_of(uint64_t at)
{
	if (at >= code_begin && at < code_end)
		return OF_FETCH;
	if (at == (uint64_t)access_write_at || at == (uint64_t)access_store_at)
		return OF_WRITE;
	return at == (uint64_t)access_read ? OF_READ : 0;
}

static void on_fault(int signal_number, siginfo_t *info, void *context)
{
	greg_t *registers = ((ucontext_t *)context)->uc_mcontext.gregs;
	const uint64_t at = (uint64_t)registers[REG_RIP], bits = bits_of(at);
	const uint64_t code = fault_code(info->si_code, has_trap ? (uint64_t)registers[REG_ERR] : bits);

	if (!bits)
		found("signal %d at %#llx, in none of the accesses that may fault: the process is broken", signal_number,
		      (unsigned long long)at);
	if (bits == OF_FETCH)
		registers[REG_RSP] += 8;
	if (signal_number == SIGBUS)
		found("SIGBUS at %#llx: there was no memory for a page of the window", (unsigned long long)(uint64_t)info->si_addr);
	/* garbage that was executed: the fetch found a frame that is none of ours */
	if (signal_number == SIGILL) {
		registers[REG_RAX] = -1;
		registers[REG_RDX] = 0;
	} else {
		registers[REG_RDX] = (greg_t)(FAULT | code);
	}
	registers[REG_RIP] = (greg_t)access_failed;
}

int accesses_begin(uint64_t begin, uint64_t end)
{
	struct sigaction action;

	code_begin = begin;
	code_end = end;
	memset(&action, 0, sizeof(action));
	action.sa_sigaction = on_fault;
	action.sa_flags = SA_SIGINFO | SA_NODEFER;
	sigaction(SIGSEGV, &action, NULL);
	sigaction(SIGBUS, &action, NULL);
	sigaction(SIGILL, &action, NULL);
	has_trap = access_read(begin).fault == (FAULT | OF_READ) && access_write(begin).fault == (FAULT | OF_WRITE) &&
		   access_fetch(begin).fault == (FAULT | OF_FETCH);
	return has_trap;
}
