/* One access, made on the processor as a supervisor or as a user, and how it ended: by its own interrupt, or by a fault.
 *
 * An access is a stub of two instructions, which is given the address in RDI and a word in RSI. What ends it comes in on a stack
 * of its own, writes down what happened, and goes on after the call of attempt. So nothing of the access is left on any stack.
 */
#include "machine.h"

	.section .bss
	.align	8
resume:
	.skip	8		/* the stack at the call of attempt, or 0 */
	.globl	outcome
outcome:
	.skip	OUTCOME_BYTES

	/* Words of the kernel's own to try accesses of, in parts that have different rights. */
	.text
	.align	8
	.globl	spare_text, spare_constant, spare_data
spare_text:
	.skip	8
	.section .rodata
	.align	8
spare_constant:
	.skip	8
	.data
	.align	8
spare_data:
	.skip	8

	/* Accesses: the page of this section is a user's, and executed. */
	.section .stubs, "ax"
	.globl	stub_of_read, stub_of_store, stub_of_fetch
stub_of_read:
	mov	(%rdi), %rax
	int	$END_VECTOR
stub_of_store:
	mov	%rsi, (%rdi)
	int	$END_VECTOR
stub_of_fetch:
	jmp	*%rdi		/* what is there ends in int $END_VECTOR */

	.text
	/* void attempt(const void *stub, uint64_t address, uint64_t word, unsigned mode) */
	.globl	attempt
attempt:
	push	%rbx
	push	%rbp
	push	%r12
	push	%r13
	push	%r14
	push	%r15
	pushf
	mov	%rsp, resume(%rip)
	mov	%rdi, %r11
	mov	%rsi, %rdi
	mov	%rdx, %rsi
	xor	%eax, %eax
	test	%ecx, %ecx
	jnz	1f
	jmp	*%r11
1:	pushq	$USER_DATA | 3
	pushq	$0		/* a user's stub has no stack */
	pushq	$RFLAGS_IF | 2
	pushq	$USER_CODE | 3
	push	%r11
	iretq

	/* Vectors: each pushes what the processor hasn't, so that there is a vector and an error code. */
	.macro	vector number, has_code=0
	.align	16
	.if	\has_code == 0
	pushq	$0
	.endif
	pushq	$\number
	jmp	ended
	.endm

	.align	16
	.globl	vectors
vectors:
	.set	n, 0
	.rept	32
	.if	(n == 8) || (n >= 10 && n <= 14) || (n == 17) || (n == 21) || (n == 29) || (n == 30)
	vector	n, 1
	.else
	vector	n
	.endif
	.set	n, n + 1
	.endr
	.globl	end_of_access
end_of_access:
	vector	END_VECTOR

	/* On the stack: vector, error code, RIP, CS, RFLAGS, RSP, SS. */
ended:
	mov	%rax, outcome + OUTCOME_WORD(%rip)
	mov	%cr2, %rax
	mov	%rax, outcome + OUTCOME_CR2(%rip)
	pop	outcome + OUTCOME_VECTOR(%rip)
	pop	outcome + OUTCOME_CODE(%rip)
	pop	outcome + OUTCOME_RIP(%rip)
	pop	outcome + OUTCOME_CS(%rip)
	mov	resume(%rip), %rsp
	movq	$0, resume(%rip)
	test	%rsp, %rsp
	jz	1f
	popf
	pop	%r15
	pop	%r14
	pop	%r13
	pop	%r12
	pop	%rbp
	pop	%rbx
	ret
1:	mov	$fault_stack_top, %rsp	/* no access was under way */
	call	unexpected

	/* The clock: it counts, whatever it interrupts. */
	.align	16
	.globl	tick
tick:
	push	%rax
	incq	ticks(%rip)
	mov	$0x20, %al
	outb	%al, $0x20	/* the interrupt controller may send the next */
	pop	%rax
	iretq

	.section .note.GNU-stack, "", @progbits
