/* From QEMU's -kernel to C. The first processor comes over an address space of 4 GiB that is left behind, the others by a trampoline at
 * 0x8000, over the address space that the kernel has made by then. The levels are the first letter of the command line, since CR4.LA57
 * can't change while paging is on. Then accesses that may fault, and the two handlers, which ask C what to do. The kernels of
 * examples/kernel_plans and examples/kernel_nodes begin here.
 */
#include "../kernel/machine.h"

#define TRAMPOLINE 0x8000
#define AT(label) (TRAMPOLINE + label - trampoline)

	.section .note.pvh, "a", @note
	.align	4
	.long	4, 8, 18	/* lengths of name and value; the entry point */
	.asciz	"Xen"
	.quad	start

	.section .bss
	.align	4096
boot_root_of_five:
	.skip	4096
boot_root_of_four:
	.skip	4096
boot_pointers:
	.skip	4096
	.globl	stacks, processors
stacks:
	.skip	4 * STACK_BYTES
processors:
	.skip	8

	.section .rodata
	.align	8
boot_gdt:
	.quad	0, 0x00af9b000000ffff, 0x00cf93000000ffff
boot_gdt_pointer:
	.word	boot_gdt_pointer - boot_gdt - 1
	.quad	boot_gdt

	.text
	.code32
	.globl	start
start:
	cli
	cld
	mov	$stacks + STACK_BYTES, %esp
	mov	24(%ebx), %ebp		/* the command line */
	mov	32(%ebx), %esi		/* where ACPI's tables begin */
	movl	$boot_root_of_four + 3, boot_root_of_five
	movl	$boot_pointers + 3, boot_root_of_four
	mov	$boot_pointers, %edi
	mov	$0x83, %eax		/* four pages of 1 GiB, each for itself */
	mov	$4, %ecx
1:	mov	%eax, (%edi)
	add	$0x40000000, %eax
	add	$8, %edi
	loop	1b
	mov	$CR4_PAE | CR4_OSFXSR | CR4_OSXMMEXCPT, %eax
	mov	$boot_root_of_four, %edx
	cmpb	$'5', (%ebp)
	jne	2f
	or	$CR4_LA57, %eax
	mov	$boot_root_of_five, %edx
2:	mov	%eax, %cr4
	mov	%edx, %cr3
	mov	$MSR_EFER, %ecx
	rdmsr
	or	$EFER_LME | EFER_NXE, %eax
	wrmsr
	mov	%cr0, %eax
	and	$~(CR0_EM | CR0_TS), %eax
	or	$CR0_PG | CR0_MP | CR0_WP, %eax
	mov	%eax, %cr0
	lgdt	boot_gdt_pointer
	ljmp	$8, $start_long
	.code64
start_long:
	mov	$16, %eax
	mov	%eax, %ds
	mov	%eax, %es
	mov	%eax, %ss
	lgdt	boot_gdt_pointer
	mov	%ebp, %edi
	xor	%ebp, %ebp
	movl	$1, processors
	call	kernel
	hlt

	/* Copied to 0x8000; what it needs is written behind it. */
	.code16
	.globl	trampoline, trampoline_end, trampoline_root, trampoline_cr4
trampoline:
	cli
	cld
	xor	%ax, %ax
	mov	%ax, %ds
	lgdtl	AT(trampoline_gdt_pointer)
	mov	AT(trampoline_cr4), %eax
	mov	%eax, %cr4
	mov	AT(trampoline_root), %eax
	mov	%eax, %cr3
	mov	$MSR_EFER, %ecx
	rdmsr
	or	$EFER_LME | EFER_NXE, %eax
	wrmsr
	mov	$CR0_PG | CR0_MP | CR0_WP | 1, %eax
	mov	%eax, %cr0
	ljmpl	$8, $AT(trampoline_long)
	.code64
trampoline_long:
	mov	$16, %eax
	mov	%eax, %ds
	mov	%eax, %es
	mov	%eax, %ss
	lgdt	boot_gdt_pointer
	mov	$0xfee00020, %eax
	mov	(%rax), %edi
	shr	$24, %edi		/* its number is that of its local interrupt controller */
	lea	1(%rdi), %eax
	imul	$STACK_BYTES, %eax
	lea	stacks(%rax), %rsp
	xor	%ebp, %ebp
	lock incl processors
	mov	$processor, %eax
	call	*%rax
	hlt
	.align	8
trampoline_gdt_pointer:
	.word	23
	.long	boot_gdt
trampoline_root:
	.long	0
trampoline_cr4:
	.long	0
trampoline_end:

	/* try_read(address, uint64_t *word), try_write(address, word): 1, or twice the fault's error code */
	.globl	try_read, try_write
try_read:
	mov	(%rdi), %rax
	mov	%rax, (%rsi)
	mov	$1, %eax
	ret
try_write:
	mov	%rsi, (%rdi)
	mov	$1, %eax
	ret
try_failed:
	lea	(%rdi,%rdi), %eax
	ret

	/* C is called with the registers that it may change kept on the stack. */
	.macro	keep
	.irp	register, rax, rcx, rdx, rsi, rdi, r8, r9, r10, r11
	push	%\register
	.endr
	cld
	.endm
	.macro	give_back
	.irp	register, r11, r10, r9, r8, rdi, rsi, rdx, rcx, rax
	pop	%\register
	.endr
	.endm

	/* A page fault of an access: C says whether it is made again (1), or goes on at try_failed; another stops all. The stack has code,
	 * RIP, CS, RFLAGS, RSP, SS.
	 */
	.globl	page_fault, other_fault, interrupt
page_fault:
	cmpq	$try_read, 8(%rsp)
	je	1f
	cmpq	$try_write, 8(%rsp)
	jne	other_fault
1:	keep
	mov	72(%rsp), %rdi
	mov	%cr2, %rsi
	sub	$8, %rsp
	call	page_faulted
	add	$8, %rsp
	test	%eax, %eax
	give_back
	jnz	2f
	mov	(%rsp), %rdi
	movq	$try_failed, 8(%rsp)
2:	lea	8(%rsp), %rsp
	iretq
other_fault:
	pop	%rdi
	pop	%rsi
	mov	%cr2, %rdx
	and	$-16, %rsp
	call	unexpected

	/* A shootdown: another processor asks this one for a flush. The stack has no code. */
interrupt:
	keep
	call	interrupted
	give_back
	iretq

	.section .note.GNU-stack, "", @progbits
