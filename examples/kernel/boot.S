/* From QEMU's -kernel to C: an address space for the first instructions, and long mode with four levels or five.
 *
 * The loader enters start in 32-bit protected mode with paging off, and EBX at struct start_info (PVH). The levels are the first
 * letter of the command line, since CR4.LA57 can't change while paging is on.
 */
#include "machine.h"

	.section .note.pvh, "a", @note
	.align	4
	.long	4, 8, 18	/* lengths of name and value; the entry point */
	.asciz	"Xen"
	.quad	start

	.section .bss
	.align	4096
boot_root_of_five:
	.skip	4096
boot_root_of_four:
	.skip	4096
boot_pointers:
	.skip	4096
boot_directories:
	.skip	5 * 4096	/* 5 GiB by pages of 2 MiB, each for itself */
stack:
	.skip	STACK_BYTES
stack_top:
fault_stack:
	.skip	STACK_BYTES
fault_stack_top:
tick_stack:
	.skip	STACK_BYTES
tick_stack_top:
	.globl	stack, stack_top, fault_stack_top, tick_stack_top

	.data
	.align	8
boot_gdt:
	.quad	0, 0x00af9b000000ffff, 0x00cf93000000ffff
boot_gdt_pointer:
	.word	boot_gdt_pointer - boot_gdt - 1
	.quad	boot_gdt

	.text
	.code32
	.globl	start
start:
	cli
	cld
	mov	$stack_top, %esp
	mov	%ebx, %ebp
	mov	24(%ebx), %esi		/* the command line */

	movl	$boot_root_of_four + 7, boot_root_of_five
	movl	$boot_pointers + 7, boot_root_of_four
	mov	$boot_pointers, %edi
	mov	$boot_directories + 7, %eax
	mov	$5, %ecx
1:	mov	%eax, (%edi)
	add	$4096, %eax
	add	$8, %edi
	loop	1b
	mov	$boot_directories, %edi
	mov	$0x87, %eax		/* present, written by all, 2 MiB */
	xor	%edx, %edx
	mov	$5 * 512, %ecx
2:	mov	%eax, (%edi)
	mov	%edx, 4(%edi)
	add	$0x200000, %eax
	adc	$0, %edx
	add	$8, %edi
	loop	2b

	mov	$CR4_PAE | CR4_OSFXSR | CR4_OSXMMEXCPT, %edi
	mov	$boot_root_of_four, %eax
	cmpb	$'5', (%esi)
	jne	3f
	push	%eax
	mov	$7, %eax
	xor	%ecx, %ecx
	cpuid
	pop	%eax
	bt	$16, %ecx		/* five levels are there */
	jnc	3f
	or	$CR4_LA57, %edi
	mov	$boot_root_of_five, %eax
3:	mov	%edi, %cr4
	mov	%eax, %cr3
	mov	$MSR_EFER, %ecx
	rdmsr
	or	$EFER_LME, %eax
	wrmsr
	mov	%cr0, %eax
	and	$~(CR0_EM | CR0_TS), %eax
	or	$CR0_PG | CR0_MP, %eax
	mov	%eax, %cr0
	lgdt	boot_gdt_pointer
	ljmp	$8, $start_long

	.code64
start_long:
	mov	$16, %eax
	mov	%eax, %ds
	mov	%eax, %es
	mov	%eax, %ss
	mov	$stack_top, %esp
	mov	%ebp, %edi
	xor	%ebp, %ebp
	call	kernel
1:	hlt
	jmp	1b

	.section .note.GNU-stack, "", @progbits
