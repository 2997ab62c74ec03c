/* The kernel at 1 MiB. */
ENTRY(start)

PHDRS
{
	all PT_LOAD FLAGS(7);
	note PT_NOTE FLAGS(4);
}

SECTIONS
{
	. = 1M;
	.note.pvh : { KEEP(*(.note.pvh)) } :all :note
	.text : { *(.text .text.*) } :all
	.rodata : { *(.rodata .rodata.* .eh_frame) } :all
	.data : { *(.data .data.* .got .got.*) } :all
	.bss : { *(.bss .bss.* COMMON) } :all
	/DISCARD/ : { *(.comment .note.GNU-stack .note.gnu.*) }
}
