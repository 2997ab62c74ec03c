/* The kernel at 1 MiB. Each part has pages of its own, which get the rights that it needs. */
ENTRY(start)

PHDRS
{
	all PT_LOAD FLAGS(7);
	note PT_NOTE FLAGS(4);
}

SECTIONS
{
	. = 1M;
	.note.pvh : { KEEP(*(.note.pvh)) } :all :note
	. = ALIGN(4096);
	text_begin = .;
	.text : { *(.text .text.*) } :all
	. = ALIGN(4096);
	text_end = .;
	.stubs : { *(.stubs) } :all
	. = ALIGN(4096);
	stubs_end = .;
	.rodata : { *(.rodata .rodata.* .eh_frame) } :all
	. = ALIGN(4096);
	rodata_end = .;
	.data : { *(.data .data.* .got .got.*) } :all
	.bss : { *(.bss .bss.[!l]* COMMON) } :all /* but .bss.large */
	. = ALIGN(4096);
	data_end = .;
	. = ALIGN(2M);
	large_begin = .;
	.large : { *(.bss.large) } :all
	. = ALIGN(2M);
	large_end = .;
	/DISCARD/ : { *(.comment .note.GNU-stack .note.gnu.*) }
}
