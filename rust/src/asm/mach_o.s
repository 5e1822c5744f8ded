/* The directives of elf.s for Mach-O. */
	.macro hidden name
	.globl _\name
	.private_extern _\name
	.set _\name, \name
	.endm
	.macro function name
	.section __TEXT,__text,regular,pure_instructions
	.p2align 5, 0x90
\name:
	.endm
	.macro end name
	.endm
	.macro variable name
	.zerofill __DATA,__bss,\name,1,0
	.endm
	.macro constant name, alignment
	.section __TEXT,__const
	.p2align \alignment
\name:
	.endm
	.macro adrp_label register, label
	adrp \register, \label@PAGE
	.endm
	.macro add_label register, page, label
	add \register, \page, \label@PAGEOFF
	.endm
	.macro ldr_label register, page, label
	ldr \register, [\page, \label@PAGEOFF]
	.endm
