/* The directives of elf.s for COFF. */
	.macro hidden name
	.globl \name
	.endm
	.macro function name
	.section .text$\name, "xr"
	.p2align 5
\name:
	.endm
	.macro end name
	.endm
	.macro variable name
	.bss
\name:
	.zero 1
	.endm
	.macro constant name, alignment
	.section .rdata$\name, "dr"
	.p2align \alignment
\name:
	.endm
	.macro adrp_label register, label
	adrp \register, \label
	.endm
	.macro add_label register, page, label
	add \register, \page, :lo12:\label
	.endm
	.macro ldr_label register, page, label
	ldr \register, [\page, :lo12:\label]
	.endm
