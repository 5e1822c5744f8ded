/* The directives of the other files in this folder, for ELF. mach_o.s and coff.s have the same for other objects, and
 * end.s ends them. */
	.macro hidden name
	.globl \name
	.hidden \name
	.endm
	/* Each function is a section, so that a linker can leave out those that a program does not use. */
	.macro function name
	.section .text.\name, "ax", %progbits
	.p2align 5
	.type \name, %function
\name:
	.endm
	.macro end name
	.size \name, . - \name
	.endm
	/* A byte of zero. */
	.macro variable name
	.section .bss.\name, "aw", %nobits
	.type \name, %object
	.size \name, 1
\name:
	.zero 1
	.endm
	.macro constant name, alignment
	.section .rodata.\name, "a", %progbits
	.p2align \alignment
\name:
	.endm
	/* On aarch64: the page of a label, and the lower bits of its address. */
	.macro adrp_label register, label
	adrp \register, \label
	.endm
	.macro add_label register, page, label
	add \register, \page, :lo12:\label
	.endm
	.macro ldr_label register, page, label
	ldr \register, [\page, :lo12:\label]
	.endm
