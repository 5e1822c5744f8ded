/* clang-format off */
/* The directives of the files in this folder, for ELF, Mach-O and COFF: those of the Rust crate, and one that it does not
 * need. The code itself is the same in all. */
#ifdef __APPLE__

#define SYMBOL(name) _##name
#include "../../rust/src/asm/mach_o.s"

	.macro exported name
	.globl \name
	.endm
	/* A function that the other files call, but no program. Its name has the underscore already. */
	.purgem hidden
	.macro hidden name
	.globl \name
	.private_extern \name
	.endm
	.subsections_via_symbols

#else

#ifdef __ELF__
#define SYMBOL(name) name
#include "../../rust/src/asm/elf.s"
#else
#include "../../rust/src/asm/coff.s"
#ifdef __x86_64__
/* The functions of const_hex.h are those of windows.c, which call these. */
#define SYMBOL(name) sysv_##name
#else
#define SYMBOL(name) name
#endif
#endif

	.macro exported name
	.globl \name
	.endm
#ifdef __ELF__
	/* No code here needs a stack that can be executed. */
	.section .note.GNU-stack, "", %progbits
#endif

#endif
