/* The functions of const_hex.h whose error may be NULL, and the kernel's, over those in the other files, which are
 * generated. machine_code verifies this file, too.
 *
 * A function of const_hex.h whose error may be NULL passes its arguments to the one whose name ends in _nonnull, and a
 * local error in place of NULL.
 *
 * On x86-64 there are two kernels, for x86-64-v2 and x86-64-v3. The code of the Rust crate chooses one.
 */
#include "assembly.h"

#if defined(__x86_64__) && !defined(__ILP32__)
#define const_hex_1_0_0_choice const_hex_kernel_choice
#define const_hex_1_0_0_build SYMBOL(const_hex_kernel_build)
#define const_hex_1_0_0_check SYMBOL(const_hex_kernel_check)
#define const_hex_1_0_0_fill_lower SYMBOL(const_hex_kernel_fill_lower)
#define const_hex_1_0_0_fill_upper SYMBOL(const_hex_kernel_fill_upper)
#define const_hex_1_0_0_read SYMBOL(const_hex_kernel_read)
/* An argument of the macro there: the functions for C have no portable code. */
#define rust c
#include "../../rust/src/asm/dispatch.s"

	/* `error` is the register with the last argument. The local error is at rsp, and 24 bytes align the stack. */
	.macro or_null name, error
	exported \name
	function \name
	test	\error, \error
	jne	\name\()_nonnull
	sub	rsp, 24
	mov	\error, rsp
	call	\name\()_nonnull
	add	rsp, 24
	ret
	end \name
	.endm

	or_null SYMBOL(const_hex_decode), r9
	or_null SYMBOL(const_hex_decode_exact), r8
	or_null SYMBOL(const_hex_decoder_finish), rsi
	or_null SYMBOL(const_hex_check), rdx

	/* The seventh argument is the error, and lies on the stack. */
	exported SYMBOL(const_hex_decoder_update)
	function SYMBOL(const_hex_decoder_update)
	cmp	QWORD PTR [rsp + 8], 0
	jne	SYMBOL(const_hex_decoder_update_nonnull)
	sub	rsp, 24
	lea	rax, [rsp + 8]
	mov	QWORD PTR [rsp], rax
	call	SYMBOL(const_hex_decoder_update_nonnull)
	add	rsp, 24
	ret
	end SYMBOL(const_hex_decoder_update)

#elif defined(__aarch64__) && !defined(__ILP32__) && !defined(__AARCH64EB__)

	.macro or_null name, error
	exported \name
	function \name
	cbz	\error, 2f
	b	\name\()_nonnull
2:
	stp	x29, x30, [sp, #-32]!
	mov	x29, sp
	add	\error, sp, #16
	bl	\name\()_nonnull
	ldp	x29, x30, [sp], #32
	ret
	end \name
	.endm

	or_null SYMBOL(const_hex_decode), x5
	or_null SYMBOL(const_hex_decode_exact), x4
	or_null SYMBOL(const_hex_decoder_update), x6
	or_null SYMBOL(const_hex_decoder_finish), x1
	or_null SYMBOL(const_hex_check), x2

#else
#error "There is no machine code for this processor here. Compile c/portable.c instead."
#endif
