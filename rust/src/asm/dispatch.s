/* The functions of the kernel on x86-64, each of which jumps to the build of it for this CPU. The first call asks the
 * CPU, and stores the answer in one byte. There is no lock: threads that ask at the same time get the same answer, and
 * store the same byte. No address of code is stored where a program can write. machine_code verifies this file, too.
 *
 * The library for C includes it, with other names. */
	.intel_syntax noprefix

	/* 0 until the CPU was asked, and then 3 for x86-64-v3, 2 for x86-64-v2, and 1 for portable code. */
	variable const_hex_1_0_0_choice

	/* Asks the CPU. The answer is in eax, and every other register is kept. */
	function const_hex_1_0_0_build
	push	rbx
	push	rcx
	push	rdx
	mov	eax, 1
	cpuid
	mov	eax, ecx
	and	eax, 0x982201		/* SSE3, SSSE3, CMPXCHG16B, SSE4.1, SSE4.2, POPCNT */
	cmp	eax, 0x982201
	jne	4f
	and	ecx, 0x38401000		/* FMA, MOVBE, OSXSAVE, AVX, F16C */
	cmp	ecx, 0x38401000
	jne	3f
	xor	eax, eax
	cpuid
	cmp	eax, 7
	jb	3f
	mov	eax, 7
	xor	ecx, ecx
	cpuid
	and	ebx, 0x128		/* BMI1, AVX2, BMI2 */
	cmp	ebx, 0x128
	jne	3f
	mov	eax, 0x80000000
	cpuid
	cmp	eax, 0x80000001
	jb	3f
	mov	eax, 0x80000001
	cpuid
	and	ecx, 0x20		/* LZCNT */
	je	3f
	xor	ecx, ecx
	xgetbv
	and	eax, 6			/* the system saves the registers of SSE and of AVX */
	cmp	eax, 6
	jne	3f
	mov	eax, 3
	jmp	5f
3:
	mov	eax, 2
	jmp	5f
4:
	mov	eax, 1
5:
	pop	rdx
	pop	rcx
	pop	rbx
	ret
	end const_hex_1_0_0_build

	/* `portable` is the register with the last argument, the address of the function in portable code. If `library` is
	 * c, and not rust, functions have no such argument: they need x86-64-v2 in any case. */
	.macro kernel name, portable, library
	hidden \name
	function \name
	cmp	BYTE PTR [rip + const_hex_1_0_0_choice], 3
	je	\name\()_v3
	cmp	BYTE PTR [rip + const_hex_1_0_0_choice], 2
	je	\name\()_v2
	.ifnc \library, c
	cmp	BYTE PTR [rip + const_hex_1_0_0_choice], 1
	je	2f
	.endif
	call	const_hex_1_0_0_build
	mov	BYTE PTR [rip + const_hex_1_0_0_choice], al
	cmp	al, 3
	je	\name\()_v3
	.ifnc \library, c
	cmp	al, 1
	je	2f
	.endif
	jmp	\name\()_v2
	.ifnc \library, c
2:
	jmp	\portable
	.endif
	end \name
	.endm

	kernel const_hex_1_0_0_check, rdx, rust
	kernel const_hex_1_0_0_fill_lower, rcx, rust
	kernel const_hex_1_0_0_fill_upper, rcx, rust
	kernel const_hex_1_0_0_read, rcx, rust
	.purgem kernel
