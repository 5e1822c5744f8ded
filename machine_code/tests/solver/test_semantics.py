"""Differential tests of the semantics with the processor, or with QEMU for AArch64: of each form in
the kernels and in the functions for C, and of each other instruction that has semantics."""

import pytest
from build import compiler_for, linked
from processor import NOT_STEPPED, Processor
from programs import edited, text_of

# Instructions with semantics that not every current kernel has.
MORE_INSTRUCTIONS = {
    "x86_64_v2": """.intel_syntax noprefix
        inc rax; dec ecx; cmovb rax, rcx; cmovne eax, ecx; paddb xmm0, xmm1; por xmm0, xmm1; pxor xmm0, xmm1;
        shr eax, 3; not rax; not cl; movabs rax, 0x123456789abcdef0; movsxd rax, ecx; movsxd rax, dword ptr [rcx]
        xorps xmm0, xmm1; movaps xmm0, xmm1; movups xmm0, [rax]; movups [rax], xmm0; mul rcx; mul rax
        pinsrd xmm0, eax, 2; mov byte ptr [rax], dh
        setb al; setae al; sete al; setne al; setbe al; seta al; sets al
        lea rax, [rip + more + 16]; movdqu xmm0, [rip + more + 16]
        .section .rodata.more; .balign 16; more: .skip 16; .ascii "0123456789abcdef" """,
    "x86_64_v3": """.intel_syntax noprefix
        vpbroadcastq ymm0, xmm1; vpbroadcastd ymm0, xmm1;
        vpunpckldq ymm0, ymm1, ymm2; vpunpcklqdq ymm0, ymm1, ymm2; vpermq ymm0, ymm1, 0x8d; vpxor ymm0, ymm1, ymm2; vinserti128 ymm0, ymm1, xmm2, 1
        vinserti128 ymm0, ymm1, xmm2, 0; vextracti128 xmm0, ymm1, 0; vextracti128 [rax], ymm1, 0
        vpinsrd xmm0, xmm1, eax, 2; vxorps ymm0, ymm1, ymm2; vmovaps ymm0, ymm1; vmovups ymm0, [rax]""",
    "aarch64": """
        adds x0, x1, x2; cmn w1, w2; subs x0, x1, x2; eor w0, w1, w2; mvn x0, x1
        csinv w0, w1, w2, hi; lsl x0, x1, #3; cbnz w0, 1f; nop; nop; 1: nop; neg w0, w1
        ldrh w0, [x1]; strh w0, [x1]; ldurb w0, [x1, #-1]; sturb w0, [x1, #-1]; umulh x0, x1, x2; msub x0, x1, x2, x3
        msub w0, w1, w2, wzr; movk x0, #0xcccd; movk x0, #0x1234, lsl #48; movk w0, #0x7374, lsl #16
        bfxil w0, w1, #2, #1; bfxil x0, x1, #0, #9; adds x0, x1, w2, uxtw; cmp x0, x1, lsr #1
        tbz x0, #63, 1f; nop; nop; 1: nop; tbnz w0, #3, 1f; nop; nop; 1: nop
        b.ls 1f; nop; nop; 1: nop; b.gt 1f; nop; nop; 1: nop
        cset w0, eq; cset w0, ne; cset w0, cs; cset w0, cc; cset w0, hi; cset w0, ls; cset w0, gt; cset w0, le
        movi v0.8h, #49; movi v0.4s, #49; movi v0.8b, #49; xtn v0.4h, v1.4s; sli v0.8h, v1.8h, #3; dup v0.2d, x1
        uzp1 v0.8h, v1.8h, v2.8h; uzp2 v0.8h, v1.8h, v2.8h;
        st2 {v0.8h, v1.8h}, [x1]; st2 {v0.8b, v1.8b}, [x1], #16; ld1 {v0.8b, v1.8b}, [x1]
        st1 {v0.s}[1], [x1]; st1 {v0.h}[0], [x1]
        adr x0, more + 16; adrp x0, more + 16; add x0, x0, :lo12:more + 16; ldr q0, [x0, :lo12:more + 16]
        .section .rodata.more, "a"; .balign 16; more: .skip 16; .ascii "0123456789abcdef" """,
}


def processor(build):
    """A processor with the instructions of a kernel and more, or of the functions for C."""
    if build.startswith("functions_"):
        return Processor(edited(build, "version"), build)
    level = build.removeprefix("x86_64_")
    text = f'{text_of(level)}\n.section .text.more, "ax"\n{MORE_INSTRUCTIONS[build]}\n'
    return Processor(linked(text, compiler_for(level)), level)


# The builds for each processor.
BUILDS = ["x86_64_v2", "x86_64_v3", "functions_x86_64"], ["aarch64", "functions_aarch64"]


@pytest.mark.parametrize("builds", BUILDS, ids=("x86-64", "AArch64"))
def test_semantics(builds):
    compared = set()
    for build in builds:
        runner = processor(build)
        assert list(runner.differences()) == []
        compared |= {i.mnemonic for i in runner.instructions}
    missing = runner.semantics.HANDLERS.keys() - compared - {*NOT_STEPPED}
    # The conditional jumps and moves share their conditions.
    assert [name for name in missing if not name.startswith(("j", "set", "cmov", "b."))] == []
