"""Mutation of code: small kernels, each a loop over single bytes, and the committed assembly and
module."""

import collections
import functools
import pathlib
import re

from contracts.dispatch import KERNEL_DISPATCHERS, NULL_ERROR_WRAPPERS
from contracts.kernels import KERNELS
from contracts.library import FUNCTIONS
from contracts.messages import MESSAGES
from execution import proofs
from reading import library
from reading.module import FUNCTION_SPACING
from build import ASM, MODULE, RUST, compiler_for, linked, linked_module, run

# Templates of kernels. A mutant inserts instructions at the names in braces.
CHECK = """
    {start}
    1: test rsi, rsi; je 2f
    movzx eax, byte ptr [rdi]; {character}
    lea ecx, [rax-0x30]; cmp cl, 10; setb r8b; or al, 0x20; sub al, 0x61; cmp al, 6; setb r9b; or r8b, r9b; je 3f
    add rdi, 1; add rsi, -1; {iteration}
    jmp 1b
    2: mov eax, 1; {end}
    ret
    3: xor eax, eax; ret
"""
FILL = """
    {start}
    1: test rsi, rsi; je 2f
    movzx eax, byte ptr [rdi]; {character}
    mov r9d, eax; shr r9d, 4; and eax, 15
    lea r10d, [r9+0x30]; lea r11d, [r9+0x57]; cmp r9d, 10; cmovb r11d, r10d; mov [rdx], r11b
    lea r10d, [rax+0x30]; lea r11d, [rax+0x57]; cmp eax, 10; cmovb r11d, r10d; mov [rdx+1], r11b
    add rdi, 1; add rdx, 2; add rsi, -1; {iteration}
    jmp 1b
    2: {end}
    ret
"""
# Replaces the character in register {0} by its value, or jumps to 3 if it is no digit.
VALUE = """lea r10d, [r{0}x-0x30]; cmp r10b, 10; setb r8b; or {0}l, 0x20; sub {0}l, 0x57; lea r11d, [r{0}x-10]
    cmp r11b, 6; setb r9b; or r9b, r8b; je 3f; test r8b, r8b; cmovne e{0}x, r10d
    """
# Decodes the two characters in eax and ecx to a byte in al.
BYTE = f"{VALUE.format('a')}{VALUE.format('c')}shl eax, 4; or eax, ecx; "
# Loads the pair of characters at an offset.
LOAD = "movzx eax, byte ptr [rdi+{0}]; movzx ecx, byte ptr [rdi+{0}+1]; "
READ = f"""
    {{start}}
    1: test rdx, rdx; je 2f
    {LOAD.format(0)}{{character}}
    {BYTE}{{store}}
    add rdi, 2; add rsi, 1; add rdx, -1; {{iteration}}
    jmp 1b
    2: mov eax, 1; {{end}}
    ret
    3: xor eax, eax; ret
"""
CHECK_ON_AARCH64 = """
    {start}
    1: cbz x1, 2f
    ldrb w8, [x0]; {character}
    sub w9, w8, #0x30; cmp w9, #10; cset w10, cc; mov w11, #0x20; orr w8, w8, w11; sub w8, w8, #0x61; cmp w8, #6
    cset w11, cc; orr w10, w10, w11; cbz w10, 3f; add x0, x0, #1; sub x1, x1, #1; {iteration}
    b 1b
    2: mov w0, #1; {end}
    ret
    3: mov w0, #0; ret
"""
# What follows a kernel: two tables, and a function.
AFTER = """
    .section .rodata.table, "a"; .balign 16; table: .skip 32, 1
    .section .rodata.other, "a"; .balign 16; other: .skip 32
    .section .text.helper, "ax"; helper: {helper} ret
"""
PROGRAMS = {"check": CHECK, "fill_lower": FILL, "read": READ}


def of_rust(name):
    """The files of the Rust crate that are assembled for a build."""
    return [RUST / f"{part}.s" for part in ("elf", name, "end")]


# The committed assembly: the files of each build, and the contracts of its functions.
COMMITTED = {
    "v2": (of_rust("x86_64_v2"), KERNELS),
    "v3": (of_rust("x86_64_v3"), KERNELS),
    "aarch64": (of_rust("aarch64"), KERNELS),
    "dispatch": (of_rust("dispatch"), KERNEL_DISPATCHERS),
    "dispatch for AArch64": ([ASM / "dispatch.S"], NULL_ERROR_WRAPPERS),
    "functions_x86_64": ([ASM / "functions_x86_64.S"], (*FUNCTIONS, *MESSAGES)),
    "functions_aarch64": ([ASM / "functions_aarch64.S"], (*FUNCTIONS, *MESSAGES)),
}
WASM = "wasm"


def program(level, function, **changes):
    """A program with a small kernel, with instructions inserted at the named places."""
    lines = collections.defaultdict(str, {"store": "mov [rsi], al"} | changes)
    is_aarch64 = level == "aarch64"
    body = ((CHECK_ON_AARCH64 if is_aarch64 else PROGRAMS[function]) + AFTER).format_map(lines)
    syntax = "" if is_aarch64 else ".intel_syntax noprefix\n"
    name = f"const_hex_1_0_0_{function}" if is_aarch64 else f"const_hex_1_0_0_{function}_{level}"
    text = f'{syntax}.section .text.{name}, "ax"\n.globl {name}\n{name}:\n{body}'
    return linked(text, compiler_for(level))


def lines_of(text):
    """The lines of some text, with single spaces between words."""
    return "\n".join(" ".join(line.split()) for line in text.splitlines()) + "\n\n"


@functools.cache
def text_of(build):
    """The assembly of a build, or the text format of the module."""
    if build != WASM:
        assembly = "\n".join(path.read_text() for path in COMMITTED[build][0])
        # Without the alignment of branches, which stands between instructions.
        return re.sub(r"^\.p2align 5, , .*\n", "", lines_of(assembly), flags=re.M)
    text = run("wasm2wat", "--no-debug-names", MODULE).decode()
    return re.sub(r"^ +| +$", "", re.sub(r"\(;@?\d+;\)|;; .*$", "", text, flags=re.M), flags=re.M)


def spans_of(build, function):
    """Where functions, constants or macros of a build that match a name begin and end."""
    text = text_of(build)
    if build == WASM:
        bodies = list(re.finditer(r"^\(func .*\n(?:\(local.*\n)?((?:(?!\().*\n)*)", text, re.M))
        address = library.read(pathlib.Path(MODULE).read_bytes()).symbols[f"const_hex_{function}"]
        return [bodies[address // FUNCTION_SPACING - 1].span(1)]
    name = rf"(const_hex_([\d_]+_|body_|message_|kernel_)?)?{function}(_nonnull)?(_v\d)?"
    starts = re.finditer(rf"^(function|constant|\.macro) (SYMBOL\()?{name}\b.*\n", text, re.M)
    return [(start.end(), text.index("\n\n", start.end())) for start in starts]


def pattern(lines):
    """The regular expression for some lines, in which {a} stands for a register, an operand or a
    label."""
    text = re.escape(lines.replace("; ", "\n"))
    for name in "abcd":
        text = text.replace(rf"\{{{name}\}}", rf"(?P<{name}>[^\s,;\[\]+*]+)", 1)
        text = text.replace(rf"\{{{name}\}}", f"(?P={name})")
    return text


def edited(build, function, old="", new=""):
    """The committed object or module, in which lines of a function, a constant or a macro are
    replaced, if any."""
    text = text_of(build)
    search = re.compile(pattern(old)).search
    match = next(filter(None, (search(text, *span) for span in spans_of(build, function))), None)
    assert match, f"{function} has no {old}"
    lines = re.sub(r"\{(\w)\}", lambda name: match[name[1]], new.replace("; ", "\n"))
    # Without old lines, the new ones are inserted.
    text = text[: match.start()] + lines + "\n" * (not old) + text[match.end() :]
    if build == WASM:
        return linked_module(text)
    return linked(text, compiler_for(build))


def prove(content, function, contracts=KERNELS, name=None):
    """Proves the first contract of a function, or the one with a name."""
    contract = next(
        each for each in contracts if each.function == function and name in (None, each.name)
    )
    # A module has no wrappers for a NULL error.
    suffix = "_nonnull" if content.startswith(library.WASM_MAGIC) else ""
    name_pattern = contract.symbol.removesuffix(suffix)
    symbols = library.read(content).symbols
    [symbol] = [each for each in symbols if re.fullmatch(name_pattern, each)]
    return proofs.prove(content, symbol, contract)
