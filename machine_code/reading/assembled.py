"""Disassembles code with `objdump`, and assembles the result again with `as`, as a round trip.

`objdump` prints several encodings as the same text, also some that are undefined, and it knows
instructions that not every CPU has. So the text of each instruction goes to the assembler, which is
told what the CPU has. An instruction is rejected where it is run, unless the assembler encodes its
text as the same bytes, without a diagnostic.
"""

import collections
import os
import re
import subprocess
import tempfile

from elftools.elf.elffile import ELFFile

from reading.image import AARCH64, X86_64

# `rejected` is the reason why it must not be run, or None.
Instruction = collections.namedtuple(
    "Instruction", "address size mnemonic operands text rejected", defaults=[None]
)
# By the machine: the command, and a pattern of what begins a comment in its output.
DISASSEMBLERS = {
    X86_64: (["objdump", "-m", "i386:x86-64", "-M", "intel", "-w"], "[#<]"),
    AARCH64: (["aarch64-linux-gnu-objdump", "-m", "aarch64"], "//|<"),
}
# The address, the bytes and the text of an instruction in the output of `objdump`.
OBJDUMP_LINE = re.compile(r"^\s*([0-9a-f]+):\t((?:(?:[0-9a-f]{2})+ )+)\s*\t(.*)$")
# Each text is assembled in a slot of its own, which is longer than any instruction and padded.
SLOT_SIZE, PADDING = 16, b"\xcc"
ADDRESS = re.compile(r"(?<!#)\b0x([0-9a-f]+)$")
DIAGNOSTIC = re.compile(r"\{standard input\}:(\d+): \w+: (.*)")


def with_relative_target(instruction):
    """The text of an instruction, whose target, if it ends in one, is relative to its address."""
    return ADDRESS.sub(
        lambda match: f".{int(match[1], 16) - instruction.address:+d}", instruction.text
    )


def disassemble_and_check(code, machine, parse_operands, command, text_of, is_equivalent):
    """The instructions of some code, by their addresses. An instruction that the assembler encodes
    otherwise is rejected. `parse_operands` parses what stands after a mnemonic, `text_of` gives the
    text that is assembled for an instruction, and `is_equivalent` accepts another encoding."""
    start, content = code
    instructions = disassemble(code, machine, parse_operands)
    slots, diagnostics = _assemble(command, map(text_of, instructions.values()))
    for number, (address, instruction) in enumerate(instructions.items()):
        encoding = content[address - start :][: instruction.size]
        assembled = slots[SLOT_SIZE * number :][:SLOT_SIZE]
        is_same = assembled == encoding.ljust(SLOT_SIZE, PADDING) and not diagnostics[number]
        if not is_same and not is_equivalent(instruction, encoding, assembled):
            result = "; ".join(diagnostics[number]) or assembled.rstrip(PADDING).hex()
            instructions[address] = instruction._replace(
                rejected=f"{encoding.hex()} is not assembled again to the same bytes: {result}"
            )
    return instructions


def disassemble(code, machine, parse_operands=lambda text: ()):
    """The instructions of some code, by their addresses, as `objdump` prints them."""
    start, content = code
    command, comment = DISASSEMBLERS[machine]
    with tempfile.NamedTemporaryFile() as file:
        file.write(content)
        file.flush()
        command = [*command, "-D", "-b", "binary", f"--adjust-vma={start:#x}", file.name]
        listing = subprocess.run(command, check=True, capture_output=True, text=True).stdout
    instructions = {}
    for match in filter(None, map(OBJDUMP_LINE.match, listing.splitlines())):
        address, size = int(match[1], 16), len(bytes.fromhex(match[2]))
        text = re.split(comment, match[3])[0].replace("\t", " ").strip()
        # A nop may have prefixes and operands without a meaning. objdump prints that of two bytes
        # as xchg.
        mnemonic, _, rest = re.sub("^(data16 |cs )*nop.*|^xchg +ax,ax$", "nop", text).partition(" ")
        try:
            operands = parse_operands(rest)
        except Exception:
            # An unsupported operand. The instruction is rejected if it is run.
            mnemonic, operands = "unknown", ()
        instructions[address] = Instruction(address, size, mnemonic, operands, text)
    return instructions


def _assemble(command, texts):
    """The slots with the encoding of each text, and the assembler's diagnostics of each."""
    lines = [
        f".org {SLOT_SIZE * number}, {PADDING[0]}; {text}\n"
        for number, text in enumerate([*texts, ""])
    ]
    english = os.environ | {"LC_ALL": "C"}
    with tempfile.NamedTemporaryFile() as file:
        # With -Z there is an object in spite of errors.
        command = [*command, "-Z", "-o", file.name, "-"]
        run = subprocess.run(
            command, input="".join(lines), capture_output=True, text=True, env=english
        )
        if not file.read():
            raise OSError(f"{command[0]} fails: {run.stderr}")
        slots = ELFFile(file).get_section_by_name(".text").data()
    diagnostics = collections.defaultdict(list)
    for line, message in DIAGNOSTIC.findall(run.stderr):
        diagnostics[int(line) - 1].append(message)
    return slots, diagnostics
