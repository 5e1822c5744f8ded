"""Runs single instructions of a file on a processor, from random states, and compares the states
after them with the semantics.

A program (run.c in the folder above) maps the file, and writes a jump back after the instruction
and, if that is a jump, at its target. Registers are random, except for those in an address, which
point into a scratch area.
"""

import collections
import io
import itertools
import pathlib
import random
import struct
import subprocess
import tempfile
from dataclasses import dataclass

import build
import z3
from execution.code import Code
from execution.paths import Branch
from execution.terms import bv64, simplify
from hints.loops import successors
from node import BYTE_TERMS, EDGE_BYTES
from reading import library
from solver.queries import require

FOLDER = pathlib.Path(__file__).resolve().parents[1]
# As in run.c.
SCRATCH_SIZE = 1 << 12
TEXT_ADDRESS = 0x4000000
SCRATCH_ADDRESS = 0x8000000
SCRATCH_MIDDLE = SCRATCH_ADDRESS + SCRATCH_SIZE // 2
# Instructions that are not run alone: unconditional jumps, and what the CPU decides.
NOT_STEPPED = ("ret", "call", "jmp", "nop", "bl", "b", "cpuid", "xgetbv")
# The instructions of each form that are run, and the initial states of each.
SAMPLES_PER_FORM, STATES_PER_SAMPLE = 2, 20
# In some states all numbers are near one of these, so that some are equal, and some sums and
# differences are 0. None stands for any numbers.
NEAR_NUMBERS = [None] * 4 + [0, 0, 1 << 31, 1 << 63]


@dataclass
class Target:
    """A processor, and how to build and run a program for it."""

    flag_bits: dict  # the positions in the flags register
    jump_size: int
    compiler: str
    emulator: tuple = ()


TARGETS = {
    "x86_64": Target(
        {"carry": 0, "zero": 6, "sign": 7, "overflow": 11}, jump_size=5, compiler=build.X86_64
    ),
    "aarch64": Target(
        {"sign": 31, "zero": 30, "carry": 29, "overflow": 28},
        jump_size=4,
        compiler=build.AARCH64,
        emulator=("qemu-aarch64",),
    ),
}


def _random_bytes(generator, count):
    """Random bytes, edge cases, or zeros."""
    content = generator.randbytes(count)
    kind = generator.randrange(8)
    if kind == 0:
        return bytes(count)
    return content if kind < 4 else content.translate((EDGE_BYTES * 24)[:256])


class ConcreteMemory:
    """A mixin for a state with a concrete memory: the mapped file, and the scratch area."""

    def load(self, address, count, aligned=False):
        address = simplify(address).as_long()
        require(not aligned or address % count == 0, "not aligned")
        if address >= SCRATCH_ADDRESS:
            data = self.scratch[address - SCRATCH_ADDRESS :]
        else:
            data = self.mapped_file[address - TEXT_ADDRESS :]
        return [BYTE_TERMS[value] for value in data[:count]]

    def store(self, address, data, aligned=False):
        start = simplify(address).as_long() - SCRATCH_ADDRESS
        self.scratch[start : start + len(data)] = [simplify(value).as_long() for value in data]


class Processor:
    """The instructions of a file, which run on a processor and by the semantics."""

    def __init__(self, content, level):
        linked = library.read(content)
        any_symbol = min(linked.symbols)
        self.code = Code(content, any_symbol, {}, level)
        self.code.constants.base = bv64(TEXT_ADDRESS + linked.base_address)
        for start in sorted(linked.symbol_addresses):
            self.code.instruction(start)  # which decodes those after it, too
        self.semantics = self.code.processor
        self.name = self.semantics.__name__.rpartition(".")[2]
        self.target = TARGETS[self.name]
        self.mapped_file = bytearray(linked.size)
        for part in linked.mappings:
            self.mapped_file[part.address : part.address + len(part.content)] = part.content
        self.instructions = [
            instruction
            for instruction in self.code.instructions.values()
            if self._can_be_stepped(instruction)
        ]

    def _can_be_stepped(self, instruction):
        """Whether an instruction has semantics, and its target has space for a jump back."""
        if (
            instruction.mnemonic not in self.semantics.HANDLERS
            or instruction.mnemonic in NOT_STEPPED
            or instruction.rejected
        ):
            return False
        target = self._jump_target(instruction)
        end = instruction.address + instruction.size
        jump_size = self.target.jump_size
        overlaps = instruction.address - jump_size < target < end + jump_size
        return target == end or not overlaps and bool(self.code.image.code_at(target))

    def _jump_target(self, instruction):
        """The target of a jump, or the end of another instruction."""
        return max(
            successors(instruction), key=lambda to: to != instruction.address + instruction.size
        )

    def _initial_state(self, instruction, generator):
        """A random state, in which addresses lie in the scratch area, aligned for any access."""
        state = type("ConcreteState", (ConcreteMemory, self.semantics.State), {})()
        state.code = self.code
        state.mapped_file = self.mapped_file
        state.is_legacy_sse = False
        state.scratch = bytearray(_random_bytes(generator, SCRATCH_SIZE))
        near = generator.choice(NEAR_NUMBERS)
        general = {}
        for name in state.GENERAL_REGISTERS:
            number = int.from_bytes(_random_bytes(generator, 8), "little")
            general[name] = number if near is None else near + generator.randrange(-1, 2)
        general[state.SP] = SCRATCH_MIDDLE
        for operand in instruction.operands if instruction.mnemonic != "lea" else ():
            if operand.kind == "memory" and ("rip", 1) not in operand.terms:
                _point_into_scratch(general, operand, state.SP, generator)
        state.general = {name: bv64(value) for name, value in general.items()}
        state.flags = {name: z3.BoolVal(generator.random() < 0.5) for name in self.target.flag_bits}
        state.vector_bytes = {
            number: _random_bytes(generator, state.VECTOR_SIZE)
            for number in range(state.VECTOR_COUNT)
        }
        state.vectors = {
            number: [BYTE_TERMS[value] for value in data]
            for number, data in state.vector_bytes.items()
        }
        state.next = instruction.address + instruction.size
        return state

    def _request(self, instruction, state):
        """An instruction and the state before it, as run.c reads them."""
        flags = 0
        for name, bit in self.target.flag_bits.items():
            flags |= z3.is_true(simplify(state.flags[name])) << bit
        numbers = [
            instruction.address,
            instruction.address + instruction.size,
            self._jump_target(instruction),
        ]
        numbers += [state.general[name].as_long() for name in state.GENERAL_REGISTERS]
        content = struct.pack(f"<{len(numbers)}Q", *numbers) + b"".join(state.vector_bytes.values())
        return content + struct.pack("<QQ", flags, 0) + state.scratch

    def _run(self, requests):
        """The output of the program, which runs on the processor or in its emulator."""
        with tempfile.TemporaryDirectory() as folder:
            sources = [FOLDER / "run.c", FOLDER / f"run_{self.name}.S"]
            file = build.built(self.target.compiler, "-O1", "-static", *sources, folder=folder)
            size = struct.pack("<Q", len(self.mapped_file))
            content = size + self.mapped_file + b"".join(requests)
            command = [*self.target.emulator, file]
            return subprocess.run(command, input=content, stdout=subprocess.PIPE).stdout

    def _compare(self, instruction, state, output):
        """What differs between the semantics and the processor's next state in the output."""
        result = self.semantics.HANDLERS[instruction.mnemonic](state, *instruction.operands)
        for name in state.GENERAL_REGISTERS:
            [number] = struct.unpack("<Q", output.read(8))
            if not simplify(state.general[name]).eq(bv64(number)):
                yield name
        for name, data in state.vectors.items():
            before, after = state.vector_bytes[name], output.read(state.VECTOR_SIZE)
            expected = [BYTE_TERMS[value] for value in after]
            if data != expected and [*map(simplify, data)] != expected:
                yield f"vector {name}"
            unchanged_or_zero = before[16:], bytes(len(before) - 16)
            if state.is_upper_half_clean and after[16:] not in unchanged_or_zero:
                yield f"the upper half of vector {name}"
        if state.is_legacy_sse:
            yield "a legacy SSE instruction has not ended"
        flags, is_taken = struct.unpack("<QQ", output.read(16))
        if output.read(SCRATCH_SIZE) != state.scratch:
            yield "memory"
        for name, flag in (state.flags or {}).items():
            bit = bool(flags >> self.target.flag_bits[name] & 1)
            if flag is not None and z3.is_true(simplify(flag)) != bit:
                yield f"the {name} flag"
        if is_taken != (isinstance(result, Branch) and z3.is_true(simplify(result.condition))):
            yield "whether the jump is taken"

    def differences(self):
        """What differs after some instructions of each form: a mnemonic with kinds of operands."""
        forms = collections.defaultdict(list)
        for instruction in self.instructions:
            kinds = [(operand.kind, operand.size) for operand in instruction.operands]
            forms[instruction.mnemonic, *kinds].append(instruction)
        samples = []
        for instructions in forms.values():
            step = len(instructions) // SAMPLES_PER_FORM or 1
            samples += instructions[::step][:SAMPLES_PER_FORM]
        runs = []
        for instruction, number in itertools.product(samples, range(STATES_PER_SAMPLE)):
            generator = random.Random(f"{instruction.text} {number}")
            runs.append((instruction, self._initial_state(instruction, generator)))
        output = io.BytesIO(self._run(itertools.starmap(self._request, runs)))
        for instruction, state in runs:
            yield from (
                f"{instruction.text}: {what}" for what in self._compare(instruction, state, output)
            )


def _point_into_scratch(general, operand, stack_pointer, generator):
    """Sets the registers of an address."""
    (base, _), *indices = operand.terms
    for name, _ in indices:
        general[name] = generator.randrange(256) & -32
    rest = operand.offset + sum(general[name] * scale for name, scale in indices)
    if base != stack_pointer:
        general[base] = SCRATCH_MIDDLE + 64 * generator.randrange(16) - rest
