"""x86-64: the syntax of operands in `objdump`, the semantics of each instruction, and the System V
ABI.

If the semantics were wrong, code would be proved that does something else. test_semantics.py
compares each form that occurs with the processor. An instruction is rejected unless the assembler,
which is told the microarchitecture level, encodes its text as the same bytes.
"""

import re
from operator import add, and_, invert, or_, sub, xor

import z3

from execution.state import State as CommonState
from execution.terms import bv8, bytes_le, concat_le, fresh_public, simplify
from reading import assembled
from reading.image import X86_64
from semantics.lanes import (
    SHIFT_LEFT,
    Operand,
    condition_holds,
    conditions,
    difference_flags,
    general,
    jump_if,
    set_if,
    sum_flags,
)
from semantics.x86_64_vectors import VECTOR_HANDLERS
from solver.queries import public, require

# The instruction sets of the x86-64 psABI's microarchitecture levels, for GNU as.
V2 = "generic64+cx16+popcnt+sse3+ssse3+sse4.1+sse4.2"
# The dispatcher runs on every CPU. It runs `xgetbv`, of XSAVE, only if the CPU reports OSXSAVE.
LEVELS = {"v3": f"{V2}+xsave+avx+avx2+bmi+bmi2+f16c+fma+lzcnt+movbe", "dispatch": "generic64+xsave"}
# The multi-byte nops that assemblers pad with. Their text is assembled to other bytes.
NOPS = "0f1f4000 0f1f440000 660f1f440000 0f1f8000000000 0f1f840000000000 660f1f840000000000".split()
NOPS += ["66" * count + "2e0f1f840000000000" for count in range(1, 7)]
# The bytes of an operand in memory, by the keyword before `PTR`.
SIZES = {"BYTE": 1, "WORD": 2, "DWORD": 4, "QWORD": 8, "XMMWORD": 16, "YMMWORD": 32}
# The names of each register: of its 8 bytes, and of its lowest 4, 2 and 1.
REGISTERS = [(f"r{n}", f"r{n}d", f"r{n}w", f"r{n}b") for n in range(8, 16)]
REGISTERS += [
    (f"r{n}", f"e{n}", n, f"{n.removesuffix('x')}l") for n in "ax bx cx dx si di bp sp".split()
]
# The register that each of these names is a part of, and the number of bytes.
SUBREGISTERS = {
    name: (names[0], size) for names in REGISTERS for name, size in zip(names, (8, 4, 2, 1))
}


def _parse_operand(text):
    """A general register, a vector, an immediate, or an address in memory."""
    if text in SUBREGISTERS:
        name, size = SUBREGISTERS[text]
        return Operand("general", size, name)
    if match := re.fullmatch(r"([abcd])h", text):
        return Operand("high byte", 1, f"r{match[1]}x")
    if match := re.fullmatch(r"([xy])mm(\d+)", text):
        return Operand("vector", SIZES[f"{match[1].upper()}MMWORD"], int(match[2]))
    if match := re.fullmatch(r"(?:(\w+) PTR )?\[(.*)\]", text):
        return _parse_address(match[2], SIZES.get(match[1]))
    return Operand("immediate", value=int(text, 16))


def _parse_address(text, size):
    """An address: a base and an index with its scale, which are terms, and a displacement."""
    terms = []
    offset = 0
    for sign, part in re.findall(r"([+-]?)([^+-]+)", text):
        name, _, scale = part.partition("*")
        _, register_size = SUBREGISTERS.get(name, (None, None))
        if name == "rip" or register_size == 8:
            terms.append((name, int(scale or 1)))
        else:
            offset += int(sign + part, 16)
    return Operand("memory", size, terms=terms, offset=offset)


def _parse_operands(text):
    """The operands of an instruction."""
    return [_parse_operand(part.strip()) for part in text.split(",") if part]


def _text_to_assemble(instruction):
    """A near jump has a displacement of 32 bits, also where one of 8 bits would do."""
    if not re.match("j|call$", instruction.mnemonic):
        return instruction.text
    prefix = "{disp32} " if instruction.size > 4 else ""
    return prefix + assembled.with_relative_target(instruction)


def _is_padding_nop(instruction, encoding, reassembled):
    """Whether it is one of the known multi-byte nops."""
    return instruction.mnemonic == "nop" and encoding.hex() in NOPS


def instructions(code, code_range, level):
    """The instructions of a range of code, its address and bytes, by their addresses. The assembler
    rejects an instruction that a CPU of the microarchitecture level may lack.
    """
    return assembled.disassemble_and_check(
        code_range,
        X86_64,
        _parse_operands,
        command=["as", "--64", "-msyntax=intel", "-mnaked-reg", f"-march={LEVELS.get(level, V2)}"],
        text_of=_text_to_assemble,
        is_equivalent=_is_padding_nop,
    )


class State(CommonState):
    """The registers of x86-64. A call leaves the return address on the stack."""

    SP = "rsp"
    # In bytes: of a function with all that it calls; of a callee with a contract, at the depth 0,
    # and more for each greater depth; and of a function with its dispatcher.
    STACK_SIZE = 1912
    CALLEE_STACK_SIZE = 72
    CALLER_STACK_SIZE = 128
    DISPATCHER_STACK_SIZE = 2040
    RETURN_ADDRESS_SIZE = 8  # on the stack
    VECTOR_COUNT, VECTOR_SIZE = 16, 32
    GENERAL_REGISTERS = [names[0] for names in REGISTERS]
    ARGUMENT_REGISTERS = "rdi", "rsi", "rdx", "rcx", "r8", "r9"
    RESULT_REGISTERS, BOOL_BITS = ("rax", "rdx"), 8
    CALLEE_SAVED = "rbx", "rbp", "r12", "r13", "r14", "r15"
    IS_TWO_ADDRESS = True  # whether the destination operand is also the first source

    def enter(self):
        """Sets what a call sets: the stack pointer, and the return address."""
        self.general["rsp"] = simplify(self.regions["stack"].base + self.STACK_SIZE)
        self.put_object_bytes("stack", self.STACK_SIZE, bytes_le(public("return", 64)))
        self.is_legacy_sse = False

    def return_address(self):
        """The address that a callee returns to, which it pops."""
        return pop_number(self)

    def prove_abi_at_return(self):
        require(
            self.sp_offset() == self.STACK_SIZE + self.RETURN_ADDRESS_SIZE,
            "the stack pointer is not preserved",
        )
        super().prove_abi_at_return()
        require(self.is_upper_half_clean, "vzeroupper is missing")

    # Operands
    def address_of(self, operand):
        if operand.terms == [("rip", 1)]:
            return simplify(self.code.runtime_address(self.next + operand.offset))
        return super().address_of(operand)

    def data(self, operand, size=None):
        """The lowest bytes of an operand, or all."""
        if operand.kind == "general":
            return bytes_le(z3.Extract(8 * operand.size - 1, 0, self.general[operand.name]))[:size]
        if operand.kind == "high byte":
            return [z3.Extract(15, 8, self.general[operand.name])]
        size = size or operand.size
        if operand.kind == "vector":
            return self.vectors[operand.name][:size]
        return self.load(self.address_of(operand), size, self.is_legacy_sse and size == 16)

    def number(self, operand, size=None):
        """The value of an operand; an immediate has `size` bytes."""
        if operand.kind == "immediate":
            return z3.BitVecVal(operand.value, 8 * size)
        if operand.kind == "general" and operand.size == 8:
            return self.general[operand.name]
        return concat_le(self.data(operand))

    def numbers(self, operands, size):
        """The values of source operands."""
        return [self.number(operand, size) for operand in operands]

    def put(self, operand, term):
        """Writes memory, or a general register: 32 bits are zero-extended, 8 and 16 leave the
        others as they are."""
        if operand.kind == "memory":
            return self.store(self.address_of(operand), bytes_le(term))
        require(operand.kind == "general", "an unsupported register")
        if operand.size == 4:
            term = z3.ZeroExt(32, term)
        elif operand.size < 8:
            term = z3.Concat(z3.Extract(63, 8 * operand.size, self.general[operand.name]), term)
        self.general[operand.name] = simplify(term)

    def put_vector(self, operand, data):
        """Writes a vector. A legacy SSE instruction preserves the bits above it, and a VEX-encoded
        one clears them."""
        if self.is_legacy_sse:
            above = self.vectors[operand.name][operand.size :]
        else:
            above = [bv8(0)] * (32 - operand.size)
        zeros = [bv8(0)] * (operand.size - len(data))
        self.vectors[operand.name] = [*data, *zeros, *above]
        self.is_upper_half_clean &= operand.size == 16


CONDITIONS = conditions(
    {
        "e": lambda flag: flag("zero"),
        "b": lambda flag: flag("carry"),
        "be": lambda flag: z3.Or(flag("carry"), flag("zero")),
        "s": lambda flag: flag("sign"),
    },
    {"ne": "e", "ae": "b", "a": "be", "ns": "s"},
)


# General instructions
def logic(function, writes_result=True):
    """A bitwise operation."""

    def flags(a, b):
        result = simplify(function(a, b))
        return {
            "sign": result < 0,
            "zero": result == 0,
            "carry": z3.BoolVal(False),
            "overflow": z3.BoolVal(False),
        }

    return general(function, flags, writes_result)


def increment_or_decrement(function, flags):
    """Adds or subtracts 1, and preserves the carry."""

    def handler(state, operand):
        number = state.number(operand)
        carry = (state.flags or {}).get("carry")
        one = z3.BitVecVal(1, number.size())
        state.flags = flags(number, one) | {"carry": carry}
        state.put(operand, function(number, one))

    return handler


def shift(function):
    """A shift by an immediate. What it does to the carry is left undefined."""

    def handler(state, dest, count):
        is_in_range = count.kind == "immediate" and 0 < count.value < 8 * dest.size
        require(is_in_range, "an unsupported shift")
        result = simplify(function(state.number(dest), count.value))
        state.put(dest, result)
        state.flags = {"sign": result < 0, "zero": result == 0, "carry": None, "overflow": None}

    return handler


def multiply(state, src):
    """The product of rax and a source, in rdx and rax."""
    require(src.size == 8, "an unsupported operand size")
    product = state.product(state.general["rax"], state.number(src))
    state.general["rax"] = simplify(z3.Extract(63, 0, product))
    state.general["rdx"] = simplify(z3.Extract(127, 64, product))
    state.flags = None


def move(extension):
    """Moves a source, zero- or sign-extended."""

    def handler(state, dest, src):
        number = state.number(src, dest.size)
        state.put(dest, simplify(extension(8 * dest.size - number.size(), number)))

    return handler


def lea(state, dest, src):
    """Load effective address."""
    state.put(dest, simplify(z3.Extract(8 * dest.size - 1, 0, state.address_of(src))))


def move_if(condition):
    """A conditional move."""

    def handler(state, dest, src):
        holds = condition_holds(state, condition)
        state.put(dest, state.if_then_else(holds, state.number(src), state.number(dest)))

    return handler


def push_bytes(state, data):
    """Pushes 8 bytes."""
    state.general["rsp"] = simplify(state.general["rsp"] - 8)
    state.store(state.general["rsp"], data)


def push(state, operand):
    """Pushes an operand of 64 bits."""
    require(operand.size == 8, "an unsupported operand size")
    push_bytes(state, state.data(operand))


def pop_number(state):
    """Pops a number of 64 bits."""
    data = state.load(state.general["rsp"], 8)
    state.general["rsp"] = simplify(state.general["rsp"] + 8)
    return concat_le(data)


def pop(state, operand):
    """Pops a register."""
    require(operand.kind == "general" and operand.size == 8, "an unsupported operand")
    state.general[operand.name] = pop_number(state)


def direct_target(operand):
    """The target of a direct jump or call."""
    require(operand.kind == "immediate", "an unknown jump target")
    return operand.value


def jump(state, target):
    """A jump, which is indirect if the target is in a register."""
    if target.kind == "general":
        return state.indirect_targets(state.number(target))
    return direct_target(target)


def call(state, target):
    """A direct call: it pushes the return address."""
    push_bytes(state, bytes_le(state.symbolic_return_address(state.next)))
    return direct_target(target)


def ret(state, *operands):
    """A return: it pops the return address."""
    require(not operands, "a return that takes arguments")
    return pop_number(state)


# CPU identification
def reported(instruction, leaf, register):
    """The constant that stands for what the CPU reports in a register."""
    return public(f"{instruction}_{leaf:x}_{register}", 32)


def cpuid(state):
    """Constants, which depend on the leaf alone, except for ebx of leaf 1: it has the APIC ID of
    the processor that runs. Of the supported leaves only 7 has subleaves."""
    leaf, subleaf = [simplify(z3.Extract(31, 0, state.general[name])) for name in ("rax", "rcx")]
    is_known = z3.is_bv_value(leaf) and leaf.as_long() in (0, 1, 7, 0x80000000, 0x80000001)
    require(
        is_known and (leaf.as_long() != 7 or subleaf.eq(z3.BitVecVal(0, 32))),
        "an unsupported leaf or subleaf of cpuid",
    )
    for name in ("rax", "rbx", "rcx", "rdx"):
        is_apic_id = (leaf.as_long(), name) == (1, "rbx")
        value = fresh_public(32) if is_apic_id else reported("cpuid", leaf.as_long(), name)
        state.general[name] = simplify(z3.ZeroExt(32, value))


def xgetbv(state):
    """The constant that stands for XCR0. The instruction faults (#UD) unless the CPU reports
    OSXSAVE, bit 27 of leaf 1."""
    xcr = simplify(z3.Extract(31, 0, state.general["rcx"]))
    require(xcr.eq(z3.BitVecVal(0, 32)), "xgetbv reads a register other than XCR0")
    state.prove(reported("cpuid", 1, "rcx") & 1 << 27 != 0, "xgetbv on a CPU that may not have it")
    for name in ("rax", "rdx"):
        state.general[name] = simplify(z3.ZeroExt(32, reported("xgetbv", 0, name)))


HANDLERS = {
    "add": general(add, sum_flags),
    "sub": general(sub, difference_flags),
    "and": logic(and_),
    "or": logic(or_),
    "xor": logic(xor),
    "not": general(invert),
    "cmp": general(sub, difference_flags, writes_result=False),
    "test": logic(and_, writes_result=False),
    "inc": increment_or_decrement(add, sum_flags),
    "dec": increment_or_decrement(sub, difference_flags),
    "mul": multiply,
    **dict.fromkeys(("mov", "movabs", "movzx"), move(z3.ZeroExt)),
    "movsxd": move(z3.SignExt),
    "lea": lea,
    "shl": shift(SHIFT_LEFT),
    "shr": shift(z3.LShR),
    "push": push,
    "pop": pop,
    "nop": lambda state, *operands: None,
    "jmp": jump,
    "call": call,
    "ret": ret,
    "cpuid": cpuid,
    "xgetbv": xgetbv,
    **{f"j{name}": jump_if(condition) for name, condition in CONDITIONS.items()},
    **{f"set{name}": set_if(condition) for name, condition in CONDITIONS.items()},
    **{f"cmov{name}": move_if(condition) for name, condition in CONDITIONS.items()},
    **VECTOR_HANDLERS,
}
