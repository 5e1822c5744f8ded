"""AArch64: the syntax of operands in `objdump`, the semantics of each instruction, and the procedure
call standard (AAPCS64).

If the semantics were wrong, code would be proved that does something else. test_semantics.py
compares each form that occurs with QEMU. An instruction is rejected unless the assembler, which is
told ARMv8.0, encodes its text as the same bytes.
"""

import itertools
import re
from operator import add, and_, invert, lshift, mul, neg, or_, sub, xor

import z3

from execution.paths import Branch
from execution.state import State as CommonState
from execution.terms import bv64, bv8, bytes_le, concat_le, simplify
from reading import assembled
from reading.image import AARCH64
from semantics.lanes import (
    MINIMUM,
    SHIFT_LEFT,
    SUBTRACT_SATURATED,
    Operand,
    bytes_of,
    condition_holds,
    conditions,
    difference_flags,
    general,
    jump_if,
    lanes,
    map_lanes,
    set_if,
    sum_flags,
    table_lookup,
)
from solver.queries import public, require

# One operand: an address, registers in braces, or anything else without a comma.
OPERAND = re.compile(r"\[[^]]*\]!?|\{[^}]*\}(?:\[\d+\])?|[^,\s][^,]*")
# The bytes of a lane, or of a scalar vector register, by its letter.
SIZES = {"b": 1, "h": 2, "s": 4, "d": 8, "q": 16}
ADRP_IMMEDIATE = 0x60FFFFE0  # the bits of immlo and immhi
# The number of a general register, but not of x18, the platform register.
REGISTER_NUMBER = r"(?!18\b)\d+"


def _parse_operand(text):
    """A general register, a vector with its arrangement of lanes, an element of a vector, an
    address, a shift or extension of the operand before it, a condition code, or an immediate."""
    if match := re.fullmatch(rf"([xw])({REGISTER_NUMBER}|zr)|(w?sp)", text):
        name = "sp" if match[3] else f"x{match[2]}"
        return Operand("general", 4 if text[0] == "w" else 8, name)
    if match := re.fullmatch(r"([bhsdq])(\d+)", text):
        return Operand("vector", SIZES[match[1]], int(match[2]))
    if match := re.fullmatch(r"\{?v(\d+)\.(\d+)([bhsd])\}?", text):
        lane_size = SIZES[match[3]]
        return Operand("vector", int(match[2]) * lane_size, int(match[1]), lane_size=lane_size)
    if match := re.fullmatch(r"\{?v(\d+)\.([bhsd])\}?\[(\d+)\]", text):
        size = SIZES[match[2]]
        return Operand("element", size, int(match[1]), offset=int(match[3]) * size)
    register = f"x{REGISTER_NUMBER}"
    if match := re.fullmatch(rf"\[({register}|sp)(?:, (?:#(-?\d+)|({register})))?\](!?)", text):
        terms = [(name, 1) for name in (match[1], match[3]) if name]
        return Operand("memory", terms=terms, offset=int(match[2] or 0), writeback=bool(match[4]))
    if match := re.fullmatch(r"(lsl|lsr) #(\d+)|(uxtw)", text):
        return Operand("shift", name=match[1] or match[3], value=int(match[2] or 0))
    if text in CONDITIONS:
        return Operand("condition", value=CONDITIONS[text])
    number = text.removeprefix("#")
    return Operand("immediate", value=int(number, 16 if number == text else 0))


def _parse_operands(text):
    """The operands of an instruction. The operand after an address is its post-index."""
    # A list of two registers in braces makes two operands.
    text = re.sub(r"^{(.*?), (.*?)}", r"{\1}, {\2}", text)
    operands = [_parse_operand(part.strip()) for part in OPERAND.findall(text)]
    if len(operands) > 1 and operands[-2].kind == "memory":
        *operands, post_index = operands
        operands[-1].post_index = post_index
    return operands


def _is_adrp_of_target(instruction, encoding, reassembled):
    """Whether an `adrp` encodes the page of its text. The assembler leaves it to a relocation."""
    if instruction.mnemonic != "adrp":
        return False
    code, without_page = [int.from_bytes(part[:4], "little") for part in (encoding, reassembled)]
    immlo = code >> 29 & 3
    immhi = code >> 5 & 0x7FFFF
    pages = immhi << 2 | immlo
    signed_pages = pages - (pages >> 20 << 21)  # sign-extended from 21 bits
    target = (instruction.address >> 12) + signed_pages << 12
    is_same = (code ^ without_page) & ~ADRP_IMMEDIATE == 0
    return is_same and instruction.operands[1].value == target


def instructions(code, code_range, level):
    """The instructions of a range of code, its address and bytes, by their addresses."""
    return assembled.disassemble_and_check(
        code_range,
        AARCH64,
        _parse_operands,
        command=["aarch64-linux-gnu-as", "-march=armv8-a"],
        text_of=assembled.with_relative_target,
        is_equivalent=_is_adrp_of_target,
    )


class State(CommonState):
    """The registers of AArch64. A call leaves the return address in x30."""

    SP = "sp"
    # In bytes: of a function with all that it calls; of a callee with a contract, at the depth 0,
    # and more for each greater depth; and of a function with its dispatcher.
    STACK_SIZE = 2000
    CALLEE_STACK_SIZE = 64
    CALLER_STACK_SIZE = 128
    DISPATCHER_STACK_SIZE = 2032
    RETURN_ADDRESS_SIZE = 0  # on the stack
    VECTOR_COUNT, VECTOR_SIZE = 32, 16
    GENERAL_REGISTERS = *(f"x{number}" for number in range(31)), "sp"
    ARGUMENT_REGISTERS = tuple(f"x{number}" for number in range(8))
    RESULT_REGISTERS, BOOL_BITS = ("x0", "x1"), 32
    CALLEE_SAVED = "sp", *(f"x{number}" for number in range(19, 30))
    CALLEE_SAVED_VECTORS = dict.fromkeys(range(8, 16), 8)  # d8 to d15
    IS_TWO_ADDRESS = False  # whether the destination operand is also the first source

    def enter(self):
        """Sets the registers that a call sets."""
        self.general["sp"] = simplify(self.regions["stack"].base + self.STACK_SIZE)
        self.general["x30"] = public("return", 64)

    def return_address(self):
        """The address that a callee returns to."""
        return self.general["x30"]

    # Operands
    def number(self, operand, size=None):
        """The value of a general register, or of an immediate of `size` bytes."""
        if operand.kind == "immediate":
            return z3.BitVecVal(operand.value, 8 * size)
        require(operand.kind == "general", "a general register is needed")
        whole = bv64(0) if operand.name == "xzr" else self.general[operand.name]
        return whole if operand.size == 8 else simplify(z3.Extract(31, 0, whole))

    def numbers(self, operands, size):
        """The values of source operands. The last one may be shifted, or extended from 32 bits."""
        if operands[-1].kind != "shift":
            return [self.number(operand, size) for operand in operands]
        *operands, last, modifier = operands
        if size == 8 and last.size == 4 and modifier.name == "uxtw":
            number = z3.ZeroExt(32, self.number(last))
        else:
            require(modifier.name in SHIFTS, "an unsupported shift")
            number = SHIFTS[modifier.name](self.number(last, size), modifier.value)
        return [*self.numbers(operands, size), simplify(number)]

    def data(self, operand):
        """The bytes of any register."""
        if operand.kind == "general":
            return bytes_le(self.number(operand))
        return self.vectors[operand.name][operand.offset :][: operand.size]

    def put(self, operand, term):
        """Writes a general register; 32 bits are zero-extended."""
        if operand.name != "xzr":
            self.general[operand.name] = simplify(
                z3.ZeroExt(32, term) if operand.size == 4 else term
            )

    def put_data(self, operand, data):
        """Writes any register. A vector is zero-extended; an element leaves the others as they
        are."""
        if operand.kind == "general":
            return self.put(operand, concat_le(data))
        if operand.kind == "element":
            old = self.vectors[operand.name]
            data = old[: operand.offset] + data + old[operand.offset + operand.size :]
        self.vectors[operand.name] = data + [bv8(0)] * (16 - len(data))


SHIFTS = {"lsl": SHIFT_LEFT, "lsr": z3.LShR}
CONDITIONS = conditions(
    {
        "eq": lambda flag: flag("zero"),
        "cs": lambda flag: flag("carry"),
        "hi": lambda flag: z3.And(flag("carry"), z3.Not(flag("zero"))),
        "gt": lambda flag: z3.And(z3.Not(flag("zero")), flag("sign") == flag("overflow")),
    },
    {"ne": "eq", "cc": "cs", "ls": "hi", "le": "gt"},
)


def subs_flags(a, b):
    """The flags that a subtraction sets: the carry is the opposite of a borrow."""
    return difference_flags(a, b) | {"carry": z3.UGE(a, b)}


def ands_flags(a, b):
    """The flags that a bitwise AND sets."""
    result = a & b
    return {
        "sign": result < 0,
        "zero": result == 0,
        "carry": z3.BoolVal(False),
        "overflow": z3.BoolVal(False),
    }


# General instructions
def umulh(state, dest, src1, src2):
    """The upper half of a product."""
    product = state.product(state.number(src1), state.number(src2))
    state.put(dest, simplify(z3.Extract(127, 64, product)))


def movk(state, dest, number, *shift):
    """Writes 16 bits, and keeps the others."""
    bit = shift[0].value if shift else 0
    state.put(dest, simplify(state.number(dest) & ~(0xFFFF << bit) | number.value << bit))


def bfxil(state, dest, src, low, count):
    """Bit field extract and insert: the lowest bits of a register become bits of another one."""
    require(count.value < 8 * dest.size, "an unsupported bit field")
    rest = z3.Extract(8 * dest.size - 1, count.value, state.number(dest))
    new = z3.Extract(low.value + count.value - 1, low.value, state.number(src, dest.size))
    state.put(dest, simplify(z3.Concat(rest, new)))


def shift(function):
    """A shift of a general register by an immediate."""

    def handler(state, dest, src, count):
        require(count.kind == "immediate", "an unsupported shift")
        state.put(dest, simplify(function(state.number(src, dest.size), count.value)))

    return handler


def select(function):
    """Conditional select: the first source, or a function of the second one."""

    def handler(state, dest, src1, src2, condition):
        holds = condition_holds(state, condition.value)
        then_term = state.number(src1, dest.size)
        else_term = simplify(function(state.number(src2, dest.size)))
        state.put(dest, state.if_then_else(holds, then_term, else_term, is_queried=True))

    return handler


# Vectors
def require_vectors(*vectors):
    """Rejects operands without lanes."""
    require(all(operand.lane_size for operand in vectors), "vectors are needed")


def by_lanes(function):
    """Applies a function to each lane of two vectors."""

    def handler(state, dest, src1, src2):
        require_vectors(dest, src1, src2)
        state.put_data(
            dest, map_lanes(function, dest.lane_size, state.data(src1), state.data(src2))
        )

    return handler


def general_or_by_lanes(function):
    """An instruction with a form for general registers and one for vectors."""

    def handler(state, dest, *sources):
        of_kind = general if dest.kind == "general" else by_lanes
        of_kind(function)(state, dest, *sources)

    return handler


def shift_lanes(function):
    """Shifts each lane by an immediate."""

    def handler(state, dest, src, count):
        require_vectors(dest, src)
        shifted = lambda lane: function(lane, count.value)
        state.put_data(dest, map_lanes(shifted, dest.lane_size, state.data(src)))

    return handler


def sli(state, dest, src, count):
    """Shift left and insert: the lowest bits of each lane are preserved."""
    require_vectors(dest, src)
    inserted = lambda a, old: a << count.value | old & (1 << count.value) - 1
    state.put_data(dest, map_lanes(inserted, dest.lane_size, state.data(src), state.data(dest)))


def movi(state, dest, immediate):
    """The immediate in each lane."""
    require(dest.lane_size, "a vector is needed")
    lane = bytes_le(z3.BitVecVal(immediate.value, 8 * dest.lane_size))
    state.put_data(dest, lane * (dest.size // dest.lane_size))


def move(state, dest, src):
    """Moves an immediate or a register of any kind, zero-extended."""
    if src.kind == "immediate" or src.kind == dest.kind == "general":
        return state.put(dest, state.number(src, dest.size))
    # Into an element go the lowest bytes of a register; from an element, a register that may be
    # wider is written.
    state.put_data(dest, state.data(src)[: dest.size] + [bv8(0)] * (dest.size - src.size))


def dup(state, dest, src):
    """The source in each lane."""
    state.put_data(dest, state.data(src)[: dest.lane_size] * (dest.size // dest.lane_size))


def xtn(state, dest, src):
    """Extract narrow: the lower half of each lane."""
    lower = lambda a: z3.Extract(8 * dest.lane_size - 1, 0, a)
    state.put_data(dest, map_lanes(lower, src.lane_size, state.data(src)))


def uxtl(state, dest, src):
    """Zero-extends each lane."""
    wide = lambda a: z3.ZeroExt(8 * (dest.lane_size - src.lane_size), a)
    state.put_data(dest, map_lanes(wide, src.lane_size, state.data(src)))


def unzip(first):
    """The even lanes (first = 0) or the odd ones (first = 1) of two vectors."""

    def handler(state, dest, src1, src2):
        require_vectors(dest, src1, src2)
        numbers = lanes(state.data(src1) + state.data(src2), dest.lane_size)
        state.put_data(dest, bytes_of(numbers[first::2]))

    return handler


def ext(state, dest, src1, src2, index):
    """Bytes of the concatenation of two vectors, from an index on."""
    require_vectors(dest, src1, src2)
    state.put_data(dest, (state.data(src1) + state.data(src2))[index.value :][: dest.size])


def tbl(state, dest, table, indices):
    """Table lookup, in one vector."""
    state.put_data(dest, table_lookup(state.data(table), state.data(indices)))


def adr(state, dest, target):
    """The address of a label, or of its page."""
    state.put(dest, state.code.runtime_address(target.value))


# Branches
def branch_and_link(state, target):
    """A call: the return address goes to x30."""
    state.general["x30"] = state.symbolic_return_address(state.next)
    return target.value


def ret(state, *operands):
    """A return to the address in x30."""
    require(not operands, "a return by another register")
    return state.general["x30"]


def compare_and_branch(is_zero):
    """A branch if a register is zero, or if it is not."""

    def handler(state, src, target):
        value = state.number(src)
        return Branch(simplify(value == 0 if is_zero else value != 0), target.value)

    return handler


def test_bit_and_branch(is_set):
    """A branch if a bit of a register is set, or if it is clear."""

    def handler(state, src, bit, target):
        value = z3.Extract(bit.value, bit.value, state.number(src))
        return Branch(simplify(value == is_set), target.value)

    return handler


# Loads and stores
def address_and_base(state, operand):
    """The address of a load or store, and the value of its base register afterwards."""
    require(operand.kind == "memory", "an unsupported addressing mode")
    name = operand.terms[0][0]
    if name == "sp":
        state.prove(state.general["sp"] & 15 == 0, "the stack pointer is not aligned")
    address, base = state.address_of(operand), state.general[name]
    if operand.post_index:
        base = simplify(base + state.number(operand.post_index, 8))
    elif operand.writeback:
        base = address
    return address, {name: base}


def load(size=None):
    """Loads `size` bytes into each register, or as many as it has."""

    def handler(state, *operands):
        *registers, memory = operands
        address, base = address_and_base(state, memory)
        count = size or registers[0].size
        data = state.load(address, count * len(registers))
        state.general |= base
        for number, register in enumerate(registers):
            part = data[count * number :][:count]
            state.put_data(register, part + [bv8(0)] * (register.size - count))

    return handler


def store_data(state, memory, data):
    """Stores bytes. The base register is written first: if it is the stack pointer, the bytes must
    not lie below it."""
    address, base = address_and_base(state, memory)
    state.general |= base
    state.store(address, data)


def store(size=None):
    """Stores the lowest `size` bytes of each register, or all."""

    def handler(state, *operands):
        *registers, memory = operands
        data = []
        for register in registers:
            data += state.data(register)[:size]
        store_data(state, memory, data)

    return handler


def st2(state, src1, src2, memory):
    """Stores two vectors with interleaved lanes."""
    require_vectors(src1, src2)
    pairs = zip(lanes(state.data(src1), src1.lane_size), lanes(state.data(src2), src2.lane_size))
    store_data(state, memory, bytes_of(itertools.chain(*pairs)))


HANDLERS = {
    "add": general_or_by_lanes(add),
    "adds": general(add, sum_flags),
    "cmn": general(add, sum_flags, writes_result=False),
    "tst": general(and_, ands_flags, writes_result=False),
    "sub": general_or_by_lanes(sub),
    "subs": general(sub, subs_flags),
    "cmp": general(sub, subs_flags, writes_result=False),
    "and": general_or_by_lanes(and_),
    "orr": general_or_by_lanes(or_),
    "eor": general(xor),
    "neg": general(neg),
    "mvn": general(invert),
    "msub": general(lambda a, b, c: c - a * b),
    "umulh": umulh,
    "movk": movk,
    "bfxil": bfxil,
    "lsl": shift(SHIFT_LEFT),
    "lsr": shift(z3.LShR),
    **dict.fromkeys(("adr", "adrp"), adr),
    "nop": lambda state: None,
    "cset": lambda state, dest, condition: set_if(condition.value)(state, dest),
    "csel": select(lambda b: b),
    "csinv": select(invert),
    "b": lambda state, target: target.value,
    "bl": branch_and_link,
    "ret": ret,
    "cbz": compare_and_branch(True),
    "cbnz": compare_and_branch(False),
    "tbz": test_bit_and_branch(0),
    "tbnz": test_bit_and_branch(1),
    "mul": by_lanes(mul),
    "umin": by_lanes(MINIMUM),
    "uqsub": by_lanes(SUBTRACT_SATURATED),
    "ushr": shift_lanes(z3.LShR),
    "shl": shift_lanes(lshift),
    "sli": sli,
    "movi": movi,
    "mov": move,
    "fmov": move,
    "dup": dup,
    "xtn": xtn,
    "uxtl": uxtl,
    "ext": ext,
    "tbl": tbl,
    "uzp1": unzip(0),
    "uzp2": unzip(1),
    **dict.fromkeys(("ldr", "ldur", "ldp", "ld1"), load()),
    **dict.fromkeys(("ldrb", "ldurb"), load(1)),
    "ldrh": load(2),
    **dict.fromkeys(("str", "stur", "stp", "st1"), store()),
    **dict.fromkeys(("strb", "sturb"), store(1)),
    "strh": store(2),
    "st2": st2,
    **{f"b.{name}": jump_if(condition) for name, condition in CONDITIONS.items()},
}
