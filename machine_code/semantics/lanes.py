"""The semantics that instructions of several processors share. A vector is a list of its bytes in
little-endian order. test_semantics.py compares each instruction with the processor."""

from dataclasses import dataclass

import z3

from execution.paths import Branch
from execution.terms import bv8, bytes_le, concat_le, simplify, table_entry
from solver.queries import require


@dataclass
class Operand:
    """A register, an immediate, an address in memory, or what else an instruction names."""

    kind: str
    size: int = None  # in bytes
    name: object = None  # of a general register, or the number of a vector
    value: int = None  # of an immediate
    terms: tuple = ()  # of an address: registers with their scales
    offset: int = 0  # of an address, or of an element in its vector
    # AArch64 alone: the bytes of a vector's lane, whether the base register gets the address
    # (pre-indexed), and what is added to the base register afterwards (post-indexed).
    lane_size: int = None
    writeback: bool = False
    post_index: object = None


def lanes(data, size):
    """The lanes of a vector, as numbers of `size` bytes."""
    return [concat_le(data[first : first + size]) for first in range(0, len(data), size)]


def bytes_of(numbers):
    """The vector of some lanes."""
    return [part for number in numbers for part in bytes_le(simplify(number))]


def map_lanes(function, size, *vectors):
    """Applies a function to each lane, of `size` bytes, of some vectors."""
    return bytes_of(map(function, *[lanes(vector, size) for vector in vectors]))


def zero_extended(data):
    """Each byte zero-extended to 16 bits."""
    return [part for value in data for part in (value, bv8(0))]


def table_lookup(table, indices):
    """The entries of a table of 16 bytes, and 0 for an index out of range."""
    return [simplify(z3.If(z3.ULT(i, 16), table_entry(table, i), bv8(0))) for i in indices]


def saturate_to_bytes(numbers):
    """Signed numbers as unsigned bytes, by unsigned saturation."""

    def clamped(number):
        at_most = z3.If(number > 255, 255, number)
        return z3.If(number < 0, 0, at_most)

    return [simplify(z3.Extract(7, 0, clamped(number))) for number in numbers]


# Functions of two numbers of the same size; for unsigned numbers.
MINIMUM = lambda a, b: z3.If(z3.ULT(a, b), a, b)
MAXIMUM = lambda a, b: z3.If(z3.ULT(a, b), b, a)
SUBTRACT_SATURATED = lambda a, b: z3.If(z3.ULT(a, b), z3.BitVecVal(0, a.size()), a - b)
# Of a number and a constant.
SHIFT_LEFT = lambda a, count: a * (1 << count)


def sum_flags(a, b):
    """The flags that an addition sets."""
    return {
        "sign": a + b < 0,
        "zero": a + b == 0,
        "carry": z3.ULT(a + b, a),
        "overflow": (a ^ a + b) & (b ^ a + b) < 0,
    }


def difference_flags(a, b):
    """The flags that a subtraction sets; the carry is a borrow, as on x86-64."""
    return {
        "sign": a - b < 0,
        "zero": a == b,
        "carry": z3.ULT(a, b),
        "overflow": (a ^ b) & (a ^ a - b) < 0,
    }


def conditions(known, opposites):
    """Condition codes by their names, each a function of a lookup of flags, with the opposites."""

    def negated(condition):
        return lambda flag: z3.Not(condition(flag))

    return known | {name: negated(known[other]) for name, other in opposites.items()}


def condition_holds(state, condition):
    """Whether a condition code holds in a state."""

    def flag(name):
        require(state.flags and state.flags[name] is not None, "a flag is undefined")
        return state.flags[name]

    return simplify(condition(flag))


# Handlers of instructions: functions of a state and the operands.
def general(function, flags=None, writes_result=True):
    """A general instruction: a function of the source operands, and the flags, if it sets some."""

    def handler(state, *operands):
        first_source = int(writes_result and not state.IS_TWO_ADDRESS)
        sources = state.numbers(operands[first_source:], operands[0].size)
        state.flags = flags(*sources) if flags else state.flags
        if writes_result:
            state.put(operands[0], simplify(function(*sources)))

    return handler


def set_if(condition):
    """Writes 1 if a condition code holds, else 0."""

    def handler(state, dest):
        one = z3.BitVecVal(1, 8 * dest.size)
        zero = z3.BitVecVal(0, 8 * dest.size)
        state.put(dest, state.if_then_else(condition_holds(state, condition), one, zero))

    return handler


def jump_if(condition):
    """A conditional jump."""
    return lambda state, target: Branch(condition_holds(state, condition), target.value)
