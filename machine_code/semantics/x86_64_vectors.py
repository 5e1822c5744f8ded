"""The semantics of the SSE and AVX instructions of x86-64; x86_64.py has the others."""

from operator import add, lshift, or_, sub, xor

import z3

from execution.terms import bv8, concat_le, simplify, table_entry
from semantics.lanes import (
    MINIMUM,
    SUBTRACT_SATURATED,
    lanes,
    map_lanes,
    saturate_to_bytes,
    zero_extended,
)
from solver.queries import require


def legacy_or_vex(handler):
    """An instruction with two sources. The legacy form has two operands, and its destination is
    also the first source; the VEX-encoded form has three."""

    def wrapped(state, dest, *sources):
        first_source = [dest] if len(sources) == 1 else []
        handler(state, dest, *first_source, *sources)

    return wrapped


def by_lanes(size, function):
    """Applies a function to each lane, of `size` bytes, of two sources."""

    @legacy_or_vex
    def handler(state, dest, src1, src2):
        state.put_vector(dest, map_lanes(function, size, state.data(src1), state.data(src2)))

    return handler


def per_128_bit_lane(function):
    """Applies a function to each 128-bit lane of two sources."""

    @legacy_or_vex
    def handler(state, dest, src1, src2):
        src1_bytes = state.data(src1)
        src2_bytes = state.data(src2)
        data = []
        for start in range(0, dest.size, 16):
            data += function(src1_bytes[start:][:16], src2_bytes[start:][:16])
        state.put_vector(dest, data)

    return handler


def shift_lanes(size, function):
    """Shifts each lane, of `size` bytes, by an immediate."""

    @legacy_or_vex
    def handler(state, dest, src, count):
        is_in_range = count.kind == "immediate" and count.value < 8 * size
        require(is_in_range, "an unsupported shift")
        shifted = lambda lane: function(lane, count.value)
        state.put_vector(dest, map_lanes(shifted, size, state.data(src)))

    return handler


def pshufb(table, indices):
    """The table's entries at the lowest four bits of each index, or 0 if its highest bit is set."""
    data = []
    for index in indices:
        is_zero = z3.Extract(7, 7, index) == 1
        data.append(simplify(z3.If(is_zero, bv8(0), table_entry(table, index))))
    return data


def move_vector(is_aligned):
    """A move between vectors and memory, which may have to be aligned."""

    def handler(state, dest, src):
        if dest.kind == "memory":
            return state.store(state.address_of(dest), state.data(src), is_aligned)
        if src.kind == "memory":
            return state.put_vector(dest, state.load(state.address_of(src), src.size, is_aligned))
        state.put_vector(dest, state.data(src))

    return handler


def put_low_bytes(state, dest, data):
    """Writes bytes, zero-extended, to a vector or to another operand."""
    if dest.kind == "vector":
        return state.put_vector(dest, data)
    state.put(dest, concat_le(data + [bv8(0)] * (dest.size - len(data))))


def move_low_bytes(size):
    """A move of the lowest `size` bytes, zero-extended."""
    return lambda state, dest, src: put_low_bytes(state, dest, state.data(src, size))


def insert(size):
    """Inserts `size` bytes into a vector, at an index."""

    def handler(state, dest, *sources):
        # The legacy form inserts into its destination, the VEX-encoded form into a source.
        *first_source, src, index = sources
        require(index.value < dest.size // size, "an unsupported index")
        data = state.data(first_source[0] if first_source else dest)
        start = index.value * size
        state.put_vector(dest, data[:start] + state.data(src, size) + data[start + size :])

    return handler


def extract(size):
    """Extracts `size` bytes from a vector, at an index."""

    def handler(state, dest, src, index):
        data = state.data(src)
        require(index.value < len(data) // size, "an unsupported index")
        put_low_bytes(state, dest, data[index.value * size :][:size])

    return handler


def broadcast(size):
    """Repeats the lowest bytes of a source."""

    def handler(state, dest, src):
        state.put_vector(dest, state.data(src, size) * (dest.size // size))

    return handler


def _are_zero(data):
    return z3.And(*[simplify(value) == 0 for value in data])


def ptest(state, src1, src2):
    """The zero flag for the AND of two vectors, and the carry for the AND with the
    first one negated."""
    pairs = list(zip(state.data(src1), state.data(src2)))
    state.flags = {
        "zero": _are_zero([a & b for a, b in pairs]),
        "carry": _are_zero([~a & b for a, b in pairs]),
        "sign": z3.BoolVal(False),
        "overflow": z3.BoolVal(False),
    }


def pmovzxbw(state, dest, src):
    """Zero-extends bytes to words."""
    state.put_vector(dest, zero_extended(state.data(src, dest.size // 2)))


def vpermq(state, dest, src, control):
    """Permutes four quadwords by an immediate."""
    data = state.data(src)
    quadwords = [data[8 * (control.value >> bit & 3) :][:8] for bit in range(0, 8, 2)]
    state.put_vector(dest, sum(quadwords, []))


def vzeroupper(state):
    """Clears the upper halves of all vectors."""
    state.vectors = {name: data[:16] + [bv8(0)] * 16 for name, data in state.vectors.items()}
    state.is_upper_half_clean = True


SSE_HANDLERS = {
    "paddb": by_lanes(1, add),
    "paddw": by_lanes(2, add),
    "psubb": by_lanes(1, sub),
    "psubusb": by_lanes(1, SUBTRACT_SATURATED),
    "pminub": by_lanes(1, MINIMUM),
    "por": by_lanes(1, or_),
    "pxor": by_lanes(1, xor),
    "psllw": shift_lanes(2, lshift),
    "psrlw": shift_lanes(2, z3.LShR),
    "punpckldq": per_128_bit_lane(lambda a, b: a[:4] + b[:4] + a[4:8] + b[4:8]),
    "punpcklqdq": per_128_bit_lane(lambda a, b: a[:8] + b[:8]),
    "pshufb": per_128_bit_lane(pshufb),
    "packuswb": per_128_bit_lane(lambda a, b: saturate_to_bytes(lanes(a + b, 2))),
    "movdqu": move_vector(False),
    "movdqa": move_vector(True),
    "movups": move_vector(False),
    "movaps": move_vector(True),
    "xorps": by_lanes(1, xor),
    "movd": move_low_bytes(4),
    "movq": move_low_bytes(8),
    "pinsrw": insert(2),
    "pinsrd": insert(4),
    "pextrw": extract(2),
    "pextrd": extract(4),
    "pextrq": extract(8),
    "ptest": ptest,
    "pmovzxbw": pmovzxbw,
}


def legacy_sse(handler):
    """The legacy SSE form: a memory operand of 16 bytes has to be aligned, and the bits above 128 of
    the destination are preserved."""

    def legacy(state, *operands):
        state.is_legacy_sse = True
        handler(state, *operands)
        state.is_legacy_sse = False

    return legacy


VECTOR_HANDLERS = {
    **{name: legacy_sse(handler) for name, handler in SSE_HANDLERS.items()},
    **{f"v{name}": handler for name, handler in SSE_HANDLERS.items()},
    "vpbroadcastd": broadcast(4),
    "vpbroadcastq": broadcast(8),
    "vbroadcasti128": broadcast(16),
    "vpermq": vpermq,
    "vinserti128": insert(16),
    "vextracti128": extract(16),
    "vzeroupper": vzeroupper,
}
