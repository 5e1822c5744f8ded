"""Bit-vector terms, and the bytes that they consist of, in little-endian order.

If `concat_le` or `bytes_le` were wrong, the proof could be about another byte than the one that a
program writes.
"""

import functools
import itertools

import z3

from solver.queries import public, secret

simplify = z3.simplify
_numbers = itertools.count()


def bv8(value):
    """A constant of 8 bits."""
    return z3.BitVecVal(value, 8)


def bv64(value):
    """A constant of 64 bits."""
    return z3.BitVecVal(value, 64)


def fresh_public(bits):
    """An unknown number on which branches and addresses may depend."""
    return public(f"public_{next(_numbers)}", bits)


def fresh_secret(bits):
    """An unknown number on which no branch and no address may depend."""
    return secret(f"secret_{next(_numbers)}", bits)


# The terms that `bytes_le` has split, by the ids of their bytes in z3.
_terms_by_bytes = {}


def concat_le(data):
    """The number that bytes make; the first is the least significant."""
    if entry := _terms_by_bytes.get(tuple(part.get_id() for part in data)):
        term, _ = entry
        return term
    return simplify(z3.Concat(*reversed(data))) if len(data) > 1 else data[0]


def bytes_le(term):
    """The bytes of a number. A number of 32 or 64 bits, and the lower half of one of 64, are
    remembered for `concat_le`, since z3 does not simplify the bytes of a sum to the sum again."""
    data = [simplify(z3.Extract(bit + 7, bit, term)) for bit in range(0, term.size(), 8)]
    for size in (4, 8):
        if len(data) in (size, 8):
            key = tuple(part.get_id() for part in data[:size])
            lower_part = simplify(z3.Extract(8 * size - 1, 0, term))
            # With the bytes, so that z3 does not reuse their ids.
            _terms_by_bytes[key] = lower_part, data
    return data


def table_entry(table, index):
    """The entry that the lowest bits of an index select, of a table whose length is a power of two
    up to 256: a tree of conditional terms."""
    for bit in range(len(table).bit_length() - 1):
        is_set = z3.Extract(bit, bit, index) == 1
        table = [
            even if even.eq(odd) else z3.If(is_set, odd, even)
            for even, odd in zip(table[::2], table[1::2])
        ]
    return table[0]


@functools.cache
def constant_table_entry(table, index):
    """The same for a table of bytes that are known. Many paths look the same entry up, so it is
    remembered: terms are the same key only if they have the same structure."""
    return simplify(table_entry([bv8(number) for number in table], index))
