"""The quotient by ten, which compilers compute by a multiplication with a constant: the upper 64
bits of the product, shifted right by three.

No solver proves that for bit-vectors in reasonable time. So it is a lemma over the integers, which
both solvers prove in each run that uses it. If it were wrong, or if the facts about a quotient did
not follow from it, a wrong digit could be accepted.
"""

import functools
from collections import namedtuple

import z3

from solver import cvc5, queries
from solver.queries import require

FACTOR = 0xCCCCCCCCCCCCCCCD


# A number, its quotient by ten, the three bits that are shifted out, and the quotient's maximum.
Quotient = namedtuple("Quotient", "number quotient low_bits maximum")
# By the number's id in z3, which z3 does not reuse as long as the number is kept.
_quotients = {}


def negated_lemma(factor=FACTOR):
    """The negated lemma, which is unsatisfiable: the upper half of x * factor, shifted right by
    three, is the quotient of x by ten."""
    x, lower_half = z3.Ints("x lower_half")
    quotient, low_bits = z3.Ints("quotient low_bits")
    ranges = (x, 1 << 64), (lower_half, 1 << 64), (low_bits, 8)
    return [
        *[z3.And(0 <= number, number < limit) for number, limit in ranges],
        x * factor == (8 * quotient + low_bits) * (1 << 64) + lower_half,
        z3.Not(z3.And(10 * quotient <= x, x < 10 * quotient + 10)),
    ]


@functools.cache
def prove():
    """Proves the lemma with both solvers."""
    conditions = negated_lemma()
    require(queries.is_unsatisfiable_in_integers(conditions), "the quotient by ten is not proved")
    require(
        not cvc5.disagreements([("QF_LIA", conditions)]), "cvc5 does not prove the quotient by ten"
    )


def quotient_of(number):
    """The quotient of a number of 64 bits by ten and the three bits that are shifted out, which are
    constants of their own; and the lemma about them."""
    prove()
    number_id = number.get_id()
    if number_id not in _quotients:
        constant = queries.public if queries.is_public(number) else queries.secret
        _quotients[number_id] = Quotient(
            number,
            quotient=constant(f"quotient_{number_id}", 61),
            low_bits=constant(f"low_bits_{number_id}", 3),
            maximum=_maximum(number) // 10,
        )
    result = _quotients[number_id]
    quotient = z3.ZeroExt(3, result.quotient)
    instance = z3.And(
        z3.ULE(quotient, result.maximum),
        z3.ULE(10 * quotient, number),
        z3.ULT(number - 10 * quotient, 10),
    )
    return result.quotient, result.low_bits, instance


def _maximum(number):
    """The greatest value of a number, which may be the quotient of another one."""
    for known in _quotients.values():
        if z3.simplify(z3.ZeroExt(3, known.quotient)).eq(number):
            return known.maximum
    return (1 << 64) - 1
