"""Translates conditions on bit-vectors (QF_BV) to equivalent conditions on integers (QF_LIA).

If a translation were wrong, z3's answer would say nothing about the code, and a wrong access or a
wrong length could be accepted. test_queries.py compares both on random terms.
"""

from operator import eq, ge, gt, le, lt

import z3

CONNECTIVES = {
    z3.Z3_OP_AND: z3.And,
    z3.Z3_OP_OR: z3.Or,
    z3.Z3_OP_NOT: z3.Not,
    z3.Z3_OP_IMPLIES: z3.Implies,
}
RELATIONS = {
    z3.Z3_OP_ULEQ: le,
    z3.Z3_OP_ULT: lt,
    z3.Z3_OP_UGT: gt,
    z3.Z3_OP_UGEQ: ge,
    z3.Z3_OP_EQ: eq,
}
NARROW_BITS = (
    16  # A sum of at most this size is always reduced, without a query whether it overflows.
)


class Facts:
    """Facts in integers. `is_unsatisfiable` decides whether integer conditions are unsatisfiable
    together. It is also asked whether a sum may overflow, since else it need not be reduced modulo
    the power of two."""

    def __init__(self, is_unsatisfiable):
        self.conditions = []
        self.ranges = {}  # the conditions for the ranges of constants, by the ids of these in z3
        self.sums = {}  # the translations of sums and products, by the ids of their terms in z3
        self._is_unsatisfiable = is_unsatisfiable

    def with_fact(self, fact):
        """These facts and another one, or None if that is not linear."""
        other = Facts(self._is_unsatisfiable)
        other.conditions = self.conditions.copy()
        other.ranges = self.ranges.copy()
        other.sums = self.sums.copy()
        try:
            other.conditions.append(other.condition(fact))
        except ValueError:
            return None
        return other

    def condition(self, term):
        """The translation of a condition, where these facts hold."""
        kind, children = term.decl().kind(), term.children()
        if z3.is_true(term) or z3.is_false(term):
            return term
        if kind in CONNECTIVES:
            return CONNECTIVES[kind](*map(self.condition, children))
        if kind in RELATIONS and z3.is_bv(children[0]):
            return RELATIONS[kind](*map(self._number, children))
        raise ValueError(term)

    def _number(self, term):
        """The translation of a bit-vector: its value as an unsigned integer."""
        kind = term.decl().kind()
        children = term.children()
        size = term.size()
        if z3.is_bv_value(term):
            return z3.IntVal(term.as_long())
        if z3.is_const(term):
            number = z3.Int(term.decl().name())
            self.ranges[term.get_id()] = z3.And(0 <= number, number < 1 << size)
            return number
        if kind in (z3.Z3_OP_BADD, z3.Z3_OP_BMUL):
            return self._reduced(term, self._congruent(term))
        if kind == z3.Z3_OP_ITE:
            return z3.If(self.condition(children[0]), *map(self._number, children[1:]))
        if kind == z3.Z3_OP_EXTRACT:
            high, low = term.params()
            part = self._number(children[0])
            if low:
                part = _quotient(part, 1 << low)
            return part if high == children[0].size() - 1 else self._reduced(term, part)
        if kind == z3.Z3_OP_CONCAT:
            whole = z3.IntVal(0)
            for child in children:
                whole = whole * (1 << child.size()) + self._number(child)
            return z3.simplify(whole)
        raise ValueError(term)

    def _reduced(self, term, number):
        """A number modulo the power of two of a term's size; itself, if it cannot overflow."""
        modulus = 1 << term.size()
        if term.get_id() not in self.sums:
            overflows = z3.Or(number < 0, number >= modulus)
            never_overflows = term.size() > NARROW_BITS and self._is_unsatisfiable(
                [*self.ranges.values(), *self.conditions, overflows]
            )
            self.sums[term.get_id()] = number if never_overflows else number % modulus
        return self.sums[term.get_id()]

    def _congruent(self, term):
        """An integer that is congruent to the value of a term, modulo the power of two of its
        size."""
        kind, children = term.decl().kind(), term.children()
        if z3.is_bv_value(term):
            return z3.IntVal(term.as_signed_long())
        if kind == z3.Z3_OP_BADD:
            return z3.Sum(*map(self._congruent, children))
        if kind == z3.Z3_OP_BMUL and len(children) == 2 and z3.is_bv_value(children[0]):
            return children[0].as_signed_long() * self._congruent(children[1])
        if kind == z3.Z3_OP_BMUL:
            raise ValueError(term)
        return self._number(term)


def _quotient(number, divisor):
    """A number divided by a constant and rounded down. The multiples of the divisor in a sum are
    divided exactly, so that the division of the rest is simpler."""
    whole = z3.IntVal(0)
    rest = z3.IntVal(0)
    for part in number.children() if z3.is_add(number) else [number]:
        factor, *others = part.children() if z3.is_mul(part) else [part, z3.IntVal(1)]
        if z3.is_int_value(factor) and factor.as_long() % divisor == 0 and len(others) == 1:
            whole += factor.as_long() // divisor * others[0]
        else:
            rest += part
    return z3.simplify(whole + rest / divisor)
