"""Queries to z3 mean what they should: on random terms of 6 bits, the translation to integers has
the same values, the conjuncts of a condition are equivalent to it, and a goal that follows from
facts holds for all values."""

import itertools
import operator
import random

import pytest
import z3
from solver import cvc5, integers, queries, quotient_by_ten

BITS = 6
CONSTANTS = [queries.public(f"test_{name}", BITS) for name in "ab"]
NUMBERS = 0, 1, 2, 3, 8, 31, 32, 60, 63  # edge cases
COMPARISONS = z3.ULE, z3.ULT, z3.UGE, z3.UGT, operator.eq, operator.ne
RANDOM = random.Random(1)


def random_term(depth):
    kind = RANDOM.randrange(8 if depth else 2)
    if kind == 0:
        return z3.BitVecVal(RANDOM.choice(NUMBERS), BITS)
    if kind == 1:
        return RANDOM.choice(CONSTANTS)
    part, other = random_term(depth - 1), random_term(depth - 1)
    return [
        part + other,
        part - other,
        RANDOM.choice((2, 3, 4, 8, 62)) * part,
        z3.LShR(part, RANDOM.randrange(1, 5)),
        part & RANDOM.choice((0x38, 0x3C, 0x07, 0x20)),
        z3.If(z3.ULE(part, 9), part, other),
    ][kind - 2]


def random_condition():
    a, b = random_term(2), random_term(2)
    return RANDOM.choice(
        [
            *[compare(a, b) for compare in COMPARISONS],
            z3.Not(z3.ULE(a, b)),
            z3.And(z3.ULE(a, b), z3.ULT(b, 40)),
            a | b == 0,
            z3.Concat(a, b) == 0,
            z3.Extract(4, 2, a | b) == 0,
            z3.Or(z3.ULE(a, b), a == 5),
            z3.Implies(z3.ULE(a, 9), a == b),
            z3.If(z3.ULE(a, b), z3.BitVecVal(1, 2), z3.BitVecVal(0, 2)) == 0,
            z3.Not(z3.Or(a == b, z3.ULE(a, 9))),
        ]
    )


def is_true(condition, values):
    """Whether a condition on bit-vectors or on integers holds where the constants have these values."""
    assigned = list(zip(CONSTANTS, values))
    in_bits = [(constant, z3.BitVecVal(value, BITS)) for constant, value in assigned]
    in_integers = [(z3.Int(str(constant)), z3.IntVal(value)) for constant, value in assigned]
    return z3.is_true(z3.simplify(z3.substitute(condition, *in_bits, *in_integers)))


def test_integers(monkeypatch):
    monkeypatch.setattr(integers, "NARROW_BITS", BITS - 1)
    linear_count = 0
    for _ in range(150):
        values = [RANDOM.randrange(1 << BITS) for _ in CONSTANTS]
        facts = [z3.simplify(random_condition()) for _ in range(5)]
        facts = [fact for fact in facts if is_true(fact, values)]
        goal = z3.simplify(random_condition())
        translated = integers.Facts(queries.is_unsatisfiable_in_integers)
        for fact in [*facts, goal]:
            without_goal = translated
            translated = translated and translated.with_fact(fact)
        if translated:
            linear_count += 1
            assert is_true(translated.conditions[-1], values) == is_true(goal, values), (
                facts,
                goal,
            )
            assert all(is_true(fact, values) for fact in without_goal.conditions), facts
    assert linear_count > 60


def test_conjuncts():
    for _ in range(300):
        condition, values = random_condition(), [RANDOM.randrange(1 << BITS) for _ in CONSTANTS]
        conjuncts = queries.conjuncts(condition)
        are_true = all(is_true(conjunct, values) for conjunct in conjuncts)
        assert are_true == is_true(condition, values), condition


def test_what_follows_is_true_of_all_values():
    result_counts = {True: 0, False: 0}
    all_values = list(itertools.product(range(1 << BITS), repeat=2))
    for _ in range(40):
        conditions, goal = [random_condition(), random_condition()], random_condition()
        facts = [fact for condition in conditions for fact in queries.facts_of(condition)]
        result = queries.is_valid(facts, goal)
        result_counts[result] += 1
        implication = z3.Implies(z3.And(*conditions), goal)
        assert not result or all(
            is_true(implication, values) for values in RANDOM.sample(all_values, 400)
        ), implication
    assert min(result_counts.values()) > 3


def test_all_values():
    x = queries.public("test_values", 64)
    facts = queries.facts_of(z3.And(z3.ULT(x, 9), x & 3 == 1))
    assert sorted(queries.all_values(facts, x, 3)) == [1, 5]
    with pytest.raises(queries.Rejected, match="too many values"):
        queries.all_values(facts, x, 1)


def test_nothing_is_valid_beyond_the_resource_limit(monkeypatch):
    """2^61 - 1 is a prime, which takes a solver long to find."""
    monkeypatch.setattr(queries, "BITVECTOR_RLIMIT", 1000)
    x, y = z3.BitVecs("test_x test_y", 64)
    are_factors = [z3.And(z3.UGT(number, 1), z3.ULT(number, 1 << 32)) for number in (x, y)]
    facts = [fact for each in are_factors for fact in queries.facts_of(each)]
    assert not queries.is_valid(facts, x * y != (1 << 61) - 1)


def test_the_quotient_by_ten():
    """The facts about a quotient hold for it, and for no other number."""
    number = queries.public("test_number", 64)
    quotient, low_bits, lemma = quotient_by_ten.quotient_of(number)
    assert quotient_by_ten.quotient_of(number)[0].eq(quotient)
    for value in [0, 9, 10, (1 << 64) - 1, *[RANDOM.getrandbits(64) for _ in range(200)]]:
        upper = value * quotient_by_ten.FACTOR >> 64
        for error in (0, 1, -1, 1 << 60):
            values = (number, value), (quotient, (upper >> 3) + error), (low_bits, upper & 7)
            values = [(term, z3.BitVecVal(each, term.size())) for term, each in values]
            assert z3.is_true(z3.simplify(z3.substitute(lemma, *values))) == (error == 0)


def test_the_lemma_is_false_of_other_factors():
    for factor in (quotient_by_ten.FACTOR - 1, quotient_by_ten.FACTOR + 1, 1 << 63):
        assert not queries.is_unsatisfiable_in_integers(quotient_by_ten.negated_lemma(factor))


def test_the_second_solver():
    x = z3.BitVec("x", 64)
    unsat = "QF_BV", [z3.ULT(x, 3), z3.UGT(x, 5)]
    unsat_integers = "QF_LIA", [z3.Int("n") % 3 == 1, z3.Int("n") == 9]
    sat = "QF_BV", [z3.ULT(x, 3)]
    # A function is no term of this logic, which stops cvc5.
    not_in_logic = "QF_BV", [z3.ULT(x, 3), z3.Function("f", x.sort(), x.sort())(x) == 1]
    assert [result for _, result in cvc5.disagreements([unsat, sat, unsat_integers])] == ["sat"]
    assert len(cvc5.disagreements([not_in_logic, unsat])) == 2
