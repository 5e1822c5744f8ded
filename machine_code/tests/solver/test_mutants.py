"""Mutation tests: each mutant is rejected by the intended check, and similar correct code is proved.

To run one mutant of the tables in the folder mutants, give a part of its name:
`/usr/bin/python3 -m pytest machine_code/tests/solver -k "digit in the table"`.
"""

import contextlib

import mutants
import pytest
import z3
from contracts.functions import N
from contracts.library import CheckRaw, DecoderUpdate
from programs import edited, prove
from solver.queries import Rejected

MUTANTS = [pytest.param(*values, id=name) for name, *values in mutants.all_mutants()]


@pytest.mark.parametrize("build, contract, message", MUTANTS)
def test_mutant(build, contract, message):
    raises = pytest.raises((Rejected, ValueError), match=message) if message else None
    with raises or contextlib.nullcontext():
        prove(*build(), contract)


class EmptyTextOnly(CheckRaw):
    """A contract whose only case is empty text."""

    def cases(self, state):
        return [state.branch(N == 0)]


class WithoutPendingDigit(DecoderUpdate):
    """A contract without the case of a pending digit."""

    def decoder_states(self, decoder):
        return super().decoder_states(decoder)._replace(pending=z3.BoolVal(False))


@pytest.mark.parametrize(
    "contract, message",
    [
        (EmptyTextOnly(), "do not cover all initial states"),
        (WithoutPendingDigit(), "a state that no case covers"),
    ],
)
def test_contract_that_misses_a_state(contract, message):
    content = edited("functions_x86_64", contract.function)
    with pytest.raises(Rejected, match=message):
        prove(content, contract.function, contracts=[contract])
