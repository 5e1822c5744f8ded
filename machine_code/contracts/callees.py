"""Function summaries: what a caller gets from the contract of a callee, which is proved of that.

The precondition `requires` is proved at a call, and `summary` has the states after it. What a callee
writes to a buffer is checked as any other store is, at an arbitrary index. If a summary said more
than what is proved of the callee, or if a precondition were left out, a wrong caller could be
accepted.
"""

import functools

import z3

from contracts.functions import is_digit
from execution.terms import bv64, bv8, fresh_public, simplify
from solver.queries import free_constants, is_public, require


def summaries(contracts):
    """The summaries of some contracts, by the names of the functions where they are called."""
    return {
        contract.name_at_call_sites: functools.partial(_apply, contract) for contract in contracts
    }


def _apply(contract, state):
    """The states after a call, each with the result, if there is one. `state` is the one at the
    first instruction of the callee."""
    bindings = list(zip(contract.arguments, state.arguments(len(contract.arguments))))
    precondition = simplify(
        z3.And(*[z3.substitute(condition, *bindings) for condition in contract.requires])
    )
    require(
        state.is_declassified or is_public(precondition),
        "an argument depends on bytes that are secret",
    )
    state.prove(precondition, "arguments that violate the precondition")
    arguments = {parameter.decl().name(): argument for parameter, argument in bindings}
    is_constant_time = not contract.is_declassified and all(map(is_public, arguments.values()))
    require(
        state.is_declassified or is_constant_time,
        "how long a call takes may depend on bytes that are secret",
    )
    if path := state.branch(precondition):
        yield from contract.summary(path, **arguments)


def arbitrary_index(state, count):
    """The state with an arbitrary index i below a count, or None if the count is 0; and i."""
    i = bv64(0) if state.is_valid(count == 1) else fresh_public(64)
    return state.branch(z3.ULT(i, count)), i


def offset_in(state, name, address):
    """The offset of an address in a region."""
    return simplify(address - state.regions[name].base)


def is_in_region(name, address):
    """Whether an address has the base of a region."""
    return name in free_constants(address)


def write_to_output(state, address, data):
    """A store by a kernel. It has to go to the output, where the caller's contract checks it."""
    require(is_in_region("output", address), "a kernel writes outside of the output")
    state.store(address, data)


def check_states(state, text, count):
    """The state where all characters of a text are digits, and the one where some are not, each with
    the result. The second one is declassified if no valid input leads there."""
    is_input = is_in_region("input", text)
    state_at_i, i = arbitrary_index(state, count)
    if not state_at_i:  # The text is empty.
        return [(state, 1)]
    if is_input:
        characters = state_at_i.load(simplify(text + i), 1)
        are_digits = z3.And(*map(is_digit, characters))
        accepted = state.assuming_digits(offset_in(state, "input", text), count)
    else:
        state.prove(count == 2, "text that is neither in the input nor a pair")
        state_at_i, characters = state, state.load(text, 2)
        are_digits = z3.And(*map(is_digit, characters))
        accepted = state.branch(are_digits)
    truth = state_at_i.truth_for_valid_input(are_digits)
    require(
        truth is not False,
        "text that is never valid is read: its bytes may decide how long that takes",
    )
    if rejected := state_at_i.branch(z3.Not(are_digits)):
        rejected.is_declassified |= truth is True
    return [(path, result) for path, result in ((accepted, 1), (rejected, 0)) if path]


def read_arbitrary_index(state, text, count):
    """A load of an arbitrary one of the first `count` characters of a text in the input."""
    state_at_i, i = arbitrary_index(state, count)
    if state_at_i:
        require(is_in_region("input", text), "a search outside of the input")
        state_at_i.load(simplify(text + i), 1)


def skip_states(state, text, count):
    """The state after some digits were skipped, with the index after them."""
    read_arbitrary_index(state, text, count)
    index = fresh_public(64)
    after = state.branch(z3.ULE(index, count))
    if after := after.assuming_digits(
        offset_in(state, "input", text), index, with_known_bytes=False
    ):
        yield after, index


def search_states(state, text, count):
    """The states after a search for the first invalid character, each with its index and the
    character; or, if all are digits, with the length and 0."""
    start = offset_in(state, "input", text)
    read_arbitrary_index(state, text, count)
    if all_digits := state.assuming_digits(start, count):
        yield all_digits, count, bv8(0)
    index = fresh_public(64)
    found = state.branch(z3.ULT(index, count))
    found = found and found.assuming_non_digit(start + index)
    if found := found and found.assuming_digits(start, index, with_known_bytes=False):
        yield found, index, found.byte_of_input(start + index)
