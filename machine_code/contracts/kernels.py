"""The contracts of a kernel's functions, which the Rust crate and the C library call.

If a contract were weaker than what machine_code.rs in rust/src/kernel says, a kernel could be
accepted that the crate must not call. The only limit of a length is that of Rust's slices, which
have at most isize::MAX bytes: below 2^63.
"""

import z3

from contracts.callees import (
    arbitrary_index,
    check_states,
    is_in_region,
    offset_in,
    write_to_output,
)
from contracts.functions import (
    N,
    Function,
    base,
    decoded,
    digits_of,
    is_digit,
    prove_digits,
    prove_no_gap,
    prove_written,
)
from execution.state import Region
from execution.terms import bv64, simplify
from solver.queries import is_valid, require


class Kernel(Function):
    """A function with text of 2n characters or n bytes, and perhaps an output."""

    is_called_by_contract = True
    name = "any text"
    callee_summaries = {}
    call_depth = 0
    # So the text has less than 2^63 characters.
    requires = (z3.ULT(N, 1 << 62),)
    input_size, output_size = simplify(2 * N), N
    symbol = property(lambda self: rf"const_hex_(\d+_\d+_\d+|kernel)_{self.function}(_v[23])?")
    name_at_call_sites = property(lambda self: f"const_hex_kernel_{self.function}")
    regions = property(
        lambda self: (Region("input", self.input_size), Region("output", self.output_size))
    )

    def prove_postcondition(self, state):
        """The result is true if and only if all characters are digits. Then all of the output is
        written."""
        result = state.result()
        prove_no_gap(state)
        state.prove(z3.Or(result == 0, result == 1), "the result is neither true nor false")
        if accepted := state.branch(result == 1):
            # What the loop invariant says at the end of input and output.
            self.prove_loop_invariant(accepted, self.input_size, self.output_size)
        if not state.is_declassified:
            facts = state.facts + state.valid_input_facts()
            require(is_valid(facts, result == 1), "digits are rejected")

    def record_output_written(self, state, output, n):
        """Records at a call that all of the callee's output is written."""
        size = simplify(z3.substitute(self.output_size, (N, n)))
        state.writes.append((offset_in(state, "output", output), size))


class Fill(Kernel):
    """fill_lower(bytes, n, text), or fill_upper: the text has the two digits of each byte. There is
    no result."""

    is_every_input_valid = True
    name = "any bytes"
    arguments = (base("input"), N, base("output"))
    input_size, output_size = N, simplify(2 * N)

    def __init__(self, is_upper):
        self.is_upper, self.function = is_upper, "fill_upper" if is_upper else "fill_lower"

    def prove_store(self, state, offset, data):
        """At an even offset stands the higher digit of a byte, and at the next one the lower."""
        prove_hex_digits(state, offset, data, self.is_upper)

    def prove_loop_invariant(self, state, read_end, written_end):
        prove_written(state, written_end, "a character of the text is left out")

    def prove_postcondition(self, state):
        self.prove_loop_invariant(state, None, self.output_size)

    def summary(self, state, input, n, output):
        state_at_i, i = arbitrary_index(state, n)
        if state_at_i:
            digits = digits_of(*state_at_i.load(input + i, 1), self.is_upper)
            write_to_output(state_at_i, output + 2 * i, digits)
            self.record_output_written(state, output, n)
        yield state,


def prove_hex_digits(state, offset, data, is_upper):
    """Proves that characters at an offset of the text are the digits of the input's bytes."""
    parity = next((parity for parity in (0, 1) if state.is_valid(offset & 1 == parity)), None)
    require(parity is not None, "an offset in the text that may be odd or even")
    first_byte = simplify(z3.LShR(offset, 1))
    for position, character in enumerate(data, parity):
        byte = state.byte_of_input(first_byte + position // 2)
        expected = digits_of(byte, is_upper)[position % 2]
        state.prove_equal(
            character, expected, f"a wrong character at {offset} + {position - parity}"
        )


class Check(Kernel):
    """check(text, n): whether all characters are digits."""

    function = "check"
    requires = (z3.ULT(N, 1 << 63),)
    input_size, output_size = N, bv64(0)
    arguments = base("input"), N

    def summary(self, state, input, n):
        return check_states(state, input, n)


class CheckOfModule(Check):
    """The same in the module, where only a search calls it, and not for less than two characters."""

    function = "check_of_module"
    symbol = name_at_call_sites = "const_hex_kernel_check_of_module"
    requires = (*Check.requires, z3.UGE(N, 2))


def prove_decoded(state, offset, data):
    """Proves that bytes at an offset of the output are what the text decodes to, without an invalid
    character before. The first digit of the first byte may be one that is pending in a decoder."""
    has_pending = state.pending is not None
    is_first = has_pending and state.is_valid(offset == 0)
    state.prove(z3.Or(not has_pending, is_first, offset != 0), "whether it is the first byte")
    start = state.digits_start - has_pending
    end = simplify(start + 2 * (offset + len(data)))
    prove_digits(state, end, "written before its digits are checked")
    for index, number in enumerate(data):
        position = start + 2 * (offset + index)
        high, low = state.byte_of_input(position), state.byte_of_input(position + 1)
        if is_first and index == 0:
            high = state.pending
        state.prove_equal(number, decoded(high, low), f"a wrong byte at {offset} + {index}")


class Read(Kernel):
    """read(text, bytes, n): whether all 2n characters are digits. Then the bytes are what the text
    decodes to."""

    function = "read"
    arguments = base("input"), base("output"), N

    prove_store = staticmethod(prove_decoded)

    def summary(self, state, input, n, output):
        """A byte may be written if all characters up to its second digit are digits. All bytes are
        written if all characters are digits, else only some at the start."""
        state_at_i, i = arbitrary_index(state, n)
        if state_at_i:
            pair = state_at_i.load(input + 2 * i, 2)
            if is_in_region("input", input):
                start = offset_in(state_at_i, "input", input)
                state_at_i = state_at_i.assuming_digits(start, 2 * i + 2)
            if state_at_i := state_at_i and state_at_i.branch(z3.And(*map(is_digit, pair))):
                write_to_output(state_at_i, output + i, [decoded(*pair)])
        for path, result in check_states(state, input, simplify(2 * n)):
            if state_at_i:
                self.record_output_written(path, output, n if result else bv64(0))
            yield path, result


KERNELS = Fill(is_upper=False), Fill(is_upper=True), Check(), CheckOfModule(), Read()
