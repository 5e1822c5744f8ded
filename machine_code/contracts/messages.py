"""The contracts of const_hex_error_message and of its callee, as c/const_hex.h says.

If a contract were weaker than what the header says, a wrong message could be accepted, or one that
is written outside of its buffer.
"""

import itertools

import z3

from contracts.functions import (
    INVALID_CHARACTER,
    INVALID_LENGTH,
    N,
    ODD_LENGTH,
    OUT_OF_MEMORY,
    Function,
    base,
)
from execution.state import Region
from execution.terms import bv64, bv8, bytes_le, constant_table_entry, simplify
from solver.queries import all_values, require, secret

# The messages of fixed text, by the kind of the error.
FIXED_MESSAGES = {
    ODD_LENGTH: b"odd number of digits",
    INVALID_LENGTH: b"invalid string length",
    OUT_OF_MEMORY: b"out of memory",
}
# The escape sequences of some characters. Others that are not printable are shown by their numbers.
ESCAPES = {ord("'"): "\\'", ord("\\"): "\\\\", 0: "\\0", 9: "\\t", 10: "\\n", 13: "\\r"}
# The fields of the error, and the size of the buffer.
KIND = secret("error_kind", 32)
CHARACTER = secret("error_character", 32)
POSITION = secret("error_position", 64)
SIZE = secret("message_size", 64)
MAX_SOURCE = 64  # the greatest length of the source of message_write_ended


def escaped(character):
    """A character as a message shows it."""
    is_hidden = character < 32 or 127 <= character <= 160 or character == 173
    return ESCAPES.get(character, f"\\u{{{character:x}}}" if is_hidden else chr(character)).encode()


ESCAPED = [escaped(character) for character in range(256)]


def escaped_character(state):
    """The bytes that show the error's character. Their number has to be the same for all characters
    of a path."""
    character = z3.Extract(7, 0, CHARACTER)
    lengths = constant_table_entry(bytes(map(len, ESCAPED)), character)
    (length,) = all_values(state.facts, lengths, 1)
    columns = itertools.zip_longest(*ESCAPED, fillvalue=0)
    return [
        constant_table_entry(bytes(column), character)
        for column in itertools.islice(columns, length)
    ]


def decimal(state, number):
    """The decimal digits of a number. Their number has to be the same for all numbers of a path."""
    digits = []
    while state.is_valid(z3.UGE(number, 10)):
        quotient = state.divided_by_ten(number)
        digits.insert(0, simplify(z3.Extract(7, 0, number - 10 * quotient) + 0x30))
        number = quotient
    state.prove(z3.ULT(number, 10), "one path for positions of different lengths")
    return [simplify(z3.Extract(7, 0, number) + 0x30), *digits]


def message_of(state):
    """The message for the error of a path."""
    for kind, text in FIXED_MESSAGES.items():
        if state.is_valid(KIND == kind):
            return list(map(bv8, text))
    is_character = z3.And(KIND == INVALID_CHARACTER, z3.ULT(CHARACTER, 256))
    if not state.is_valid(z3.Not(is_character)):
        state.prove(is_character, "one path for two kinds of errors")
        before = map(bv8, b"invalid character '")
        after = map(bv8, b"' at position ")
        return [*before, *escaped_character(state), *after, *decimal(state, POSITION)]
    state.prove(
        z3.And(*[KIND != kind for kind in FIXED_MESSAGES]), "one path for two kinds of errors"
    )
    return []


def written_length(length):
    """The number of bytes before the NUL, of a text of some length: all that fit. An empty buffer
    has no NUL."""
    truncated = z3.If(z3.ULT(length, SIZE), length, SIZE - 1)
    return z3.If(SIZE == 0, bv64(0), truncated)


class NulTerminated(Function):
    """A function that writes text, or as much of it as fits, and a NUL to its output, and returns
    the number of bytes before the NUL. It writes nothing to an empty output."""

    is_declassified = True
    is_unrolled = True
    fact_distance = 2

    def prove_store(self, state, offset, data):
        """Here the output is an object: its bytes are compared at the return."""
        (offset,) = all_values(state.facts, offset, 1)
        state.put_object_bytes("output", offset, data)

    def prove_text(self, state, length, text):
        """Proves that the output has a text of some length; `text` has its first bytes."""
        # The bytes before the NUL; -1 if nothing is written.
        count = len([name for name, _ in state.object_bytes if name == "output"]) - 1
        state.prove(state.result(64) == written_length(length), "a wrong result")
        state.prove((SIZE == 0) == z3.BoolVal(count < 0), "whether anything is written")
        if count >= 0:
            state.prove(written_length(length) == count, "a wrong number of bytes is written")
            for offset, expected in enumerate([*text(count), bv8(0)]):
                require(("output", offset) in state.object_bytes, "a byte is left out")
                state.prove_equal(
                    state.object_bytes["output", offset], expected, f"a wrong byte at {offset}"
                )


class WriteEnded(NulTerminated):
    """message_write_ended(source, length, output, size): the text is the source."""

    is_called_by_contract = is_local = True
    call_depth = 0
    function = "write_ended"
    name = "every source of up to 64 bytes"
    symbol = "const_hex_message_write_ended"
    regions = (Region("input", N), Region("output", SIZE))
    arguments = base("input"), N, base("output"), SIZE
    requires = (z3.ULE(N, MAX_SOURCE),)

    def prove_postcondition(self, state):
        def text(count):
            return [state.byte_of_input(bv64(index)) for index in range(count)]

        self.prove_text(state, N, text)

    def summary(self, state, input, n, output, message_size):
        """It gets the whole output of its caller, before which nothing is written."""
        (length,) = all_values(state.facts, n, 1)
        state.prove(message_size == SIZE, "a wrong size is passed")
        state.prove(z3.Or(SIZE == 0, output == base("output")), "a wrong output is passed")
        require(state.callee_text is None and not state.writes, "a store before the call")
        state.callee_text = state.load(input, length) if length else []
        yield state, written_length(bv64(length))


class ErrorMessage(NulTerminated):
    """error_message(error, message, message_size): the text is the message for the error."""

    function = "error_message"
    name = "every error"
    symbol = "const_hex_error_message"
    regions = Region("error", bv64(16), align=8, is_writable=False), Region("output", SIZE)
    # An empty output may have any address.
    arguments = base("error"), z3.If(SIZE == 0, secret("any", 64), base("output")), SIZE
    requires = (base("output") != 0,)

    def cases(self, state):
        state.put_object_bytes(
            "error", 0, [*bytes_le(KIND), *bytes_le(CHARACTER), *bytes_le(POSITION)]
        )
        state.callee_text = None  # what the callee writes, after its call
        return [state]

    def prove_postcondition(self, state):
        text = message_of(state)
        if state.callee_text is None:
            return self.prove_text(state, bv64(len(text)), lambda count: text[:count])
        require(not state.writes, "a store after the call")
        require(len(state.callee_text) == len(text), "a text of a wrong length is passed")
        for index, (character, expected) in enumerate(zip(state.callee_text, text)):
            state.prove(character == expected, f"a wrong byte of the text at {index}")
        state.prove(state.result(64) == written_length(bv64(len(text))), "a wrong result")


MESSAGES = WriteEnded(), ErrorMessage()
