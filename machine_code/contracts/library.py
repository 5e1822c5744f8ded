"""The contracts of the functions of the C library, as c/const_hex.h says. c/asm/dispatch.S handles a
NULL `error`.

If a contract were weaker than what the header says, a wrong library could be accepted. Text has less
than 2^63 characters, also text that fits into a buffer of `encode`; the size of a buffer has no
limit.
"""

from collections import namedtuple

import z3

from contracts.callees import is_in_region, offset_in, search_states, skip_states
from contracts.functions import (
    FAILED,
    FOUND,
    INVALID_CHARACTER,
    INVALID_LENGTH,
    N,
    ODD_LENGTH,
    Function,
    base,
    first_invalid,
    in_size_t,
    is_digit,
    is_prefix,
    prefix_cases,
    prove_bool_result,
    prove_digits,
    prove_failure,
    prove_no_gap,
    prove_object,
    prove_unchanged,
    prove_written,
    saturating_add,
    size_max,
    split_at_prefix,
    uint32_argument,
)
from contracts.kernels import Check as CheckKernel, Fill, prove_decoded, prove_hex_digits
from contracts.names import VERSION, WITH_ERROR
from execution.state import Region
from execution.terms import bv64, bv8, bytes_le, concat_le, fresh_secret, simplify
from solver.queries import free_constants, public, require

FLAGS, SIZE = public("flags", 32), public("size", 64)  # SIZE is that of the output
UPPER, PREFIX, NO_NUL = 1, 2, 4  # the flags for encoding in const_hex.h
TEXT = Region("input", N)
OUTPUT = Region("output", SIZE)
BUFFERS = ("input", N), ("output", SIZE)
# Regions as functions of the size of a size_t.
ERROR = lambda size_t: Region("error", bv64(8 + size_t), size_t)
WRITTEN = lambda size_t: Region("written", bv64(size_t), size_t)
DECODER = lambda size_t: Region("decoder", bv64(2 * size_t), size_t)
READ_ONLY_DECODER = lambda size_t: Region("decoder", bv64(2 * size_t), size_t, is_writable=False)


def two_words(name):
    """A region of two words."""
    return lambda size_t: Region(name, bv64(2 * size_t))


class Exported(Function):
    """A function of the header; or, of one with an error, the function that its wrapper calls, whose
    error is not NULL (dispatch.py)."""

    symbol = property(
        lambda self: f"const_hex_{self.function}{'_nonnull' if self.function in WITH_ERROR else ''}"
    )


class Version(Exported):
    """version(): CONST_HEX_VERSION of the header."""

    function, arguments = "version", ()

    def prove_postcondition(self, state):
        state.prove(state.result(32) == VERSION, f"the version is not {VERSION}")


def needed_size(flags):
    """The size that the text needs, in 66 bits, so without overflow: two digits for each byte, the
    prefix, and a NUL."""
    prefix, no_nul = [z3.ZeroExt(65, z3.Extract(bit, bit, flags)) for bit in (1, 2)]
    return simplify(2 * z3.ZeroExt(2, N) + 2 * prefix + 1 - no_nul)


class EncodedSize(Exported):
    """encoded_size(bytes_length, flags): the size that is needed, or SIZE_MAX if that overflows or
    a flag is unknown."""

    function, arguments = "encoded_size", (N, uint32_argument(FLAGS))

    def prove_postcondition(self, state):
        size = needed_size(FLAGS)
        is_valid = z3.And(z3.ULT(FLAGS, 8), z3.ULT(size, size_max(state)))
        expected = z3.If(is_valid, z3.Extract(63, 0, size), size_max(state))
        state.prove(state.result(64) == expected, "a wrong size")


class Encode(Exported):
    """encode(bytes, bytes_length, text, text_size, flags), for known flags, or for all unknown
    ones (None)."""

    function = "encode"
    regions = TEXT, OUTPUT
    is_every_input_valid = True
    nullable_buffers = BUFFERS

    def __init__(self, flags):
        self.name = "unknown flags" if flags is None else f"flags {flags}"
        self.flags = FLAGS if flags is None else z3.BitVecVal(flags, 32)
        self.arguments = (
            base("input"),
            N,
            base("output"),
            SIZE,
            simplify(uint32_argument(self.flags)),
        )
        self.fits = simplify(
            z3.And(z3.ULT(self.flags, 8), z3.ULE(needed_size(self.flags), z3.ZeroExt(2, SIZE)))
        )
        self.has_nul = simplify(self.flags & NO_NUL == 0)
        # The offsets at which the digits begin, after the prefix, and end, before the NUL.
        self.digits_begin = 2 if flags and flags & PREFIX else 0
        self.digits_end = simplify(2 * N + self.digits_begin)
        are_known = z3.ULT(self.flags, 8) == (flags is not None)
        self.requires = z3.Implies(self.fits, z3.ULT(N, 1 << 62)), are_known

    prove_loop_invariant = Fill.prove_loop_invariant

    def prove_store(self, state, offset, data):
        """If the text fits, the prefix, the digits and a NUL are written, else a NUL at the start."""
        if state.is_valid(z3.Not(self.fits)):
            return self.prove_nul(state, offset, data, bv64(0))
        state.prove(self.fits, "written though the text may not fit")
        if z3.is_bv_value(offset) and offset.as_long() + len(data) <= self.digits_begin:
            require(all(map(z3.is_bv_value, data)), "a prefix that is not constant")
            written = bytes(character.as_long() for character in data)
            return require(written == b"0x"[offset.as_long() :][: len(data)], "a wrong prefix")
        if state.is_valid(offset == self.digits_end):
            return self.prove_nul(state, offset, data, self.digits_end)
        is_inside = z3.And(
            z3.UGE(offset, self.digits_begin), z3.ULE(offset + len(data), self.digits_end)
        )
        state.prove(is_inside, "written before or after the digits")
        is_upper = bool(self.flags.as_long() & UPPER)
        prove_hex_digits(state, simplify(offset - self.digits_begin), data, is_upper)

    def prove_nul(self, state, offset, data, expected):
        """Proves that a NUL is written, at the expected offset."""
        state.prove(z3.And(self.has_nul, offset == expected), "a wrong offset of the NUL")
        require(len(data) == 1 and data[0].eq(bv8(0)), "no NUL")

    def prove_postcondition(self, state):
        prove_bool_result(state, self.fits, "whether the text fits")
        if fits := state.branch(self.fits):
            end = self.digits_end + z3.If(self.has_nul, bv64(1), bv64(0))
            prove_written(fits, simplify(end), "a character of the text is left out")
        if failed := state.branch(z3.Not(self.fits)):
            require(not failed.reads, "the input is read though the text does not fit")
            end = z3.If(z3.And(self.has_nul, SIZE != 0), bv64(1), bv64(0))
            prove_written(failed, end, "the text is not the empty string")


class CheckRaw(CheckKernel):
    """check_raw(text, length): whether all characters are digits."""

    is_called_by_contract = False
    callee_summaries = None
    call_depth = 3
    regions = (TEXT,)
    nullable_buffers = (("input", N),)
    function = "check_raw"
    symbol = "const_hex_check_raw"


class SkipHalves(Function):
    """skip_halves(text, length): an index before which all characters are digits."""

    is_called_by_contract = is_local = is_declassified = True
    call_depth = 1
    symbol = "const_hex_body_skip_halves"
    function = "skip_halves"
    name = "text of at least 128 characters"
    requires = z3.ULT(N, 1 << 63), z3.UGE(N, 128)
    regions = (TEXT,)
    arguments = base("input"), N

    def prove_postcondition(self, state):
        index = from_size_t(state, state.result(8 * state.POINTER_SIZE))
        state.prove(z3.ULE(index, N), "an index outside of the text")
        prove_digits(state, index)

    def summary(self, state, input, n):
        return skip_states(state, input, n)


class FirstInvalid(Function):
    """locate_invalid(text, length): the first invalid character after the prefix, and its index; or
    0 and the length, if there is none."""

    is_called_by_contract = is_local = is_declassified = True
    call_depth = 2
    symbol = "const_hex_body_locate_invalid"
    function = "locate_invalid"
    name = "any text"
    requires = (z3.ULT(N, 1 << 63),)
    regions = (TEXT,)
    arguments = base("input"), N

    def cases(self, state):
        return prefix_cases(state)

    def prove_postcondition(self, state):
        index, character = first_invalid(state)
        state.prove(state.result(32) == z3.ZeroExt(24, character), "a wrong character")
        state.prove(state.result(64, 1) == index, "a wrong index")

    def summary(self, state, input, n):
        require(is_in_region("input", input), "a search outside of the input")
        offset = offset_in(state, "input", input)
        for case, prefix_length in split_at_prefix(state, offset, n):
            found = search_states(case, input + prefix_length, n - prefix_length)
            for path, index, character in found:
                yield path, z3.ZeroExt(24, character), simplify(prefix_length + index)


class Text(Exported):
    """A function that returns true for valid text, whose bytes it writes if it has an output, and
    false for invalid text."""

    name = "any text"
    nullable_buffers = (("input", N),)
    requires = (z3.ULT(N, 1 << 63),)

    def cases(self, state):
        return prefix_cases(state)

    def byte_count(self, state):
        """The number of bytes that the digits decode to, with a digit that is pending in a decoder."""
        return simplify(z3.LShR(N - state.digits_start + (state.pending is not None), 1))

    def errors(self, state):
        """The errors beside an invalid character, in the order in which they are checked: the
        condition, a description, and the fields of the error."""
        return [(N & 1 == 1, "an odd length", ODD_LENGTH)]

    def prove_no_error(self, state, message):
        """Proves that there is none of these errors."""
        for is_error, description, *_ in self.errors(state):
            state.prove(z3.Not(is_error), message.format(description))

    def prove_store(self, state, offset, data):
        self.prove_no_error(state, "written though it is {}")
        state.prove(z3.ULE(offset + len(data), self.byte_count(state)), "written after the bytes")
        prove_decoded(state, offset, data)

    def prove_postcondition(self, state):
        result = state.result()
        if state.is_valid(result == 1):
            self.prove_no_error(state, "{} is accepted")
            prove_digits(state, N)
            prove_unchanged(state, "error")
            return self.prove_accepted(state)
        state.prove(result == 0, "the result is neither true nor false")
        prove_no_gap(state)
        if "written" in state.regions:
            prove_object(state, "written", in_size_t(state, bv64(0)))
        for is_error, description, *fields in self.errors(state):
            if state.is_valid(is_error):
                prove_unchanged(state, "decoder")
                return prove_failure(state, *fields)
            state.prove(z3.Not(is_error), f"one path with and without {description}")
        index, character = first_invalid(state)
        state.prove(z3.ULT(index, N), "digits are rejected")
        self.prove_rejected(state, index, character)

    def prove_accepted(self, state):
        """Proves what else holds if the result is true."""
        if "output" in state.regions:
            prove_written(state, self.byte_count(state), "a byte is left out")
        if "written" in state.regions:
            prove_object(state, "written", in_size_t(state, self.byte_count(state)))

    def prove_rejected(self, state, index, character):
        """Proves what holds if this is the first invalid character."""
        prove_failure(state, INVALID_CHARACTER, index, character)


class Check(Text):
    """check(text, length, error): whether text can be decoded."""

    function = "check"
    regions = (TEXT, ERROR)
    arguments = (base("input"), N, base("error"))


class DecodeExact(Text):
    """decode_exact(text, length, bytes, bytes_length, error): the bytes that the text decodes to, of
    which there have to be bytes_length."""

    function = "decode_exact"
    regions = TEXT, OUTPUT, ERROR
    arguments = base("input"), N, base("output"), SIZE, base("error")
    nullable_buffers = BUFFERS

    def errors(self, state):
        return [
            *super().errors(state),
            (self.byte_count(state) != SIZE, "a wrong length", INVALID_LENGTH),
        ]


class Decode(Text):
    """decode(text, length, bytes, bytes_size, written, error): the same, in a buffer that may be
    larger."""

    function = "decode"
    regions = TEXT, OUTPUT, ERROR, WRITTEN
    nullable_buffers = BUFFERS
    arguments = base("input"), N, base("output"), SIZE, base("written"), base("error")

    def errors(self, state):
        return [
            *super().errors(state),
            (z3.UGT(self.byte_count(state), SIZE), "too small a buffer", INVALID_LENGTH),
        ]


class DecoderFinish(Exported):
    """decoder_finish(decoder, error): whether no first digit of a byte is pending, and
    there was no error."""

    function = "decoder_finish"
    name = "any decoder"
    arguments = (base("decoder"), base("error"))
    regions = READ_ONLY_DECODER, ERROR

    def cases(self, state):
        return [with_decoder(state)]

    def prove_postcondition(self, state):
        decoder = decoder_at_call(state)
        status = decoder.status
        prove_bool_result(state, status == 0, "whether the text is complete")
        if state.is_valid(status == 0):
            prove_unchanged(state, "error")
        elif state.is_valid(status == 1):
            prove_failure(state, ODD_LENGTH)
        else:
            state.prove(z3.UGT(status, 1), "whether there was an error")
            prove_failure(state, INVALID_CHARACTER, decoder.position, decoder.character)


# The fields of a decoder: the position in the text; a character, which is the only secret; and 0, 1
# if the character is a pending digit, the first of its byte, or more after an error.
Decoder = namedtuple("Decoder", "position character status")


def with_decoder(state):
    """The state with public fields of the decoder, except for its character."""
    position = public(f"position_{state.POINTER_SIZE}", 8 * state.POINTER_SIZE)
    state.put_object_bytes("decoder", 0, bytes_le(position))
    state.put_object_bytes("decoder", state.POINTER_SIZE + 1, [public("kind", 8)])
    state.entry = state.copy()
    return state


def decoder_at_call(state):
    """The fields of the decoder at the call."""
    return decoder_in(state.entry)


def decoder_in(state):
    """The fields of the decoder now."""
    *position, character, status = [
        state.object_bytes["decoder", offset] for offset in range(state.POINTER_SIZE + 2)
    ]
    return Decoder(from_size_t(state, concat_le(position)), character, status)


def from_size_t(state, term):
    """A size_t, zero-extended to 64 bits."""
    return simplify(z3.ZeroExt(64 - 8 * state.POINTER_SIZE, term))


# The conditions for what a decoder may be: at the start; after one digit, which may be the first
# character of a prefix; later, where no digit is pending, or one; or after an error.
DecoderStates = namedtuple("DecoderStates", "start one_digit complete pending failed")


class DecoderUpdate(Text):
    """decoder_update(decoder, text, length, bytes, bytes_size, written, error): the bytes that a
    chunk's digits decode to, with a pending digit before."""

    function = "decoder_update"
    name = "every decoder and chunk"
    parts = 6
    regions = DECODER, TEXT, OUTPUT, WRITTEN, ERROR
    arguments = base("decoder"), *Decode.arguments
    nullable_buffers = BUFFERS

    def decoder_states(self, decoder):
        """The conditions under which a decoder is in each of its states."""
        is_pending = z3.And(decoder.status == 1, is_digit(decoder.character))
        later = z3.UGE(decoder.position, 2)
        return DecoderStates(
            start=z3.And(decoder.position == 0, decoder.status == 0),
            one_digit=z3.And(decoder.position == 1, is_pending),
            complete=z3.And(later, decoder.status == 0),
            pending=z3.And(later, is_pending),
            failed=z3.UGT(decoder.status, 1),
        )

    def applies_to(self, state):
        return z3.Or(*self.decoder_states(decoder_at_call(with_decoder(state))))

    def cases(self, state):
        decoder = decoder_at_call(with_decoder(state))
        states = self.decoder_states(decoder)
        ends_prefix = z3.And(
            z3.UGE(N, 1), is_prefix(decoder.character, state.byte_of_input(bv64(0)))
        )
        yield from prefix_cases(state.branch(states.start))
        # Whether a digit is pending, and where the digits of this chunk begin.
        for condition, has_pending, digits_start in (
            (z3.And(states.one_digit, ends_prefix), False, 1),
            (z3.And(states.one_digit, z3.Not(ends_prefix)), True, 0),
            (states.complete, False, 0),
            (states.pending, True, 0),
            (states.failed, False, 0),
        ):
            if path := state.branch(condition):
                path.pending = decoder_at_call(path).character if has_pending else None
                path.digits_start = bv64(digits_start)
                yield path

    def leaves_pending(self, state):
        """Whether a digit is pending for the next chunk."""
        return (
            N - state.digits_start + (state.pending is not None) - 2 * self.byte_count(state) == 1
        )

    def may_decide_select(self, state, offset):
        """Whether it is the digit of this chunk that is pending for the next one."""
        return state.is_valid(z3.And(self.leaves_pending(state), offset == N - 1))

    def errors(self, state):
        decoder = decoder_at_call(state)
        earlier_error = INVALID_CHARACTER, decoder.position, decoder.character
        return [
            (z3.UGT(decoder.status, 1), "a chunk after an error", *earlier_error),
            (z3.UGT(self.byte_count(state), SIZE), "too small a buffer", INVALID_LENGTH),
        ]

    def prove_accepted(self, state):
        super().prove_accepted(state)
        decoder = decoder_at_call(state)
        position = saturating_add(state, decoder.position, N)
        prove_object(state, "decoder", in_size_t(state, position))
        is_pending = self.leaves_pending(state)
        prove_object(
            state, "decoder", z3.If(is_pending, bv8(1), bv8(0)), offset=state.POINTER_SIZE + 1
        )
        if path := state.branch(z3.And(is_pending, N == 0)):
            prove_object(path, "decoder", decoder.character, offset=state.POINTER_SIZE)
        if path := state.branch(z3.And(is_pending, N != 0)):
            path.prove(z3.UGT(N, path.digits_start), "the pending digit is not among the digits")
            prove_object(path, "decoder", path.byte_of_input(N - 1), offset=state.POINTER_SIZE)
        # A character that is_pending is a digit, as proved. So a case covers the next call, too.
        decoder = decoder_in(state)._replace(character=bv8(ord("0")))
        is_covered = z3.Or(*self.decoder_states(decoder))
        state.prove(is_covered, "the decoder is in a state that no case covers")

    def prove_rejected(self, state, index, character):
        position = saturating_add(state, decoder_at_call(state).position, index)
        super().prove_rejected(state, position, character)
        prove_object(state, "decoder", in_size_t(state, position), character)
        has_failed = z3.UGT(decoder_in(state).status, 1)
        state.prove(has_failed, "the decoder does not keep its error")


class ChangedDecoder(DecoderUpdate):
    """The same with a decoder that a program has changed: the call is memory-safe and returns."""

    name = "a decoder that was changed"
    parts = 1
    is_declassified = True
    is_in_module = False

    def applies_to(self, state):
        return z3.Not(super().applies_to(state))

    def cases(self, state):
        return [state.branch(self.applies_to(state))]

    def prove_store(self, state, offset, data):
        """Anything may be written to the output."""

    def prove_postcondition(self, state):
        """Any result, and any error."""


class DecoderFail(FirstInvalid):
    """decoder_fail(result, decoder, before, text, length), for a chunk of which `before` characters
    come before the text: the decoder moves to the invalid character, and keeps the error."""

    has_result = False
    symbol = "const_hex_decoder_fail"
    function = "decoder_fail"
    name = "every decoder and chunk"
    before = public("before", 64)
    regions = two_words("result"), two_words("decoder"), TEXT
    arguments = base("result"), base("decoder"), before, base("input"), N

    def cases(self, state):
        return [with_decoder(state)]

    def contents(self, state, position, before, index, character):
        """The numbers in the result and in the decoder afterwards. In the module the result has no
        kind."""
        kind = [z3.BitVecVal(FOUND, 32)] if state.POINTER_SIZE == 8 else []
        start = saturating_add(state, position, before)
        index = in_size_t(state, saturating_add(state, start, index))
        return [*kind, z3.ZeroExt(24, character), index], [index, character, bv8(FAILED)]

    def prove_postcondition(self, state):
        position = decoder_at_call(state).position
        result, decoder = self.contents(state, position, self.before, *first_invalid(state))
        prove_object(state, "result", *result)
        prove_object(state, "decoder", *decoder)

    def summary(self, state, result, decoder, before, input, n):
        are_distinct = set(free_constants(result)).isdisjoint(free_constants(decoder))
        require(are_distinct, "the result may overlap the decoder")
        position = from_size_t(state, concat_le(state.load(decoder, state.POINTER_SIZE)))
        for path, *invalid in search_states(state, input, n):
            contents = self.contents(path, position, before, *invalid)
            for address, numbers in zip((result, decoder), contents):
                data = []
                for number in numbers:
                    data += bytes_le(number)
                # The bytes after these numbers are unknown.
                unknown = [fresh_secret(8) for _ in range(2 * path.POINTER_SIZE - len(data))]
                path.store(address, data + unknown)
            yield path,


# All contracts of this file. Those with the longest proofs come last, and `prove` begins with them.
FUNCTIONS = (
    Version(),
    EncodedSize(),
    *[Encode(flags) for flags in (*range(8), None)],
    CheckRaw(),
    SkipHalves(),
    FirstInvalid(),
    Check(),
    DecodeExact(),
    Decode(),
    DecoderFinish(),
    DecoderFail(),
    DecoderUpdate(),
    ChangedDecoder(),
)
