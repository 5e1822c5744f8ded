"""What the contracts share: definitions of digits, coverage of a buffer, and the initial states of a
function.

If these were wrong, another claim would be proved than the one that the other files here state.
"""

import itertools

import z3

from execution.terms import bv64, bv8, simplify
from solver.queries import public, require, secret

# The length that a function gets, and an arbitrary index: what is proved of it holds for all.
N, INDEX = public("n", 64), public("index", 64)
# The kinds of errors in const_hex.h.
ODD_LENGTH = 1
INVALID_LENGTH = 2
INVALID_CHARACTER = 3
OUT_OF_MEMORY = 4  # which no function of the library sets
FOUND = 2  # the kind of an invalid character in the result of decoder_fail
FAILED = 2  # the status of a decoder after an invalid character


def size_max(state):
    """The greatest size_t."""
    return (1 << 8 * state.POINTER_SIZE) - 1


def is_digit(character):
    """Whether a character is one of 0-9, A-F and a-f."""
    ranges = []
    for first, last in ("0", "9"), ("A", "F"), ("a", "f"):
        ranges.append(z3.And(z3.UGE(character, ord(first)), z3.ULE(character, ord(last))))
    return z3.Or(*ranges)


def value(digit):
    """The value of a digit."""
    upper_case, lower_case = digit - ord("A") + 10, digit - ord("a") + 10
    letter = z3.If(z3.ULE(digit, ord("F")), upper_case, lower_case)
    return z3.If(z3.ULE(digit, ord("9")), digit - ord("0"), letter)


def digits_of(number, is_upper):
    """The two digits of a byte."""
    first_letter = ord("A" if is_upper else "a")
    nibbles = z3.LShR(number, 4), number & 15
    return [
        z3.If(z3.ULE(nibble, 9), nibble + ord("0"), nibble - 10 + first_letter)
        for nibble in nibbles
    ]


def decoded(high, low):
    """The byte that two digits decode to."""
    return simplify(value(high) * 16 + value(low))


def is_prefix(zero, x):
    """Whether two characters are 0x or 0X."""
    return z3.And(zero == ord("0"), x | 0x20 == ord("x"))


def base(name):
    """The base address of a region."""
    return public(name, 64)


def uint32_argument(term):
    """An argument of 32 bits. The upper half of its register is unknown."""
    return z3.Concat(secret("above", 32), term)


def in_size_t(state, number):
    """A number truncated to a size_t."""
    return z3.Extract(8 * state.POINTER_SIZE - 1, 0, number)


def _lies_in(ranges):
    """Whether the arbitrary index lies in one of some ranges, each with its offset and count."""
    return z3.Or(*[z3.ULT(INDEX - offset, count) for offset, count in ranges])


def are_covered(start, end, ranges):
    """Whether each index from a start up to an end lies in one of some ranges."""
    return z3.Implies(z3.And(z3.ULE(start, INDEX), z3.ULT(INDEX, end)), _lies_in(ranges))


def prove_digits(state, end, message="a character is accepted that may be no digit"):
    """Proves that all characters after the prefix are digits, up to an end."""
    state.prove(are_covered(state.digits_start, end, list(state.known_digit_ranges())), message)


def prove_written(state, end, message):
    """Proves that the output is written up to an end."""
    state.prove(are_covered(bv64(0), end, state.writes), message)


def prove_no_gap(state):
    """Proves that what is written is a prefix of the output."""
    is_before = z3.Or(*[z3.ULT(INDEX, offset) for offset, _ in state.writes])
    state.prove(
        z3.Implies(is_before, _lies_in(state.writes)), "a byte is left out before what is written"
    )


class Function:
    """The contract of a function. A subclass has `function`, the name, `symbol`, a pattern of symbols,
    `arguments` and `prove_postcondition`; with an output `prove_store`, which proves what a store
    may write; and for callers `summary`, which yields the states after a call with the results."""

    # A callee with a contract has less stack, and a local one is no function of the header.
    is_called_by_contract = is_local = False
    is_declassified = False  # not constant-time
    is_unrolled = False  # without loop invariants
    is_in_module = has_result = True
    # A function takes only callees with a smaller depth by their contracts. Kernels have 0.
    call_depth = 3
    uses_dispatch_byte = False  # the dispatcher's byte, which is no secret
    is_every_input_valid = False
    is_digit = staticmethod(is_digit)
    # The regions that it may access. Some are functions of the size of a pointer.
    regions = ()
    nullable_buffers = ()  # with their sizes: if that is 0, the address may be NULL
    requires = ()  # the precondition
    callable_arguments = ()  # summaries, by the names of arguments that are functions
    name = "every call"
    name_at_call_sites = property(lambda self: self.symbol)  # the symbol that callers use
    fact_distance = None  # how distant from a goal the facts in a query may be, or None
    level = None  # the microarchitecture level of the code, unless the symbol ends in it
    # The summaries of its callees, by what follows its own symbol in theirs; None stands for those
    # in callees.py.
    callee_summaries = None
    parts = 1  # of its initial states, which are proved in parallel

    def initial_states(self, code):
        """The states at the call of the function, with any arguments that it allows."""
        state = code.processor.State()
        state.start(code, self)
        for condition in self.requires:
            state.assume(condition)
        null_cases = [
            (base(name) != 0, z3.And(base(name) == 0, size == 0))
            for name, size in self.nullable_buffers
        ]
        initial_states = []
        for case in itertools.product(*null_cases):
            if path := state.branch(z3.And(*case)):
                initial_states += self._all_cases(path)
        return initial_states

    def _all_cases(self, state):
        """The cases of a state, which have to cover it."""
        paths = list(self.cases(state))
        conditions = [
            z3.And(*[fact.term for fact in path.facts[len(state.facts) :]]) for path in paths
        ]
        is_covered = z3.Implies(self.applies_to(state), z3.Or(*conditions))
        state.prove(is_covered, "the cases of a contract do not cover all initial states")
        return paths

    def stack_sizes(self, state):
        """The size of its stack, and how much of it is reserved for its callees."""
        own_size, callees_size = [
            state.CALLEE_STACK_SIZE + depth * state.CALLER_STACK_SIZE
            for depth in (self.call_depth, max(self.call_depth - 1, 0))
        ]
        return own_size if self.is_called_by_contract else state.STACK_SIZE, callees_size

    def cases(self, state):
        """A case split of the initial state, such as whether the text has a prefix."""
        return [state]

    def applies_to(self, state):
        """The condition on the initial state under which the contract applies."""
        return z3.BoolVal(True)

    def prove_loop_invariant(self, state, read_end, written_end):
        """Proves at a loop header that all characters so far are digits, and that the output is
        written so far."""
        prove_digits(state, read_end)
        prove_no_gap(state)
        prove_written(state, written_end, "a byte of the output is left out")

    def may_decide_select(self, state, offset):
        """Whether a byte of the input may decide a `select` of a module, though it is secret."""
        return False

    def validity_conditions(self, state):
        """What makes an input valid, for constant time: its characters after the prefix are
        digits."""
        return [
            is_digit(character)
            for offset, character in state.input_bytes.values()
            if not self.is_every_input_valid and state.is_valid(z3.UGE(offset, state.digits_start))
        ]


def prefix_cases(state):
    """The initial states where the text has a prefix, and where it has none."""
    for path, digits_start in split_at_prefix(state, bv64(0), N):
        path.digits_start = digits_start
        yield path


def split_at_prefix(state, offset, length):
    """The states where the text at an offset of the input has a prefix, and where it has none, each
    with the length of the prefix."""
    first, second = [state.byte_of_input(offset + index) for index in (0, 1)]
    has_prefix = z3.And(z3.UGE(length, 2), is_prefix(first, second))
    for condition, prefix_length in (has_prefix, 2), (z3.Not(has_prefix), 0):
        if path := state.branch(condition):
            yield path, bv64(prefix_length)


def prove_bool_result(state, condition, message):
    """Proves that the result is true if a condition holds, and false otherwise."""
    result = state.result()
    state.prove(result == z3.If(condition, z3.BitVecVal(1, result.size()), 0), message)


def prove_unchanged(state, name):
    """Proves that an object has its bytes of the call."""
    is_unchanged = all(
        value.eq(state.object_bytes[key])
        for key, value in state.entry.object_bytes.items()
        if key[0] == name
    )
    require(is_unchanged, f"{name} is changed")


def prove_object(state, name, *numbers, offset=0):
    """Proves that an object consists of these numbers, from an offset on."""
    for number in numbers:
        count = number.size() // 8
        state.prove_equal(
            state.number_in(name, offset, count), number, f"{name} is wrong at {offset}"
        )
        offset += count


def prove_failure(state, kind, index=bv64(0), character=bv8(0)):
    """Proves what the error is: its kind and, for an invalid character, the character and its
    index, else 0."""
    prove_object(
        state, "error", z3.BitVecVal(kind, 32), z3.ZeroExt(24, character), in_size_t(state, index)
    )


def first_invalid(state):
    """The index of the first invalid character of the text, and the character; or the length and 0,
    and a proof that there is none."""
    digit_ranges = list(state.known_digit_ranges())
    for index, character in list(state.input_bytes.values()):
        is_first = z3.And(
            z3.ULE(state.digits_start, index),
            z3.ULT(index, N),
            are_covered(state.digits_start, index, digit_ranges),
        )
        if state.is_known_digit(character, False) and state.is_valid(is_first):
            return index, character
    prove_digits(state, N)
    return N, bv8(0)


def saturating_add(state, position, count):
    """The sum of a position and a count, or SIZE_MAX if that overflows a size_t."""
    total = simplify(position + count)
    overflows = z3.ULT(in_size_t(state, total), in_size_t(state, position))
    return state.if_then_else(overflows, bv64(size_max(state)), total)
