"""The symbolic state of a machine: registers, memory, and the path condition.

Memory consists of regions at unknown bases: the input, the output, objects such as the stack or an
error, and the file with its constants. An address is a term of 64 bits, and an access has to lie
within one region, whatever the bases are. Objects have a term for each byte, by its offset; a byte
of the input is an unknown constant; the output is never read. If `_locate` or `load` were wrong, an
access outside of a buffer or a wrong byte could be accepted.
"""

import itertools

import z3

from execution.terms import (
    bv64,
    bv8,
    bytes_le,
    concat_le,
    constant_table_entry,
    fresh_public,
    fresh_secret,
    simplify,
)
from solver import quotient_by_ten
from solver.queries import (
    Rejected,
    all_values,
    facts_of,
    free_constants,
    is_public,
    is_unsatisfiable,
    is_valid,
    public,
    relevant,
    require,
    secret,
)


class Region:
    """Some bytes of memory at an unknown base that is a multiple of `align`. Only the region of a
    file's constants has `data`. The names "input", "output" and "dispatch byte" are special; each
    other region is an object, whose bytes the state knows.
    """

    def __init__(self, name, size, align=1, data=None, is_writable=True):
        self.name = name
        self.size = size
        self.align = align
        self.data = data
        self.base = public(name, 64)
        self.is_writable = is_writable and data is None and name != "input"
        self.is_object = data is None and name not in ("input", "output", "dispatch byte")


# The byte in which a dispatcher stores the microarchitecture level. It keeps its value between calls.
DISPATCH_BYTE = Region("dispatch byte", bv64(1))
MAX_VALUES = 64  # of the offset of a constant, or of an indirect jump's target


class State:
    """The symbolic state before an instruction. The subclass of a processor adds its registers, and
    which of them are the stack pointer, the arguments, the result, or callee-saved."""

    CALLEE_SAVED_VECTORS = {}  # how many of the lowest bytes, by the number of the vector
    POINTER_SIZE = 8

    # How distant from a goal the facts in a query may be, or None (see `queries.relevant`).
    fact_distance = None
    flags = None  # conditions by their names, such as "carry"; None where they are undefined
    # Whether the upper halves of the YMM registers are zero, so that `vzeroupper` is not needed.
    is_upper_half_clean = True
    digits_start = bv64(0)  # the index in the input at which the digits begin, after a prefix
    pending = None  # the first digit of a byte, which a decoder keeps for the next chunk
    # The last loop that was entered, unless a function was called since by its contract, and the
    # number of instructions since its header.
    current_loop, steps = None, 0
    # Whether branches and addresses may depend on secrets: the input is known to be invalid.
    is_declassified = False

    def __init__(self):
        self.facts = []  # the path condition
        # The general registers, by their names, and the bytes of each vector register, by its number.
        self.general, self.vectors = {}, {}
        self.regions = {}  # by their names
        self.object_bytes = {}  # the bytes of objects, by the name of the region and the offset
        # Of each offset of the input that was read, the offset and the unknown byte, by the id of the
        # offset in z3.
        self.input_bytes = {}
        # The offset and the size of each read of the input and of each write to the output.
        self.reads, self.writes = [], []
        # Whether a read is of digits alone. Two keys are the same only if their terms are.
        self.reads_of_digits = {}
        self.dispatch_byte_loads, self.dispatch_byte_stores = [], []  # the values
        # The return addresses of calls, by the names of the constants that stand for them.
        self.return_targets = {}
        self.loops_by_header = {}  # the loops that were entered, by the address of the header

    def start(self, code, contract):
        """The state at the call of a function: nothing is known of registers and objects, except
        for the arguments. A function that others call by its contract has less stack."""
        self.code = code
        self.contract = contract
        self.address = code.start  # of the instruction that runs next
        self.fact_distance = contract.fact_distance
        self.is_declassified = contract.is_declassified
        self.STACK_SIZE, self.CALLEE_STACK_SIZE = contract.stack_sizes(self)
        stack_arguments = contract.arguments[len(self.ARGUMENT_REGISTERS) :]
        first_argument = self.STACK_SIZE + self.RETURN_ADDRESS_SIZE
        stack = Region("stack", bv64(first_argument + 8 * len(stack_arguments)), 16)
        # Some regions depend on the size of a pointer.
        regions = [
            region(self.POINTER_SIZE) if callable(region) else region for region in contract.regions
        ]
        self.regions = {region.name: region for region in (*regions, stack, code.constants)}
        for region in self.regions.values():
            self.assume(region.base & region.align - 1 == 0)
        self.general = {name: secret(name, 64) for name in self.GENERAL_REGISTERS}
        self.general |= dict(zip(self.ARGUMENT_REGISTERS, contract.arguments))
        for number in range(self.VECTOR_COUNT):
            self.vectors[number] = [
                secret(f"v{number}_{index}", 8) for index in range(self.VECTOR_SIZE)
            ]
        for region in regions:
            if region.is_object:
                size = region.size.as_long()
                data = [secret(f"{region.name}_{offset}", 8) for offset in range(size)]
                self.put_object_bytes(region.name, 0, data)
        for index, argument in enumerate(stack_arguments):
            self.put_object_bytes("stack", first_argument + 8 * index, bytes_le(argument))
        self.enter()
        self.entry = self.copy()  # the state at the call

    def copy(self):
        """A state that can change without this one; terms are shared."""
        other = object.__new__(type(self))
        other.__dict__ = {
            name: value.copy() if type(value) in (dict, list) else value
            for name, value in self.__dict__.items()
        }
        return other

    # The path condition
    def assume(self, condition):
        """Adds a condition to the path condition."""
        self.facts += facts_of(condition)

    def is_valid(self, goal):
        """Whether a goal follows from the path condition."""
        return is_valid(self.facts, goal, self.fact_distance)

    def prove(self, goal, message):
        """Rejects the code, with a message, unless a goal follows from the path condition."""
        require(self.is_valid(goal), message)

    def branch(self, condition, address=None):
        """This state where a condition holds, perhaps at another address, or None if that path is
        infeasible."""
        return None if self.is_valid(z3.Not(condition)) else self.assuming(condition, address)

    def assuming(self, condition, address=None):
        """This state where a condition is assumed, perhaps at another address."""
        other = self.copy()
        other.assume(condition)
        other.address = self.address if address is None else address
        return other

    def valid_input_facts(self):
        """The facts that the input is valid, as far as it was read."""
        facts = []
        for condition in self.contract.validity_conditions(self):
            facts += facts_of(condition)
        return facts

    def if_then_else(self, condition, then_term, else_term, is_queried=False):
        """The term that a condition selects. Where the condition is public, or `is_queried` asks for
        it, a query may find that only one of the two terms is possible."""
        if is_queried or self.is_declassified or is_public(condition):
            for term, path in (then_term, condition), (else_term, z3.Not(condition)):
                if self.is_valid(path):
                    return term
        return simplify(z3.If(condition, then_term, else_term))

    def truth_for_valid_input(self, condition):
        """Whether a condition is true for all valid inputs, or false for all; None where the condition
        is public. If it depends on a secret, the branch is not constant-time."""
        if self.is_declassified or is_public(condition):
            return None
        facts = self.facts + self.valid_input_facts()
        goals = (True, condition), (False, z3.Not(condition))
        for truth, goal in goals:
            if is_valid(facts, goal):
                return truth
        raise Rejected("a branch depends on bytes that are secret")

    # Products
    def _quotient_and_low_bits(self, number):
        """The quotient of a number by ten, and the three bits below it in the upper half of the
        product. The lemma about them is assumed."""
        quotient, low_bits, lemma = quotient_by_ten.quotient_of(simplify(number))
        self.assume(lemma)
        return quotient, low_bits

    def divided_by_ten(self, number):
        """The quotient of a number of 64 bits by ten, rounded down."""
        quotient, _ = self._quotient_and_low_bits(number)
        return simplify(z3.ZeroExt(3, quotient))

    def product(self, a, b):
        """The product of two numbers of 64 bits, which has 128."""
        is_by_factor = z3.is_bv_value(b) and b.as_long() == quotient_by_ten.FACTOR
        if is_by_factor and not z3.is_bv_value(simplify(a)):
            return simplify(z3.Concat(*self._quotient_and_low_bits(a), a * b))
        return simplify(z3.ZeroExt(64, a) * z3.ZeroExt(64, b))

    # Memory
    def address_of(self, operand):
        """The effective address of a memory operand: registers by their scales, and an offset."""
        terms = [self.general[name] * scale for name, scale in operand.terms]
        return simplify(sum(terms, bv64(operand.offset)))

    def _locate(self, address, count, aligned):
        """The region of an access, and its offset there. Proves that the access is in bounds, and
        that the address is public."""
        address = simplify(address)
        is_allowed = self.is_declassified or is_public(address)
        require(is_allowed, "an address depends on bytes that are secret or unknown")
        bases = [name for name in self.regions if name in free_constants(address)]
        require(len(bases) == 1, f"an address in {bases}: {address}")
        region = self.regions[bases[0]]
        offset = simplify(address - region.base)
        self.prove(
            z3.And(z3.UGE(region.size, count), z3.ULE(offset, region.size - count)),
            f"an access may lie outside of {region.name}: {offset}",
        )
        is_aligned = not aligned or self.is_valid(address & count - 1 == 0)
        require(is_aligned, "an access may be misaligned")
        may_be_dispatch_byte = region is self.code.constants and self.contract.uses_dispatch_byte
        if may_be_dispatch_byte and self.code.is_dispatch_byte(offset, count):
            region = DISPATCH_BYTE
        return region, offset

    def load(self, address, count, aligned=False):
        """The bytes that a load reads."""
        region, offset = self._locate(address, count, aligned)
        if region.data is not None:
            return self._load_constants(region, offset, count)
        if region.name == "input":
            self.reads.append((offset, count))
            return [self.byte_of_input(offset + index) for index in range(count)]
        if region.name == "dispatch byte":
            # Another thread may have written it since it was read before.
            self.dispatch_byte_loads.append(fresh_public(8))
            return self.dispatch_byte_loads[-1:]
        require(region.is_object, f"{region.name} is read")
        start = self._constant_offset(region, offset)
        data = [self.object_bytes.get((region.name, start + index)) for index in range(count)]
        require(None not in data, "an uninitialized byte of the stack is read")
        return data

    def _load_constants(self, region, offset, count):
        """Bytes of constants: of a table, if the offset is secret, or else at all possible
        offsets."""
        if count == 1 and not is_public(offset):
            return [self._load_from_table(region, offset)]
        data = None
        for value in all_values(self.facts, offset, MAX_VALUES):
            candidate = [bv8(number) for number in region.data.read_constants(value, count)]
            require(
                len(candidate) == count, "an address without a constant, or one that is written"
            )
            if data:
                candidate = [z3.If(offset == value, *pair) for pair in zip(candidate, data)]
            data = candidate
        return list(map(simplify, data))

    def _load_from_table(self, region, offset):
        """The byte at a secret offset, in a table of at most 256 bytes."""
        # A heuristic for where the table begins: the offset where all unknown constants are 0.
        solver = z3.Solver()
        solver.check()
        start = solver.model().eval(offset, True).as_long()
        index = simplify(offset - start)
        table = region.data.read_constants(start, 256)
        self.prove(
            z3.ULT(index, len(table)), "an index beyond a table, or a table that may be written"
        )
        return constant_table_entry(table.ljust(256, b"\0"), z3.Extract(7, 0, index))

    def indirect_targets(self, address):
        """The targets of an indirect jump, each with the condition under which it is taken; or the
        address, if it is an argument that may be called."""
        require(
            self.is_declassified or is_public(address), "a jump depends on bytes that are secret"
        )
        if address.decl().name() in self.contract.callable_arguments:
            return address
        require("constants" in free_constants(address), "an unknown jump target")
        offset = simplify(address - self.code.constants.base)
        return [
            (offset == value, self.code.image.base_address + value)
            for value in all_values(self.facts, offset, MAX_VALUES)
        ]

    def store(self, address, data, aligned=False):
        """Stores bytes. The contract decides what may be written to the output."""
        region, offset = self._locate(address, len(data), aligned)
        require(region.is_writable, f"{region.name} is written")
        if region.is_object:
            self.put_object_bytes(region.name, self._constant_offset(region, offset), data)
        elif region.name == "dispatch byte":
            self.dispatch_byte_stores += data
        else:
            self.contract.prove_store(self, offset, data)
            self.writes.append((offset, len(data)))

    def put_object_bytes(self, name, offset, data):
        """Sets bytes of an object."""
        self.object_bytes |= {(name, offset + index): value for index, value in enumerate(data)}

    def number_in(self, name, offset, count):
        """The number that some bytes of an object make."""
        return concat_le([self.object_bytes[name, offset + index] for index in range(count)])

    def sp_offset(self):
        """The offset of the stack pointer in the stack, which has to be constant."""
        offset = simplify(self.general[self.SP] - self.regions["stack"].base)
        highest = self.STACK_SIZE + self.RETURN_ADDRESS_SIZE
        is_inside = z3.is_bv_value(offset) and offset.as_long() <= highest
        require(is_inside, "the stack pointer is not in the stack")
        return offset.as_long()

    def _constant_offset(self, region, offset):
        """The offset of an access to an object, as a number."""
        require(z3.is_bv_value(offset), f"an offset in the {region.name} is not constant")
        require(
            region.name != "stack" or offset.as_long() >= self.sp_offset(),
            "an access below the stack pointer",
        )
        return offset.as_long()

    def invalidate_below_sp(self):
        """Forgets what lies below the stack pointer, which a signal handler may overwrite: there is
        no red zone."""
        sp_offset = self.sp_offset()
        self.object_bytes = {
            (name, offset): value
            for (name, offset), value in self.object_bytes.items()
            if name != "stack" or offset >= sp_offset
        }

    # Bytes of the input. Two constants may stand for the same byte, at offsets that may be equal.
    def byte_of_input(self, offset):
        """The unknown byte at an offset in the input."""
        offset = simplify(offset)
        if offset.get_id() not in self.input_bytes:
            self.input_bytes[offset.get_id()] = offset, fresh_secret(8)
        return self.input_bytes[offset.get_id()][1]

    def prove_equal(self, value, expected, message):
        """Proves that two values are equal. Bytes of the input are equal where their offsets are:
        these equations are facts, too."""
        goal_constants = {*free_constants(value == expected)}
        in_goal = [
            (offset, character)
            for offset, character in self.input_bytes.values()
            if goal_constants.issuperset(free_constants(character))
        ]
        facts = self.facts.copy()
        for (offset1, character1), (offset2, character2) in itertools.combinations(in_goal, 2):
            if self.is_valid(offset1 == offset2):
                facts += facts_of(character1 == character2)
        require(is_valid(facts, value == expected, self.fact_distance), message)

    # Digits. Whether a known offset of the input lies in a range takes a query.
    def known_digit_ranges(self):
        """The ranges of the input, by offset and count, that were read and are digits alone."""
        for offset, count in self.reads:
            if (offset, count) not in self.reads_of_digits:
                self.reads_of_digits[offset, count] = all(
                    self.is_valid(self.contract.is_digit(self.byte_of_input(offset + index)))
                    for index in range(count)
                )
            if self.reads_of_digits[offset, count]:
                yield offset, count

    def is_known_digit(self, character, is_digit):
        """Whether the facts about a character alone say that it is a digit, or that it is none."""
        goal = self.contract.is_digit(character) == is_digit
        return is_unsatisfiable([*relevant(self.facts, goal, 0), z3.Not(goal)])

    def assuming_digits(self, offset, count, with_known_bytes=True):
        """This state where a range of the input is digits alone, or None if that is infeasible: a
        known non-digit lies outside of the range and, `with_known_bytes`, each byte that is known to
        lie in the range is a digit."""
        other = self.copy()
        offset = simplify(offset)
        count = simplify(count)
        other.reads.append((offset, count))
        other.reads_of_digits[offset, count] = True
        for index, character in self.input_bytes.values():
            is_inside = z3.ULT(index - offset, count)
            if not other:
                return None
            if self.is_known_digit(character, False):
                other = other.branch(z3.Not(is_inside))
            elif (
                with_known_bytes
                and not self.is_known_digit(character, True)
                and other.is_valid(is_inside)
            ):
                other = other.branch(self.contract.is_digit(character))
        return other

    def assuming_non_digit(self, offset):
        """This state where a character of the input is no digit, or None if that is infeasible: it
        lies in no range of digits."""
        other = self.branch(z3.Not(self.contract.is_digit(self.byte_of_input(offset))))
        for start, count in list(self.known_digit_ranges()):
            other = other and other.branch(z3.Not(z3.ULT(offset - start, count)))
        return other

    # Calls
    def symbolic_return_address(self, address):
        """A constant that stands for the return address of a call."""
        token = public(f"return_{address:x}", 64)
        self.return_targets |= {token.decl().name(): address}
        return token

    def prove_abi_at_return(self):
        """Proves what the ABI asks for at a return: the callee-saved registers are preserved."""
        for name in self.CALLEE_SAVED:
            self.prove(self.general[name] == self.entry.general[name], f"{name} is not preserved")
        for number, count in self.CALLEE_SAVED_VECTORS.items():
            saved_bytes = self.entry.vectors[number][:count]
            for value, saved in zip(self.vectors[number], saved_bytes):
                self.prove(value == saved, f"v{number} is not preserved")

    def arguments(self, count):
        """The first `count` arguments, at the first instruction of a function: in registers, and
        then on the stack."""
        in_registers = [self.general[name] for name in self.ARGUMENT_REGISTERS[:count]]
        on_stack = [
            self.number_in("stack", self.sp_offset() + self.argument_frame_size(index), 8)
            for index in range(len(self.ARGUMENT_REGISTERS), count)
        ]
        return in_registers + on_stack

    def result(self, bits=None, number=0):
        """The lowest bits of a result; without `bits` those of a bool, since callers ignore its
        others."""
        register = self.RESULT_REGISTERS[number]
        return simplify(z3.Extract((bits or self.BOOL_BITS) - 1, 0, self.general[register]))

    def prove_call(self):
        """Proves that a callee has enough stack, and that it is aligned."""
        sp_offset = self.sp_offset()
        is_aligned = (sp_offset - self.STACK_SIZE) % 16 == 0
        require(
            sp_offset >= self.CALLEE_STACK_SIZE and is_aligned,
            "the stack of a callee is too small or misaligned",
        )

    def argument_frame_size(self, count):
        """The bytes of the stack that the return address and `count` arguments of a call take."""
        return self.RETURN_ADDRESS_SIZE + 8 * max(0, count - len(self.ARGUMENT_REGISTERS))

    def havoc_arguments(self, count):
        """Havocs the arguments of a call on the stack, which a callee may overwrite."""
        for offset in range(self.RETURN_ADDRESS_SIZE, self.argument_frame_size(count)):
            self.put_object_bytes("stack", self.sp_offset() + offset, [fresh_secret(8)])

    def havoc_registers(self):
        """Havocs the caller-saved registers, which a callee may overwrite."""
        preserved = (*self.CALLEE_SAVED, self.SP)
        self.general = {
            name: value if name in preserved else fresh_secret(64)
            for name, value in self.general.items()
        }
        for number, data in self.vectors.items():
            count = self.CALLEE_SAVED_VECTORS.get(number, 0)
            self.vectors[number] = data[:count] + [fresh_secret(8) for _ in data[count:]]
        self.flags = None

    def put_results(self, results):
        """Sets the results of a call. The bits of a register above a result are unknown."""
        for register, result in zip(self.RESULT_REGISTERS, results):
            result = result if z3.is_expr(result) else z3.BitVecVal(result, self.BOOL_BITS)
            self.general[register] = simplify(
                z3.Extract(63, 0, z3.Concat(fresh_secret(64), result))
            )
