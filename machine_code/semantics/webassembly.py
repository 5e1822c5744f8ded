"""WebAssembly: the semantics of each instruction, and calls.

Each slot of the operand stack is a register, whose name has its height; so is each local. An i32 is
a term of 64 bits, whose upper half is ignored. test_webassembly.py compares each form with
Node.
"""

from operator import add, and_, eq, mul, ne, or_, sub

import z3

from execution.paths import Branch
from execution.state import State as CommonState
from execution.terms import bv64, bv8, bytes_le, concat_le, simplify
from reading.module import FUNCTION_SPACING
from semantics.lanes import (
    MAXIMUM,
    MINIMUM,
    SHIFT_LEFT,
    lanes,
    map_lanes,
    saturate_to_bytes,
    table_lookup,
    zero_extended,
)
from semantics.webassembly_blocks import instructions  # as each processor has it
from solver.queries import Rejected, free_constants, is_public, is_public_name, public, require

MEMORY_SIZE = 1 << 16  # one page


class State(CommonState):
    """The globals, and the locals and operands of the functions that are active."""

    SP = "global 0"
    STACK_SIZE = 4096
    CALLEE_STACK_SIZE = CALLER_STACK_SIZE = 0  # A callee with a contract has no stack.
    RETURN_ADDRESS_SIZE = 0
    VECTOR_COUNT, VECTOR_SIZE = 0, 16
    POINTER_SIZE = 4
    GENERAL_REGISTERS = ()
    ARGUMENT_REGISTERS = tuple(f"argument {index}" for index in range(7))
    RESULT_REGISTERS, BOOL_BITS = ("result",), 32
    CALLEE_SAVED = ("global 0",)

    def enter(self):
        """Sets the globals, and the locals of the function."""
        module = self.code.image
        arguments = self.contract.arguments
        self._check_memory_layout(module)
        function = module.code_at(self.address)
        parameters = [4] * len(arguments)
        results = [4] if self.contract.has_result else []
        require(
            (function.parameters, function.results) == (parameters, results), "a wrong signature"
        )
        self.general = {
            f"global {index}": bv64(number) for index, number in enumerate(module.globals)
        }
        self.general["global 0"] = simplify(self.regions["stack"].base + self.STACK_SIZE)
        self.enter_function(function, arguments, public("return", 64))

    def _check_memory_layout(self, module):
        """Checks that the stack, the data segment and the heap follow each other, and assumes that
        buffers lie in the heap."""
        require(len(module.data) == 1, "the module has more than one data segment")
        addresses = [module.globals[0], module.base_address, module.base_address + module.size]
        addresses += [
            module.exported_globals.get(name, -1) for name in ("__data_end", "__heap_base")
        ]
        limits = [*addresses, MEMORY_SIZE]
        require(
            addresses[0] == State.STACK_SIZE and limits == sorted(limits),
            f"the stack, the data and `__heap_base` lie at {addresses}",
        )
        require(module.mutable_globals == {0}, "a mutable global beside the stack pointer")
        # A callee may get addresses in its caller's stack, too.
        heap_base = 0 if self.contract.is_called_by_contract else addresses[-1]
        for region in self.regions.values():
            lowest = heap_base if region.data is None and region.name != "stack" else 0
            highest = MEMORY_SIZE - region.size
            is_inside = z3.And(z3.UGE(region.base, lowest), z3.ULE(region.base, highest))
            self.assume(
                z3.And(z3.ULE(region.size, MEMORY_SIZE), z3.Or(region.size == 0, is_inside))
            )
        if not self.contract.is_called_by_contract:
            self.assume(self.regions["stack"].base == 0)

    def enter_function(self, function, arguments, return_address):
        """Makes the frame of a function: arguments, locals, which are 0, and a return address."""
        number = function.address // FUNCTION_SPACING
        require(f"return {number}" not in self.general, "a function that calls itself")
        zeros = [[bv8(0)] * 16 if size == 16 else bv64(0) for size in function.locals]
        for index, value in enumerate([*arguments, *zeros]):
            self.put(f"local {number}.{index}", value)
        self.general[f"return {number}"] = return_address

    def pop_frame(self):
        """Removes the frame of the function that runs, and returns its return address."""
        number = self.address // FUNCTION_SPACING
        return_address = self.general.pop(f"return {number}")
        frame = f"local {number}.", f"operand {number}."
        self.general, self.vectors = [
            {name: value for name, value in registers.items() if not name.startswith(frame)}
            for registers in (self.general, self.vectors)
        ]
        return return_address

    # Calls by a contract
    def arguments(self, count):
        """The first `count` arguments, at the first instruction of a function."""
        return [
            self.zero_extended_i32(self.general[self.local_name(index)]) for index in range(count)
        ]

    return_address = pop_frame

    def havoc_registers(self):
        """A callee changes no local or operand of its caller."""

    # Registers: the globals, and the locals and the operand stack of the function that runs
    def local_name(self, number):
        """The name of a local."""
        return f"local {self.address // FUNCTION_SPACING}.{number}"

    def operand_name(self, height):
        """The name of the operand at a height of the operand stack."""
        return f"operand {self.address // FUNCTION_SPACING}.{height}"

    def put(self, name, value):
        """Sets a register to a vector or a number."""
        if isinstance(value, list):
            self.vectors[name] = value
            self.general.pop(name, None)
        else:
            self.general[name] = simplify(value)
            self.vectors.pop(name, None)

    def get(self, name):
        """The value of a register."""
        return self.vectors[name] if name in self.vectors else self.general[name]

    def pop(self, name):
        """Removes a register, and returns its value."""
        return (self.vectors if name in self.vectors else self.general).pop(name)

    def zero_extended_i32(self, term):
        """An i32, zero-extended."""
        extended = simplify(z3.ZeroExt(32, z3.Extract(31, 0, term)))
        return term if extended.eq(term) or self.is_upper_half_zero(term) else extended

    def is_upper_half_zero(self, term):
        """Whether the upper half of a term is 0."""
        return self.is_valid(z3.ULT(term, 1 << 32))

    # Memory
    def _locate(self, address, count, aligned):
        """As in State. An absolute address, which has the base of no region, is one of the data
        segment: it becomes relative to that."""
        if self.regions.keys().isdisjoint(free_constants(address)):
            address = self.code.runtime_address(address)
        return super()._locate(address, count, aligned)


# A handler gets the state, the height of the operand stack, the immediates, and the branch targets.
HANDLERS = {}
# The types of the operands that an instruction pops, and the number of those that it pushes. A type
# is i for an i32, n for an i32 that has to be zero-extended, l for an i64, and v for a v128.
STACK_EFFECTS = {
    "br_if": ("n", 0),
    "br_table": ("n", 0),
    "select": ("iin", 1),
    "local.get": ("", 1),
    "local.set": ("i", 0),
    "local.tee": ("i", 1),
    "global.get": ("", 1),
    "global.set": ("i", 0),
}


def define(name, operand_types, function, result_count=1):
    """Defines an instruction by a function of the state, the immediates and the operands."""

    def handler(state, height, immediates, targets):
        lowest = height - len(operand_types)
        operands = []
        for index, type_ in enumerate(operand_types, lowest):
            operand = state.pop(state.operand_name(index))
            operands.append(state.zero_extended_i32(operand) if type_ == "n" else operand)
        result = function(state, immediates, *operands)
        if result_count:
            state.put(state.operand_name(lowest), result)

    HANDLERS[name] = handler
    STACK_EFFECTS[name] = operand_types, result_count


def define_pure(name, operand_types, function):
    """Defines an instruction by a function of the operands."""
    define(name, operand_types, lambda state, immediates, *operands: function(*operands))


def define_comparison(name, operand_types, condition):
    """Defines an instruction whose result is 1 if a condition on the operands holds, else 0."""
    one, zero = z3.BitVecVal(1, 1), z3.BitVecVal(0, 1)

    def compare(state, immediates, *operands):
        return z3.ZeroExt(63, state.if_then_else(simplify(condition(*operands)), one, zero))

    define(name, operand_types, compare)


# Numbers
def low_half(term):
    """The lower half of a term, as a number of 32 bits."""
    return z3.Extract(31, 0, term)


def shift_count(term, bits):
    """A shift count, which has to be constant, modulo the number of bits."""
    require(z3.is_bv_value(term), "a shift by an unknown count")
    return term.as_long() % bits


define_pure("i32.add", "ii", add)
define_pure("i32.sub", "ii", sub)
define_pure("i32.mul", "ii", mul)
define_pure("i32.and", "ii", and_)
define_pure("i32.or", "ii", or_)
define_pure("i32.shl", "in", lambda a, b: SHIFT_LEFT(a, shift_count(b, 32)))
define_pure("i32.shr_u", "nn", lambda a, b: z3.LShR(a, shift_count(b, 32)))
define_pure("i32.shr_s", "nn", lambda a, b: z3.ZeroExt(32, low_half(a) >> shift_count(b, 32)))
define_pure("i64.shr_u", "ll", lambda a, b: z3.LShR(a, shift_count(b, 64)))
define_pure("i32.wrap_i64", "l", lambda a: a)
define_comparison("i32.eqz", "n", lambda a: a == 0)
define_comparison("i32.eq", "nn", eq)
define_comparison("i32.ne", "nn", ne)
define_comparison("i32.lt_u", "nn", z3.ULT)
define_comparison("i32.le_u", "nn", z3.ULE)
define_comparison("i32.gt_u", "nn", z3.UGT)
define_comparison("i32.ge_u", "nn", z3.UGE)
define_comparison("i32.le_s", "nn", lambda a, b: low_half(a) <= low_half(b))
for _name in ("i32.const", "i64.const"):
    define(_name, "", lambda state, immediates: bv64(immediates[0]))
define("v128.const", "", lambda state, immediates: immediates)


# Variables
def get_variable(name_of):
    """Pushes the value of a local or a global, whose register a function names."""

    def handler(state, height, immediates, targets):
        state.put(state.operand_name(height), state.get(name_of(state, *immediates)))

    return handler


def set_variable(name_of, pop_or_get):
    """Sets a local or a global to the operand on top, which is popped or kept."""

    def handler(state, height, immediates, targets):
        value = pop_or_get(state, state.operand_name(height - 1))
        state.put(name_of(state, *immediates), value)

    return handler


def global_name(state, number):
    """The name of a global."""
    return f"global {number}"


# Control
def br_if(state, height, immediates, targets):
    """A conditional branch."""
    condition = state.zero_extended_i32(state.pop(state.operand_name(height - 1))) != 0
    return Branch(simplify(condition), targets[0])


def br_table(state, height, immediates, targets):
    """A branch by an index; the last target is the default."""
    index = state.zero_extended_i32(state.pop(state.operand_name(height - 1)))
    *labels, default = targets
    require(state.is_declassified or is_public(index), "a branch depends on bytes that are secret")
    cases = [(index == number, target) for number, target in enumerate(labels)]
    return [*cases, (z3.UGE(index, len(labels)), default)]


def select(state, height, immediates, targets):
    """Counts as a branch, since an engine may compile it to one: it runs again on the two paths,
    where the condition is known. The contract may exempt bytes of the input from that."""
    operands = [state.operand_name(height - below) for below in (3, 2, 1)]
    condition = simplify(state.zero_extended_i32(state.get(operands[-1])) != 0)
    is_known = any(state.is_valid(condition == truth) for truth in (True, False))
    if not is_known and not _may_decide_select(state, condition):
        state.next = state.address
        return Branch(condition, state.address)
    then_value, else_value, _ = map(state.pop, operands)
    state.put(operands[0], state.if_then_else(condition, then_value, else_value, is_queried=True))


def _may_decide_select(state, condition):
    """Whether the contract allows that the secrets in a condition decide a `select`."""
    offsets = {byte.decl().name(): offset for offset, byte in state.input_bytes.values()}
    secrets = [name for name in free_constants(condition) if not is_public_name(name)]
    return secrets and all(
        name in offsets and state.contract.may_decide_select(state, offsets[name])
        for name in secrets
    )


def call(state, height, immediates, targets):
    """A call of a function of the module."""
    function = state.code.image.functions[immediates[0]]
    lowest = height - len(function.parameters)
    arguments = [state.pop(state.operand_name(index)) for index in range(lowest, height)]
    state.enter_function(function, arguments, state.symbolic_return_address(state.next))
    return function.address


def return_(state, height, immediates, targets):
    """Passes the result, if there is one, to the caller, and returns."""
    if state.code.image.code_at(state.address).results:
        state.put("result", state.pop(state.operand_name(height - 1)))
    return state.pop_frame()


def trap(state, *operands):
    """`unreachable`: no path may come here."""
    raise Rejected("the module traps")


HANDLERS |= {
    "local.get": get_variable(State.local_name),
    "local.set": set_variable(State.local_name, State.pop),
    "local.tee": set_variable(State.local_name, State.get),
    "global.get": get_variable(global_name),
    "global.set": set_variable(global_name, State.pop),
    "br": lambda state, height, immediates, targets: targets[0],
    "br_if": br_if,
    "br_table": br_table,
    "select": select,
    "call": call,
    # Not an instruction of the module: it follows a call, and pushes the result.
    "result": lambda state, height, *_: state.put(state.operand_name(height), state.pop("result")),
    "return": return_,
    "unreachable": trap,
}


# Loads and stores
def define_load(name, count, function):
    """Defines a load of `count` bytes by a function of them."""

    def load(state, immediates, address):
        [offset] = immediates
        return function(state.load(simplify(address + offset), count))

    define(name, "n", load)


def _load_lane(state, immediates, address, vector):
    """A vector whose lane at an index is a byte of the memory."""
    offset, index = immediates
    return [*vector[:index], *state.load(simplify(address + offset), 1), *vector[index + 1 :]]


def define_store(name, operand_types, function):
    """Defines a store by a function of the value, and of the index of a lane, if there is one."""

    def store(state, immediates, address, value):
        offset, *index = immediates
        state.store(simplify(address + offset), function(value, *index))

    define(name, operand_types, store, 0)


_LOADS = {"i32.load": 4, "i32.load8_u": 1, "i32.load16_u": 2}
_LOADS |= {"i64.load": 8, "i64.load16_u": 2, "i64.load32_u": 4}
for _name, _size in _LOADS.items():
    define_load(_name, _size, lambda data: z3.ZeroExt(64 - 8 * len(data), concat_le(data)))
define_load("v128.load", 16, lambda data: data)
define_load("v128.load64_zero", 8, lambda data: data + [bv8(0)] * 8)
define_load("v128.load8x8_u", 8, zero_extended)
define("v128.load8_lane", "nv", _load_lane)
for _name, _size in {"i32.store": 4, "i32.store8": 1, "i32.store16": 2}.items():
    define_store(_name, "ni", lambda value, size=_size: bytes_le(value)[:size])
# Not in the module: with it, test_webassembly.py stores what other instructions return.
define_store("i64.store", "nl", bytes_le)
define_store("v128.store", "nv", lambda data: data)
for _size in (1, 2, 4, 8):
    _lane = lambda data, index, size=_size: data[size * index :][:size]
    define_store(f"v128.store{8 * _size}_lane", "nv", _lane)


# Vectors
def by_lanes(name, size, function):
    """Defines an instruction by a function of each lane, of `size` bytes."""
    define_pure(name, "vv", lambda a, b: map_lanes(function, size, a, b))


by_lanes("v128.and", 1, and_)
by_lanes("v128.or", 1, or_)
by_lanes("i8x16.add", 1, add)
by_lanes("i8x16.sub", 1, sub)
by_lanes("i8x16.min_u", 1, MINIMUM)
by_lanes("i8x16.max_u", 1, MAXIMUM)
by_lanes("i16x8.mul", 2, mul)
define_pure(
    "i16x8.shr_u", "vn", lambda a, b: map_lanes(lambda x: z3.LShR(x, shift_count(b, 16)), 2, a)
)
define_pure("i16x8.splat", "i", lambda a: bytes_le(a)[:2] * 8)
define_pure("i32x4.splat", "i", lambda a: bytes_le(a)[:4] * 4)
define_pure("i64x2.splat", "l", lambda a: bytes_le(a) * 2)
define_pure("i8x16.swizzle", "vv", table_lookup)
define_pure("i8x16.narrow_i16x8_u", "vv", lambda a, b: saturate_to_bytes(lanes(a + b, 2)))
define_pure("i16x8.extend_low_i8x16_u", "v", lambda a: zero_extended(a[:8]))
define_pure("i16x8.extend_high_i8x16_u", "v", lambda a: zero_extended(a[8:]))
define_comparison("v128.any_true", "v", lambda a: z3.Or(*[value != 0 for value in a]))
define(
    "i8x16.shuffle", "vv", lambda state, immediates, a, b: [(a + b)[index] for index in immediates]
)
