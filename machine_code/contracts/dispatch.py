"""The contracts of the dispatchers on x86-64 (rust/src/asm/dispatch.s), which jump to the kernel for
the CPU, and of the wrappers of functions of const_hex.h (c/asm/dispatch.S), which pass a local error
to the wrapped function where `error` is NULL.

The arguments are arbitrary: they arrive unchanged at the callee, except for a NULL error, and the
result is the callee's. If a contract were weaker, a program could run a kernel that its CPU does not
support, or a function with wrong arguments.
"""

import functools

import z3

from contracts.functions import Function
from contracts.names import FUNCTIONS, KERNELS, WITH_ERROR
from execution.terms import bv64, bytes_le, fresh_secret
from semantics.x86_64 import reported
from solver.queries import public, require, secret

# The feature bits of x86-64-v2 in the x86-64 psABI, and those that x86-64-v3 adds: the leaf of
# `cpuid`, the register, and the bits.
FEATURES_OF_V2 = [
    # SSE3, SSSE3, CMPXCHG16B, SSE4.1, SSE4.2, POPCNT
    (1, "rcx", 1 << 0 | 1 << 9 | 1 << 13 | 1 << 19 | 1 << 20 | 1 << 23),
]
FEATURES_OF_V3 = [
    (1, "rcx", 1 << 12 | 1 << 22 | 1 << 27 | 1 << 28 | 1 << 29),  # FMA, MOVBE, OSXSAVE, AVX, F16C
    (7, "rbx", 1 << 3 | 1 << 5 | 1 << 8),  # BMI1, AVX2, BMI2
    (0x80000001, "rcx", 1 << 5),  # LZCNT
]
# The least values of the greatest basic and extended leaf, which these two leaves of `cpuid` return.
MIN_GREATEST_LEAVES = {0: 7, 0x80000000: 0x80000001}
XCR0_SSE_AVX = 1 << 1 | 1 << 2  # the operating system saves the XMM and the YMM registers


def cpu_has(features):
    """Whether the CPU reports features."""
    return z3.And(
        *[reported("cpuid", leaf, register) & bits == bits for leaf, register, bits in features]
    )


def level_of_cpu():
    """The microarchitecture level of the CPU: 3 for x86-64-v3, if the operating system saves its
    registers, 2 for x86-64-v2, or 1."""
    has_leaves = [
        z3.UGE(reported("cpuid", leaf, "rax"), least) for leaf, least in MIN_GREATEST_LEAVES.items()
    ]
    saves_registers = reported("xgetbv", 0, "rax") & XCR0_SSE_AVX == XCR0_SSE_AVX
    has_v3 = z3.And(cpu_has(FEATURES_OF_V3), *has_leaves, saves_registers)
    level = z3.If(has_v3, bv64(3), 2)
    return z3.If(cpu_has(FEATURES_OF_V2), level, 1)


class ForwardingFunction(Function):
    """A function that forwards its arguments to a callee, and returns the callee's result."""

    level = "dispatch"
    is_in_module = False
    callee_suffixes = ("_nonnull",)  # what follows its own symbol in those of its callees
    is_unrolled = uses_dispatch_byte = is_every_input_valid = True

    def __init__(self, function, parameters):
        self.function = function
        self.symbol = f"const_hex_{function}"
        self.arguments = [secret(f"argument_{name}", 64) for name in parameters.split()]
        self.callee_summaries = {
            suffix: functools.partial(self.summary_of_callee, suffix)
            for suffix in self.callee_suffixes
        }

    def cases(self, state):
        state.callee_result = None
        return [state]

    def summary_of_callee(self, suffix, state):
        """Proves at the call that the callee and the arguments are right. Its result is unknown."""
        require(state.callee_result is None, "more than one call")
        self.prove_callee(state, suffix)
        passed = state.arguments(len(self.arguments))
        for index, (actual, expected) in enumerate(zip(passed, self.arguments)):
            self.prove_argument(state, index, actual, expected)
        state.havoc_arguments(len(self.arguments))
        state.callee_result = fresh_secret(64)
        state.stores_before_call = len(state.dispatch_byte_stores)
        yield state, state.callee_result

    def prove_argument(self, state, index, actual, expected):
        """Proves that an argument of the call is the function's own."""
        state.prove(actual == expected, f"argument {index} is wrong")

    def prove_postcondition(self, state):
        require(state.callee_result is not None, "no call")
        state.prove(state.result(64) == state.callee_result, "the result is not the callee's")
        is_byte_unchanged = len(state.dispatch_byte_stores) == state.stores_before_call
        require(is_byte_unchanged, "a store to the dispatcher's byte after the call")


class KernelDispatcher(ForwardingFunction):
    """A function of C's kernel, which calls the one for this CPU, which has x86-64-v2. The stored
    byte has the level of that kernel, or 0 at first: then the level comes from `cpuid`, and is
    stored. Another thread may store the byte at any time."""

    is_called_by_contract = True
    call_depth = 0
    requires = (cpu_has(FEATURES_OF_V2),)
    callee_suffixes = levels = {"_v2": 2, "_v3": 3}  # microarchitecture levels

    def prove_callee(self, state, suffix):
        """Proves that the callee has the stored level or, if none was stored, that of the CPU."""
        level = self.levels[suffix]
        if not state.dispatch_byte_stores:
            is_stored = z3.Or(*[loaded == level for loaded in state.dispatch_byte_loads])
            return state.prove(is_stored, "the kernel is not the stored one")
        for other in self.levels.values():
            is_not_stored = z3.Or(*[loaded != other for loaded in state.dispatch_byte_loads])
            state.prove(is_not_stored, "a level is stored again")
        for stored in state.dispatch_byte_stores:
            state.prove(stored == level, "the level of another kernel is stored")
        state.prove(level_of_cpu() == level, "the kernel is not the one for this CPU")


class RustKernelDispatcher(KernelDispatcher):
    """A function of Rust's kernel. Its last argument is a pointer to a function in portable code,
    for a CPU without x86-64-v2."""

    requires, levels = (), KernelDispatcher.levels | {"portable": 1}

    def __init__(self, function, parameters):
        super().__init__(function.removeprefix("kernel_"), f"{parameters} portable")
        self.symbol = rf"const_hex_\d+_\d+_\d+_{self.function}"
        self.arguments[-1] = public("portable", 64)
        self.callable_arguments = {
            "portable": functools.partial(self.summary_of_callee, "portable")
        }


class NullErrorWrapper(ForwardingFunction):
    """A function whose last argument, the error, may be NULL. Then the callee gets a local one."""

    def __init__(self, function, parameters, is_null):
        super().__init__(function, parameters)
        self.is_null = is_null
        self.name = "the error is NULL" if is_null else "the error is not NULL"
        self.arguments[-1] = bv64(0) if is_null else public("error", 64)
        self.requires = () if is_null else (public("error", 64) != 0,)

    def stack_sizes(self, state):
        return state.DISPATCHER_STACK_SIZE, state.STACK_SIZE

    def prove_callee(self, state, suffix):
        require(not state.dispatch_byte_stores, "a store to the dispatcher's byte before the call")

    def prove_argument(self, state, index, actual, expected):
        if index < len(self.arguments) - 1 or not self.is_null:
            return super().prove_argument(state, index, actual, expected)
        # The local error lies on the stack, above the arguments of the call. The callee may write
        # to it.
        state.prove(actual & 7 == 0, "the local error is not aligned")
        offset = actual - state.regions["stack"].base
        lowest = state.sp_offset() + state.argument_frame_size(len(self.arguments))
        state.prove(
            z3.UGE(offset, lowest), "the local error is not above the arguments in the stack"
        )
        state.store(actual, bytes_le(fresh_secret(128)))


NULL_ERROR_WRAPPERS = [
    NullErrorWrapper(name, FUNCTIONS[name].parameters, is_null)
    for name in sorted(WITH_ERROR)
    for is_null in (False, True)
]
KERNEL_DISPATCHERS = [
    dispatcher(name, parameters)
    for dispatcher in (KernelDispatcher, RustKernelDispatcher)
    for name, parameters in KERNELS.items()
]
