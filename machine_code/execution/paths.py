"""Symbolic execution: runs a function on all inputs, along each path, and proves the obligations of
each loop header, branch and return.

A loop is proved by induction: the invariant at its header after k iterations is proved where the
loop is entered, for k = 0; and it is assumed for any k, and proved for k + 1 where a path comes back
to the header. If this were wrong, code could be accepted that is wrong after some iterations, or
that does not terminate.
"""

from collections import namedtuple

import z3

from contracts.functions import N
from execution.terms import bv64, fresh_public, fresh_secret, simplify
from solver.queries import Rejected, require

MAX_STEPS = 2000  # instructions on a path from one loop header to the next
Branch = namedtuple("Branch", "condition target")  # what a conditional jump returns


class Loop:
    """A loop that was entered in some state, and its invariant after any number of iterations, from
    the one that was inferred."""

    def __init__(self, entry, invariant):
        self.entry, self.iterations = entry, fresh_public(64)  # any number of iterations
        # The loop terminates. The bound is so small that the number of iterations does not overflow.
        bound = invariant.bound(entry)
        entry.prove(z3.ULT(bound, N + MAX_STEPS), "the number of iterations")
        self.guards = [z3.ULE(self.iterations, bound), *invariant.guards(self.iterations)]
        # The registers to which an iteration adds a constant, which may be 0.
        self.general = {
            name: entry.general[name] + step * self.iterations
            for name, step in invariant.steps.items()
        }
        self.unchanged_vectors = list(invariant.unchanged_vectors)
        self.is_upper_half_clean = bool(invariant.is_upper_half_clean)
        # Up to where the input is read, and the output is written.
        self.read_end = invariant.term_after(invariant.read_end, self.iterations)
        self.written_end = invariant.term_after(invariant.written_end, self.iterations)

    def prove_invariant(self, state, k):
        """Proves the invariant in a state that is at the loop header after k iterations."""

        def after_k(term):
            return simplify(z3.substitute(term, (self.iterations, k)))

        for guard in map(after_k, self.guards):
            state.prove(guard, f"loop invariant: {guard}")
        for name, expected in self.general.items():
            state.prove(state.general[name] == after_k(expected), f"loop invariant: {name}")
        for number in self.unchanged_vectors:
            for value, entry_value in zip(state.vectors[number], self.entry.vectors[number]):
                state.prove(value == entry_value, f"loop invariant: vector {number}")
        is_stack_unchanged = all(
            key in state.object_bytes and state.object_bytes[key].eq(value)
            for key, value in self.entry.object_bytes.items()
        )
        require(is_stack_unchanged, "loop invariant: the stack")
        require(
            state.return_targets == self.entry.return_targets,
            "loop invariant: the return addresses of calls",
        )
        require(
            state.is_upper_half_clean or not self.is_upper_half_clean,
            "loop invariant: vzeroupper is missing",
        )
        # So the difference, which `havoc` takes, does not wrap around.
        state.prove(
            z3.ULE(state.digits_start, after_k(self.read_end)),
            "loop invariant: less is read than what comes before the digits",
        )
        state.contract.prove_loop_invariant(
            state, after_k(self.read_end), after_k(self.written_end)
        )

    def havoc(self):
        """The state at the loop header after any number of iterations: anything that satisfies the
        invariant."""
        state = self.entry.copy()
        state.general = {name: fresh_secret(64) for name in state.general}
        state.general |= {name: simplify(term) for name, term in self.general.items()}
        state.vectors = {
            number: data if number in self.unchanged_vectors else [fresh_secret(8) for _ in data]
            for number, data in state.vectors.items()
        }
        for guard in self.guards:
            state.assume(guard)
        state.reads = [(state.digits_start, simplify(self.read_end - state.digits_start))]
        # What was written before the loop stays written.
        state.writes = [*state.writes, (bv64(0), self.written_end)]
        state.reads_of_digits = dict.fromkeys(state.reads, True)
        state.flags = None
        state.steps = 0
        state.loops_by_header = state.loops_by_header | {state.address: self}
        state.current_loop = self
        state.is_upper_half_clean = self.is_upper_half_clean
        return state


def step(code, state):
    """Runs one instruction, and returns the states after it; none after a return."""
    if state.address in code.callees:
        return call_by_contract(state, code.callees[state.address])
    instruction = code.instruction(state.address)
    require(instruction, "control flow leaves the code")
    state.steps += 1
    require(state.steps < MAX_STEPS, "a loop without an invariant")
    require(not instruction.rejected, instruction.rejected)
    require(instruction.mnemonic in code.processor.HANDLERS, "an unsupported instruction")
    state.next = instruction.address + instruction.size
    handler = code.processor.HANDLERS[instruction.mnemonic]
    try:
        # None, a conditional jump, the targets of an indirect one, a return address, or a target.
        target = handler(state, *instruction.operands)
    except TypeError as error:
        # More or fewer operands than the semantics have, or of another kind.
        raise Rejected(f"unsupported operands: {error}") from None
    state.invalidate_below_sp()
    if isinstance(target, Branch):
        return [*branches(state, target)]
    if isinstance(target, list):
        paths = (state.branch(condition, address) for condition, address in target)
        return [*filter(None, paths)]
    if z3.is_expr(target):
        return follow_return(state, target)
    state.address = state.next if target is None else target
    return [state]


def branches(state, branch):
    """The feasible states after a conditional jump. The path that no valid input takes is
    declassified: its time may depend on the input."""
    truth = state.truth_for_valid_input(branch.condition)
    taken = True, branch.condition, branch.target
    not_taken = False, z3.Not(branch.condition), state.next
    for is_taken, condition, target in taken, not_taken:
        if path := state.branch(condition, target):
            path.is_declassified |= truth is not None and is_taken is not truth
            yield path


def follow_return(state, address):
    """The states after a return: at the instruction after a call, or none, if it leaves the
    function. A tail call of an argument comes here, too."""
    name = address.decl().name()
    if name in state.contract.callable_arguments:
        return call_by_contract(state, state.contract.callable_arguments[name])
    if name in state.return_targets:
        state.address = state.return_targets.pop(name)
        return [state]
    require(name == "return", "a return to a wrong address")
    state.prove_abi_at_return()
    state.contract.prove_postcondition(state)
    return []


def call_by_contract(state, summary):
    """The states after a call of a function that is not entered: what its contract says, each path
    with a possible result."""
    state.prove_call()
    after = []
    paths = list(summary(state))
    if not paths:
        raise ValueError("the contract of a callee leaves no state")
    for path, *results in paths:
        address = path.return_address()
        path.havoc_registers()
        path.current_loop = None
        path.put_results(results)
        path.invalidate_below_sp()
        after += follow_return(path, address)
    return after


def run(code, initial_states, loop_headers, infer_invariant):
    """Runs a function from each of some states, along all paths. Returns the number of paths."""
    path_count = 0
    worklist = list(initial_states)
    try:
        while worklist:
            state = worklist.pop()
            if state.address in loop_headers:
                if loop := state.loops_by_header.get(state.address):
                    # So the number of instructions grows at most linearly with the lengths.
                    require(state.current_loop is loop, "a loop or a call in a loop")
                    loop.prove_invariant(state, simplify(loop.iterations + 1))
                    path_count += 1
                    continue
                # A loop without an invariant is unrolled, as far as MAX_STEPS allows.
                if invariant := infer_invariant(code, state):
                    loop = Loop(state, invariant)
                    loop.prove_invariant(state, bv64(0))
                    state = loop.havoc()
            after = step(code, state)
            path_count += not after
            worklist += after
    except Rejected as rejected:
        raise Rejected(f"{code.name_at(state.address)}: {rejected}") from None
    return path_count
