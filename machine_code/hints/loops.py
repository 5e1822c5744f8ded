"""Infers loop invariants from one iteration.

The iteration begins with registers that differ by unknown increments from those at the loop's entry.
What it adds to a register is a step, if it is a constant; and the conditions of the branches that
lead back to the loop header are guards. All of it is proved where it is used (execution/paths.py),
so a wrong invariant is rejected.
"""

import collections
import itertools
import re

import z3

from execution import paths
from execution.terms import bv64, fresh_public, simplify
from semantics.webassembly_blocks import NO_FALL_THROUGH, Operands
from solver.queries import Rejected, free_constants, is_public

# Direct jumps and calls, and instructions that never fall through, on every processor.
DIRECT_JUMP = re.compile(r"j|call|bl?$|b\.|cbn?z|tbn?z")
NEVER_FALLS_THROUGH = ("jmp", "b", "ret", *NO_FALL_THROUGH)


def successors(instruction):
    """The addresses of the instructions that may run after an instruction: its edges in the control
    flow graph, where a call is a jump."""
    operands = instruction.operands
    if isinstance(operands, Operands):
        targets = operands.targets
    else:
        is_jump = DIRECT_JUMP.match(instruction.mnemonic)
        targets = [last.value for last in operands[-1:] if is_jump and last.kind == "immediate"]
    falls_through = instruction.mnemonic not in NEVER_FALLS_THROUGH
    return [instruction.address + instruction.size] * falls_through + targets


def loop_headers(code, start):
    """The targets of back edges, by depth-first search from an address, also in functions that are
    called."""
    headers = set()
    visited = set()
    stack = [(start, frozenset())]
    while stack:
        address, ancestors = stack.pop()
        headers |= {address} & ancestors
        if address in visited or address in code.callees:
            continue
        if instruction := code.instruction(address):
            visited.add(address)
            stack += [(target, ancestors | {address}) for target in successors(instruction)]
    return headers


def addresses_reaching(code, target):
    """The addresses from which a path leads to an address, by search along reversed edges."""
    predecessors = collections.defaultdict(list)
    for instruction in code.instructions.values():
        if instruction.mnemonic in code.processor.HANDLERS:
            for address in successors(instruction):
                predecessors[address].append(instruction.address)
    found = set()
    worklist = [target]
    while worklist:
        new = {*predecessors[worklist.pop()]} - found
        found |= new
        worklist += new
    return found


class Invariant:
    """What holds at a loop header after k iterations: registers, guards, and up to where the input
    is read and the output is written.

    `increments` has the unknown constants by which the registers differed from those at the loop's
    entry when the iteration began that ended in the state `end`.
    """

    def __init__(self, entry, end, increments):
        self.increments = increments
        self.steps = _constant_steps(entry, end, increments)
        self.unchanged_vectors = [
            number
            for number, data in entry.vectors.items()
            if all(value.eq(new) for value, new in zip(data, end.vectors[number]))
        ]
        self.is_upper_half_clean = entry.is_upper_half_clean and end.is_upper_half_clean
        self.read_end, self.written_end = _lowest_offset(end.reads), _lowest_offset(end.writes)
        new_facts = end.facts[len(entry.facts) :]
        # The induction variables are the registers with a constant step that is not 0.
        induction = {self._increment_name(name) for name, step in self.steps.items() if step}
        irregular = {self._increment_name(name) for name in increments if name not in self.steps}
        facts = [
            fact.term
            for fact in new_facts
            if fact.constants & induction and not fact.constants & irregular
        ]
        # Conditions on the registers at the end of an iteration, which also hold at its beginning.
        self.facts = [fact for fact in facts if entry.is_valid(self.term_after(fact, bv64(-1)))]
        equations = {
            name: end.general[name] == value
            for name, value in entry.general.items()
            if name not in self.steps
        }
        equations = {name: equal for name, equal in equations.items() if is_public(equal)}
        if equations:
            self._add_unchanged_registers(equations, entry, new_facts)

    def _increment_name(self, register):
        return self.increments[register].decl().name()

    def _add_unchanged_registers(self, equations, entry, facts):
        """Adds the registers that only the last iteration changes: before it, each has the value of
        the loop's entry, as its equation says."""
        state, k = entry.copy(), fresh_public(64)
        guards = [z3.ULE(k, self.bound(entry)), *self.guards(k)]
        for fact in [*guards, *[self.term_after(fact.term, k) for fact in facts]]:
            state.assume(fact)
        for name, equation in equations.items():
            if state.is_valid(self.term_after(equation, k)):
                self.steps[name] = 0

    def term_after(self, term, k):
        """A term of the registers after k iterations."""
        values = [(self.increments[name], step * k) for name, step in self.steps.items() if step]
        return simplify(z3.substitute(term, *values))

    def guards(self, k):
        """What the branches say at the header after k iterations."""
        return [self.term_after(fact, k - 1) for fact in self.facts]

    def bound(self, entry):
        """The greatest number of iterations: from a register that counts down from more than 0, or
        from the comparison of two terms whose difference counts down or up."""
        guarded = {name for fact in self.facts for name in free_constants(fact)}
        for name, step in self.steps.items():
            initial = entry.general[name]
            is_guarded = self._increment_name(name) in guarded
            if step < 0 and is_guarded and not z3.is_true(simplify(initial <= 0)):
                return simplify(z3.UDiv(initial, bv64(-step)))
        for left, right in itertools.chain(*map(_compared_terms, self.facts)):
            first, second = [self.term_after(left - right, bv64(k)) for k in (-1, 0)]
            step = simplify(second - first)
            if z3.is_bv_value(step) and step.as_long():
                step = step.as_signed_long()
                return simplify(z3.UDiv(first if step < 0 else -first, bv64(abs(step))))
        raise Rejected("no loop bound is found: no register or difference counts down")


def _constant_steps(entry, end, increments):
    """What an iteration adds to each register, if that is a constant."""
    steps = {}
    for name, value in entry.general.items():
        step = simplify(end.general[name] - value - increments[name])
        if z3.is_bv_value(step):
            steps[name] = step.as_signed_long()
    return steps


def _compared_terms(fact):
    """The pairs of terms of 64 bits that a condition compares."""
    children = fact.children()
    if len(children) == 2 and z3.is_bv(children[0]) and children[0].size() == 64:
        return [children]
    return [pair for child in children for pair in _compared_terms(child)]


def _lowest_offset(accesses):
    """The lowest offset of some reads or writes, among those with a constant distance to the first
    one; 0 if there are none."""
    if not accesses:
        return bv64(0)
    first, _ = accesses[0]
    distances = [simplify(offset - first) for offset, _ in accesses]
    constant = [distance for distance in distances if z3.is_bv_value(distance)]
    return simplify(first + min(distance.as_signed_long() for distance in constant))


class Unproved:
    """A mixin for a state whose obligations are not proved: the actual proof comes later."""

    def prove(self, goal, message):
        """Proves nothing."""

    def truth_for_valid_input(self, condition):
        """Declassifies nothing."""

    def is_upper_half_zero(self, term):
        return True

    def store(self, address, data, aligned=False):
        if "output" in free_constants(simplify(address)):
            self.writes.append((simplify(address - self.regions["output"].base), len(data)))
        else:
            super().store(address, data, aligned)

    def prove_abi_at_return(self):
        raise Rejected("an iteration that leaves the function")


class Directed(Unproved):
    """A mixin for a state that follows a given path: each branch is feasible."""

    def branch(self, condition, address=None):
        return self.assuming(condition, address)


def _at_header(entry, mixin, increments):
    """A state where an iteration begins, with registers that differ from the entry's by
    increments."""
    state = type(mixin.__name__, (mixin, type(entry)), {})()
    state.__dict__ = entry.copy().__dict__ | {"reads": [], "writes": []}
    state.general = {
        name: simplify(value + increments[name]) for name, value in entry.general.items()
    }
    return state


def _first_iteration(code, entry):
    """The addresses on a path from a loop header back to it, and the state there; or None, if no
    path is found."""
    no_increments = {name: bv64(0) for name in entry.general}
    worklist = [(_at_header(entry, Unproved, no_increments), ())]
    leading_back = addresses_reaching(code, entry.address)
    while worklist:
        # Paths that can come back to the header are followed first.
        worklist.sort(key=lambda item: item[0].address in leading_back)
        state, path = worklist.pop()
        if path and state.address == entry.address:
            return path, state
        try:
            worklist += [(after, (*path, after.address)) for after in paths.step(code, state)]
        # Nothing is proved here, so an access outside of a table may be run. The actual proof
        # rejects it.
        except (Rejected, IndexError):
            pass
    return None


def infer_invariant(code, entry):
    """The invariant at the loop header that a state has come to, or None. The first iteration finds
    a path back to the header, and the registers that change. A second one takes that path again,
    with unknown increments of these registers.
    """
    if not (first := _first_iteration(code, entry)):
        return None
    path, end = first
    increments = {
        name: bv64(0) if end.general[name].eq(value) else fresh_public(64)
        for name, value in entry.general.items()
    }
    state = _at_header(entry, Directed, increments)
    for address in path:
        state = next(after for after in paths.step(code, state) if after.address == address)
    return Invariant(entry, state, increments)
