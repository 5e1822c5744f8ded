"""Queries to z3: whether a goal follows from facts.

If `is_valid` were true of a goal that does not follow, any code could be accepted. It is true only
if z3 answers "unsat", and not if it answers "unknown" or reaches its resource limit. A query may
leave out facts, and rename constants: fewer facts only make a proof harder, and a renamed query may
have been answered before.
"""

import itertools
from collections import namedtuple

import z3

from solver import integers

# The limits of z3's resources ("rlimit"), which do not depend on the load of the machine. A query in
# integers that is not answered quickly seldom is at all, and then bit-vectors are tried.
INTEGER_RLIMIT, BITVECTOR_RLIMIT = 30_000, 40_000_000
# The logic and the conditions of each query with the answer "unsat", for the second solver.
unsat_queries = []
counts = {"queries": 0}
_constants = {}  # all free constants, by their names
# By the id of a term in z3. The terms are kept, so that z3 does not reuse their ids.
_free_constants_by_id = {}
_kept_terms = []
_is_public_by_name = {}  # whether a constant is public; else it is secret


class Rejected(Exception):
    """The code is rejected: a condition is violated, or z3 cannot prove it."""


def require(condition, message):
    """Rejects the code, with a message, unless a condition holds."""
    if not condition:
        raise Rejected(message)


def free_constants(term):
    """The names of the free constants in a term, each once, in the order in which they occur."""
    _kept_terms.append(term)
    return _free_constants_of(term.as_ast(), term.ctx_ref())


def _free_constants_of(ast, context):
    """The same for a term as z3's C functions have it, which are faster: its AST in a context."""
    ast_id, app = z3.Z3_get_ast_id(context, ast), z3.Z3_to_app(context, ast)
    if ast_id in _free_constants_by_id:
        return _free_constants_by_id[ast_id]
    names = [
        _free_constants_of(z3.Z3_get_app_arg(context, app, index), context)
        for index in range(z3.Z3_get_app_num_args(context, app))
    ]
    if z3.Z3_get_decl_kind(context, z3.Z3_get_app_decl(context, app)) == z3.Z3_OP_UNINTERPRETED:
        constant = z3.BitVecRef(ast)
        name = constant.decl().name()
        is_same = _constants.setdefault(name, constant).sort() == constant.sort()
        require(is_same, f"two constants {name}")
        names = [[name]]
    _free_constants_by_id[ast_id] = tuple(dict.fromkeys(itertools.chain(*names)))
    return _free_constants_by_id[ast_id]


def _constant(name, bits, is_public):
    """A free constant with its taint, which must not change."""
    require(
        _is_public_by_name.setdefault(name, is_public) == is_public, f"{name} is public and secret"
    )
    return z3.BitVec(name, bits)


def public(name, bits):
    """A constant on which branches and addresses may depend: a length, an address, a number of
    iterations."""
    return _constant(name, bits, True)


def secret(name, bits):
    """A constant on which no branch and no address may depend: a byte of the input, or an unknown
    byte of memory."""
    return _constant(name, bits, False)


def is_public_name(name):
    """Whether the constant of this name is public."""
    return _is_public_by_name.get(name, False)


def is_public(term):
    """Whether a term depends on public constants alone: it is not tainted by a secret."""
    return all(map(is_public_name, free_constants(term)))


def conjuncts(term):
    """Conditions whose conjunction is equivalent to this one."""
    term = z3.simplify(term)
    if z3.is_true(term):
        return []
    if z3.is_and(term):
        return [part for child in term.children() for part in conjuncts(child)]
    if z3.is_not(term) and z3.is_or(term.arg(0)):
        return [part for child in term.arg(0).children() for part in conjuncts(z3.Not(child))]
    if z3.is_eq(term) and z3.is_bv_value(term.arg(1)):
        return _conjuncts_of_equation(term, *term.children())
    return [term]


def _conjuncts_of_equation(term, left, right):
    """The conjuncts of an equation of a term and a number, which is on the right."""
    if z3.is_app_of(left, z3.Z3_OP_ITE):
        condition, then_term, else_term = left.children()
        are_numbers = z3.is_bv_value(then_term) and z3.is_bv_value(else_term)
        if are_numbers and then_term.eq(right) != else_term.eq(right):
            return conjuncts(condition if then_term.eq(right) else z3.Not(condition))
    zeros = _zeros(left) if right.as_long() == 0 else ()
    return [part == 0 for part in zeros] if len(zeros) > 1 else [term]


def _zeros(term):
    """Parts of a term, which are all 0 if and only if the term is."""
    if z3.is_app_of(term, z3.Z3_OP_BOR) or z3.is_app_of(term, z3.Z3_OP_CONCAT):
        return [part for child in term.children() for part in _zeros(child)]
    return [] if z3.is_bv_value(term) and term.as_long() == 0 else [term]


# A condition that is assumed, with the names of its free constants.
Fact = namedtuple("Fact", "term constants is_public")


def facts_of(condition):
    """The conjuncts of a condition as facts."""
    return [Fact(part, {*free_constants(part)}, is_public(part)) for part in conjuncts(condition)]


def relevant(facts, goal, distance=None):
    """The facts in a goal's cone of influence: those that share constants with it, directly or
    through a chain of other facts, which a distance limits. At the distance 0 a fact has no other
    constants than the goal. For a public goal only public facts are relevant."""
    facts = [fact for fact in facts if fact.is_public] if is_public(goal) else facts
    reached = set(free_constants(goal))
    if distance == 0:
        return [fact.term for fact in facts if fact.constants <= reached]
    previous = None
    while reached != previous and distance != 0:
        previous = reached
        distance = distance and distance - 1
        adjacent = [fact.constants for fact in facts if not previous.isdisjoint(fact.constants)]
        reached = reached.union(*adjacent)
    return [fact.term for fact in facts if not reached.isdisjoint(fact.constants)]


def _canonical(facts):
    """The facts with canonical names of constants: numbers in the order in which they occur."""
    used = map(_constants.get, dict.fromkeys(itertools.chain(*map(free_constants, facts))))
    renaming = [(old, z3.Const(f"x{number}", old.sort())) for number, old in enumerate(used)]
    return [z3.simplify(z3.substitute(fact, *renaming)) for fact in facts]


def _solve(logic, conditions, rlimit):
    """The result of a query."""
    solver = z3.SolverFor(logic)
    solver.set("rlimit", rlimit)
    solver.add(*conditions)
    result = solver.check()
    counts["queries"] += 1
    if result == z3.unsat:
        unsat_queries.append((logic, conditions))
    return result


def is_unsatisfiable_in_integers(conditions):
    """Whether integer conditions are unsatisfiable together."""
    return _solve("QF_LIA", conditions, INTEGER_RLIMIT) == z3.unsat


def _memoized(query):
    """A query whose results are remembered, by the ids of the facts in z3. The facts are kept, so
    that z3 does not reuse their ids."""
    results = {}

    def memoized(facts, *rest):
        key = tuple(fact.get_id() for fact in facts)
        if key not in results:
            results[key] = facts, query(facts, *rest)
        _, result = results[key]
        return result

    return memoized


@_memoized
def _as_integer_facts(facts):
    """The facts translated to integers, or None if not all are linear. Most queries extend a list
    of facts that was translated before."""
    if not facts:
        return integers.Facts(is_unsatisfiable_in_integers)
    previous = _as_integer_facts(facts[:-1])
    return previous and previous.with_fact(facts[-1])


@_memoized
def is_unsatisfiable(facts):
    """Whether conditions are unsatisfiable together."""
    return _is_unsatisfiable(_canonical(facts), all(map(is_public, facts)))


@_memoized
def _is_unsatisfiable(facts, are_public):
    """The same of conditions with canonical names, so that queries that differ in names alone are
    solved once. Sums of many bits are hard as bit-vectors and easy as integers, masks are the other
    way round."""
    integer_facts = _as_integer_facts(facts) if are_public else None
    result = z3.unknown
    if integer_facts:
        conditions = [*integer_facts.ranges.values(), *integer_facts.conditions]
        result = _solve("QF_LIA", conditions, INTEGER_RLIMIT)
    if result == z3.unknown:
        result = _solve("QF_BV", facts, BITVECTOR_RLIMIT)
    return result == z3.unsat


def is_valid(facts, goal, distance=None):
    """Whether a goal follows from facts: each of its conjuncts from the relevant facts, within a
    distance, if one is given."""
    # At the distance 0 few facts are relevant, so that is tried first.
    distances = (0, distance) if distance else (None,)

    def follows(conjunct):
        return any(
            is_unsatisfiable([*relevant(facts, conjunct, tried), z3.Not(conjunct)])
            for tried in distances
        )

    return all(map(follows, conjuncts(goal)))


def all_values(facts, term, limit):
    """All values that a term has where the facts hold. There may be at most so many. Models only
    suggest values: that there are no others is proved afterwards."""
    solver = z3.SolverFor("QF_BV")
    solver.set("rlimit", BITVECTOR_RLIMIT)
    solver.add(*relevant(facts, term == 0))
    known = []
    while len(known) < limit and solver.check() == z3.sat:
        known.append(solver.model().eval(term, True).as_long())
        solver.add(term != known[-1])
    is_one_of_them = z3.Or(*[term == value for value in known])
    require(is_valid(facts, is_one_of_them), "a number may have too many values")
    return known
