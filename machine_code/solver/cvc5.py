"""A second solver, cvc5, which gets queries in SMT-LIB that z3 has answered with "unsat".

If this were wrong, an error of z3 might not be noticed.
"""

import random
import subprocess

import z3

RLIMIT = 20_000_000  # of cvc5's resources


def to_smt_lib(logic, conditions):
    """A query as a script in SMT-LIB."""
    solver = z3.Solver()
    solver.add(*conditions)
    # Queries about whole vectors take minutes otherwise.
    option = "(set-option :bitblast eager)\n" if logic == "QF_BV" else ""
    return f"{option}(set-logic {logic})\n{solver.to_smt2()}"


def disagreements(queries, sample_size=None):
    """The queries, or those of a random sample, to which cvc5 does not answer "unsat", each with its
    answer."""
    if sample_size is not None and sample_size < len(queries):
        queries = random.sample(queries, sample_size)
    scripts = [to_smt_lib(*query) for query in queries]
    command = ["cvc5", "--lang=smt2", f"--rlimit-per={RLIMIT}", "-"]
    run = subprocess.run(command, input="(reset)\n".join(scripts), text=True, capture_output=True)
    results = run.stdout.split()
    if len(results) != len(scripts):
        results = [f"none: {run.stdout}{run.stderr}"] * len(scripts)
    return [(script, result) for script, result in zip(scripts, results) if result != "unsat"]
