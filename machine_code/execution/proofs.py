"""Proves the functions of a file, in a process for each, so that no proof depends on another.

If a contract were left out here, or if a call were replaced by a contract that is proved of another
function, wrong code could be accepted.
"""

import itertools
import os
import re
import textwrap
from dataclasses import dataclass

from contracts import callees, dispatch
from contracts.kernels import KERNELS
from contracts.library import FUNCTIONS
from contracts.messages import MESSAGES
from execution.code import Code
from execution.paths import run
from hints.loops import infer_invariant, loop_headers
from reading import library
from reading.image import X86_64
from solver import cvc5, queries
from solver.queries import Rejected

SAMPLE_SIZE = 50  # queries of each proof that go to the second solver, too
MAX_LINE_LENGTH = 300  # characters of a line of output
CONTRACTS = (
    *FUNCTIONS,
    *MESSAGES,
    *KERNELS,
    *dispatch.NULL_ERROR_WRAPPERS,
    *dispatch.KERNEL_DISPATCHERS,
)
# On x86-64 the names of the kernels' functions end so, and a dispatcher chooses one of them.
LEVEL_SUFFIX = re.compile("_v[23]$")


@dataclass
class Job:
    """A proof of a function from a part of its initial states."""

    file: str
    symbol: str
    contract_index: int  # in CONTRACTS
    content: bytes  # of the file
    part: int  # of the initial states
    all_to_cvc5: bool

    @property
    def function(self):
        return self.file, self.symbol, self.contract_index


def symbols_and_contracts(image):
    """What has to be proved: pairs of a symbol and the index of a contract. A callee with a summary
    has the symbol of its contract, and so it is among them."""
    pairs = itertools.product(sorted(image.symbols), range(len(CONTRACTS)))
    return [
        (symbol, index)
        for symbol, index in pairs
        if _is_contract_of(CONTRACTS[index], symbol, image.machine)
    ]


def _is_contract_of(contract, symbol, machine):
    """Whether a contract is for a symbol in a file for a machine (None for a module)."""
    if machine is None:
        name = contract.symbol.removesuffix("_nonnull")
        return contract.is_in_module and bool(re.fullmatch(name, symbol))
    is_x86_64 = machine == X86_64
    if contract in KERNELS and is_x86_64 != bool(LEVEL_SUFFIX.search(symbol)):
        return False
    if contract in dispatch.KERNEL_DISPATCHERS and not is_x86_64:
        return False
    return bool(re.fullmatch(contract.symbol, symbol))


def functions_to_prove(content):
    """The image or the module with these bytes, and its functions with their contracts. There has to
    be one."""
    file = library.read_and_validate(content)
    functions = symbols_and_contracts(file)
    if not functions:
        raise ValueError(
            "it has no function of the library, or is stripped: keep its symbol table, in "
            'Cargo.toml by `strip = "none"`'
        )
    return file, functions


def summaries_of_callees(symbol, contract):
    """The summaries of the functions that are not entered where this one calls them. Each has a
    lower `call_depth`, since else two functions could be proved by each other's contracts."""
    if contract.callee_summaries is not None:
        return {symbol + suffix: summary for suffix, summary in contract.callee_summaries.items()}
    return callees.summaries(
        other
        for other in CONTRACTS
        if other in KERNELS or other.is_local and other.call_depth < contract.call_depth
    )


def prove(content, symbol, contract, selected=slice(None)):
    """Proves a function of a file, from all its initial states or from selected ones. Returns the
    number of paths."""
    code = Code(content, symbol, summaries_of_callees(symbol, contract), contract.level)
    states = contract.initial_states(code)
    headers = () if contract.is_unrolled else loop_headers(code, states[0].address)
    return run(code, states[selected], headers, infer_invariant)


def run_job(job):
    """Proves a function from a part of its initial states. Returns the function, whether it is
    rejected, and a line of output."""
    contract = CONTRACTS[job.contract_index]
    fault = None
    try:
        part = slice(job.part, None, contract.parts)
        path_count = prove(job.content, job.symbol, contract, part)
        outcome = f"proved at every length: {path_count} paths, {queries.counts['queries']} queries"
        sample_size = None if job.all_to_cvc5 else SAMPLE_SIZE // contract.parts
        if found := cvc5.disagreements(queries.unsat_queries, sample_size):
            query, answer = found[0]
            fault = f"cvc5 says {answer}: {query}"
    except (Rejected, ValueError) as rejected:
        fault = rejected
    except FileNotFoundError as missing:
        fault = f"{missing.filename} is missing: install the packages of machine_code/README.md"
    except Exception as error:
        fault = f"an error in this tool: {error!r}"
    outcome = f"REJECTED: {fault}" if fault else outcome
    name = contract.name
    if contract.parts > 1:
        name += f", {job.part + 1} of {contract.parts}"
    line = textwrap.shorten(f"{job.symbol}, {name}: {outcome}", MAX_LINE_LENGTH)
    seconds = sum(os.times()[:4])
    return job.function, bool(fault), f"{line}, {seconds:.0f} s of processor time"
