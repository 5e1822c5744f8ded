"""The output of `prove`, and the contracts of a file's functions."""

import pathlib
import sys
import types
from importlib.machinery import SourceFileLoader

import pytest
from build import linked, shared
from contracts import names
from contracts.kernels import Check
from contracts.library import FUNCTIONS
from contracts.messages import MESSAGES
from execution import proofs
from reading import library
from solver.queries import Rejected

FOLDER = pathlib.Path(__file__).resolve().parents[1]
# A kernel that calls a local function, which never returns, for an invalid character.
CALLS_LOCAL_FUNCTION = """
    .intel_syntax noprefix
    .section .text.{0}, "ax"; .globl {0}; {0}: sub rsp, 24; 1: test rsi, rsi; je 2f; movzx eax, byte ptr [rdi]
    lea ecx, [rax-0x30]; cmp cl, 10; setb r8b; or al, 0x20; sub al, 0x61; cmp al, 6; setb r9b; or r8b, r9b; je 3f
    add rdi, 1; add rsi, -1; jmp 1b; 2: mov eax, 1; add rsp, 24; ret
    3: mov rdx, rsi; mov rsi, rdi; mov rdi, rsp; call {1}; xor eax, eax; add rsp, 24; ret
    .section .text.{1}, "ax"; {1}: jmp {1}
"""
# A local function that calls another one, which never returns.
LOCAL_FUNCTIONS = """
    .intel_syntax noprefix
    .section .text.{0}, "ax"; {0}: sub rsp, 8; mov rsi, rcx; mov rdx, r8; call {1}; add rsp, 8; ret
    .section .text.{1}, "ax"; {1}: jmp {1}
"""
LEFT_OUT = "; --call has left out"


@pytest.fixture
def prove(monkeypatch, capsys):
    """Runs `prove` with a stub for the proofs, which succeeds except for one function. Returns
    whether it fails, and its output."""
    script = types.ModuleType("prove")
    SourceFileLoader("prove", str(FOLDER / "prove")).exec_module(script)

    def run(*arguments, wrong=None):
        def prove(content, symbol, contract, selected):
            if contract.function == wrong:
                raise Rejected("it is\nwrong " * 1000)
            return 1

        monkeypatch.setattr(proofs, "prove", prove)
        monkeypatch.setattr(proofs.queries, "unsat_queries", [])
        monkeypatch.setattr(sys, "argv", ["prove", *map(str, arguments)])
        return script.main(), capsys.readouterr().out

    return run


@pytest.mark.parametrize(
    "arguments, wrong, last",
    [
        (["/dev/null"], None, "0 passed, 1 failed"),
        (["nowhere"], None, "0 passed, 1 failed"),
        (["FILE"], None, "45 passed, 0 failed"),
        (["FILE"], "version", "44 passed, 1 failed"),
        (["FILE", "/dev/null"], "version", "44 passed, 2 failed"),
        (["FILE", "--call", "version"], None, f"1 passed, 0 failed{LEFT_OUT} 44 of 45 proofs"),
        (["FILE", "--call", "kernel_read"], None, f"3 passed, 0 failed{LEFT_OUT} 42 of 45 proofs"),
    ],
)
def test_last_line(arguments, wrong, last, prove, tmp_path):
    file = str(shared(tmp_path))
    has_failed, output = prove(*(each.replace("FILE", file) for each in arguments), wrong=wrong)
    assert (has_failed, output.splitlines()[-1]) == ("0 failed" not in last, last)
    assert all(len(line) < 500 for line in output.splitlines())


def test_callees_are_proved(tmp_path):
    """Each function with a summary is among those that are proved."""
    file, functions = proofs.functions_to_prove(shared(tmp_path).read_bytes())
    contracts = [(symbol, proofs.CONTRACTS[index]) for symbol, index in functions]
    called = {
        name
        for symbol, contract in contracts
        for name in proofs.summaries_of_callees(symbol, contract)
    }
    assert called & file.symbols.keys() <= {symbol for symbol, _ in functions}


def test_only_proofs_use_hints():
    """Hints are not trusted: only proofs.py, which proves what they infer, imports them."""
    files = FOLDER.glob("*/*.py")
    assert [file.name for file in files if "\nfrom hints" in file.read_text()] == ["proofs.py"]


def test_contracts_of_functions():
    """Each function of the header has a contract, with the same number of arguments, which is
    constant-time if the function is; except for a decoder that a program has changed."""
    contracts = [
        each for each in (*FUNCTIONS, *MESSAGES) if not each.is_local and "changed" not in each.name
    ]
    assert {
        (each.function, len(each.arguments), not each.is_declassified) for each in contracts
    } == {
        (name, len(function.parameters.split()), function.is_constant_time)
        for name, function in names.FUNCTIONS.items()
    }


@pytest.mark.parametrize(
    "name", sorted({each.symbol for each in (*FUNCTIONS, *MESSAGES) if each.is_local})
)
def test_local_function_in_a_kernel(name):
    """A kernel may not call a function by a contract that is proved at a greater depth."""
    content = linked(CALLS_LOCAL_FUNCTION.format("const_hex_1_0_0_check_v3", name))
    with pytest.raises(Rejected, match="no loop bound is found"):
        proofs.prove(content, "const_hex_1_0_0_check_v3", Check())


def test_local_functions_that_call_each_other():
    """A local function takes no other one of its depth by its contract: else each of two could be
    proved by the other's."""
    contract = next(contract for contract in FUNCTIONS if contract.function == "decoder_fail")
    content = linked(LOCAL_FUNCTIONS.format(contract.symbol, "const_hex_body_locate_invalid"))
    with pytest.raises(Rejected, match="no loop bound is found"):
        proofs.prove(content, contract.symbol, contract)


def test_a_truncated_module():
    with pytest.raises(ValueError, match="not a valid module"):
        library.read_and_validate(library.WASM_MAGIC)
