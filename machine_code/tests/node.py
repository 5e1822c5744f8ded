"""Runs single instructions of WebAssembly in Node, on random operands, and compares them with their
semantics, as solver/processor.py does.

Each instruction gets a function in a module that is built here. It loads the operands from the first
bytes of the memory, and stores the result after them. Instructions that load or store access the
rest of the memory.
"""

import itertools
import json
import pathlib
import random
import re
import struct
import types

import z3

from execution.code import Code
from execution.paths import step
from execution.terms import bv64, bv8, simplify
from semantics import webassembly
from semantics.webassembly import STACK_EFFECTS
from solver.queries import public, require, secret
from build import MODULE, linked_module, run

RUN = pathlib.Path(__file__).with_name("run.mjs")
MEMORY_SIZE = 1024
STATES_PER_FUNCTION = 24
RESULT_ADDRESS = 64
SCRATCH_ADDRESS = 256
EDGE_BYTES = bytes([0, 1, 0x7F, 0x80, 0xFF, 0x30, 0x39, 0x41, 0x66, 0x0F, 0x10])
BYTE_TERMS = [bv8(value) for value in range(256)]
# The bytes at these addresses are unknown constants, so that a `select` becomes a branch, or a
# conditional term where the contract allows that.
UNKNOWN_BYTES = {200: public("choice", 8), 201: secret("secret_choice", 8)}
WASM_TYPES = {"i": "i32", "n": "i32", "l": "i64", "v": "v128"}
# Control instructions and those of variables, which the functions below test.
CONTROL = """br br_if br_table call result return unreachable select
    local.get local.set local.tee global.get global.set""".split()
FUNCTIONS = """
(func $sum (param i32 i32) (result i32) (local i32)
  i32.const 7 local.get 2 local.get 0 i32.add local.get 1 i32.sub return)
(func (export "call") i32.const 64
  i32.const 0 i32.load i32.const 16 i32.load call $sum i32.store)
(func (export "return") (local i32)
  i32.const 0 i32.load8_u i32.const 128 i32.lt_u br_if 0
  block i32.const 16 i32.load8_u i32.const 128 i32.lt_u br_if 1 end
  i32.const 64 i32.const 5 i32.store8)
(func (export "loop") (local i32)
  i32.const 0 i32.load8_u i32.const 63 i32.and local.set 0
  i32.const 401 block loop local.get 0 i32.eqz br_if 1
    i32.const 64 local.get 0 i32.add local.get 0 i32.store8
    local.get 0 i32.const 1 i32.sub local.tee 0 i32.const 16 i32.load8_u i32.ne br_if 0 end
    i32.const 400 i32.const 7 i32.store8 end local.get 0 i32.store8)
(func (export "br_table") i32.const 72
  block block block i32.const 0 i32.load8_u i32.const 3 i32.and
    br_table 2 0 1 2 end
    i32.const 64 i32.const 1 i32.store8 br 1 end
    i32.const 64 i32.const 2 i32.store8 end
  i32.const 7 i32.store8)
(func (export "select") i32.const 64
  i32.const 0 i32.load i32.const 16 i32.load i32.const 32 i32.load8_u i32.const 1 i32.and select i32.store)
(func (export "select_by_branch") i32.const 64
  i32.const 0 i32.load i32.const 16 i32.load i32.const 200 i32.load8_u i32.const 1 i32.and select i32.store)
(func (export "select_by_number") i32.const 64
  i32.const 0 i32.load i32.const 16 i32.load i32.const 201 i32.load8_u i32.const 1 i32.and select i32.store)
(func (export "set") (local i32) i32.const 64 i32.const 0 i32.load local.set 0 local.get 0 i32.store)
(func (export "wrap") i32.const 64 i32.const 0 i64.load i32.wrap_i64 i32.const 1 i32.shr_u i32.store)
(func (export "carry") i32.const 64
  i32.const 0 i32.load i32.const 16 i32.load i32.add i32.const 1 i32.shr_u i32.store)
(func (export "local") (local v128) i32.const 64 local.get 0 v128.store)
(func (export "global")
  block block global.get 0 i32.const 0 i32.load i32.add global.set 0 br 1 i32.const 1 br 1 end i32.const 1 br 0 end
  i32.const 64 global.get 0 i32.const 1024 global.set 0 i32.store)
"""


def _function(name, text):
    """A function that loads the operands of an instruction, runs it, and stores its result."""
    mnemonic = text.split()[0]
    operands = " ".join(
        f"i32.const {16 * index} {WASM_TYPES[kind]}.load"
        for index, kind in enumerate(STACK_EFFECTS[mnemonic][0])
    )
    if ".store" in mnemonic:
        return f'(func (export "{name}") {operands} {text})'
    type_ = "i32" if "any_true" in mnemonic else mnemonic.split(".")[0]
    result = type_ if type_ in WASM_TYPES.values() else "v128"
    return f'(func (export "{name}") i32.const {RESULT_ADDRESS} {operands} {text} {result}.store)'


def _memory(generator, is_access):
    """A random memory: any bytes, equal operands, edge cases, mostly zeros, or numbers near 2^31. A
    load or store gets an address in the scratch area."""
    numbers = [(1 << 31) + generator.randrange(-1, 2) for _ in range(MEMORY_SIZE // 8)]
    kinds = [
        generator.randbytes(MEMORY_SIZE),
        generator.randbytes(16) * (MEMORY_SIZE // 16),
        bytes(generator.choices(EDGE_BYTES, k=MEMORY_SIZE)),
        bytes(generator.choices(EDGE_BYTES, [2000, *range(1, 11)], k=MEMORY_SIZE)),
        struct.pack(f"<{len(numbers)}Q", *numbers),
    ]
    address = struct.pack("<I", SCRATCH_ADDRESS + generator.randrange(256)) if is_access else b""
    return address + generator.choice(kinds)[len(address) :]


class ConcreteMemory:
    """A mixin for a state with a concrete memory, except for UNKNOWN_BYTES."""

    def load(self, address, count, aligned=False):
        address = simplify(address).as_long()
        if count == 1 and address in UNKNOWN_BYTES:
            return [UNKNOWN_BYTES[address]]
        return [BYTE_TERMS[value] for value in self.memory[address : address + count]]

    def store(self, address, data, aligned=False):
        address = simplify(address).as_long()
        self.memory[address : address + len(data)] = [
            self.concrete(value).as_long() for value in data
        ]

    def concrete(self, term):
        """The value of a term."""
        term = simplify(term)
        if z3.is_bv_value(term):
            return term
        values = [
            (name, BYTE_TERMS[self.before[address]]) for address, name in UNKNOWN_BYTES.items()
        ]
        return simplify(z3.substitute(term, *values))

    def is_feasible(self):
        """Whether the path condition holds."""
        return all(z3.is_true(self.concrete(fact.term)) for fact in self.facts)

    def invalidate_below_sp(self):
        """There is no stack."""

    def prove_abi_at_return(self):
        """There is no ABI."""


class ModuleInNode:
    """A module with a function for each instruction of the proved module, and with FUNCTIONS, which
    runs in Node and by the semantics."""

    def __init__(self):
        code = Code(pathlib.Path(MODULE).read_bytes(), "const_hex_encode", {})
        texts = set()
        for function in code.image.functions:
            instructions = webassembly.instructions(code, function, None).values()
            texts |= {i.text for i in instructions if i.mnemonic not in CONTROL}
        self.names = {text: f"f{number}" for number, text in enumerate(sorted(texts))}
        functions = " ".join(_function(name, text) for text, name in self.names.items())
        self.names |= {name: name for name in re.findall(r'export "(\w+)"', FUNCTIONS)}
        text = f'(module (memory 1 1) (global (mut i32) (i32.const {MEMORY_SIZE})) (export "memory" (memory 0))'
        self.content = linked_module(f"{text} {FUNCTIONS} {functions})")
        self.code = Code(self.content, "call", {})

    def differences(self):
        """The instructions after which the memories of Node and of the semantics differ."""
        runs = []
        for text, number in itertools.product(self.names, range(STATES_PER_FUNCTION)):
            is_access = re.search(r"\.(load|store)", text)
            runs.append((text, _memory(random.Random(f"{text} {number}"), is_access)))
        requests = [(self.names[text], before.hex()) for text, before in runs]
        request = json.dumps({"module": self.content.hex(), "runs": requests})
        memories_after = json.loads(run("node", RUN, text=request.encode()))
        for (text, before), after in zip(runs, memories_after):
            if after != self._run_semantics(self.names[text], before).hex():
                yield text

    def _run_semantics(self, name, before):
        """The memory after a function, by the semantics."""
        state = type("State", (ConcreteMemory, webassembly.State), {})()
        state.code = self.code
        state.contract = types.SimpleNamespace(
            prove_postcondition=lambda _: None,
            may_decide_select=lambda _, offset: offset == 201,
            callable_arguments=(),
        )
        state.before = before
        state.input_bytes = {offset: (offset, name) for offset, name in UNKNOWN_BYTES.items()}
        state.memory = [*before]
        state.general = {"global 0": bv64(self.code.image.globals[0])}
        state.address = self.code.image.symbols[name]
        state.enter_function(self.code.image.code_at(state.address), [], public("return", 64))
        while after := [path for path in step(self.code, state) if path.is_feasible()]:
            require(len(after) == 1, "several paths")
            (state,) = after
        require(state.general["global 0"].eq(bv64(MEMORY_SIZE)), "a wrong global")
        return bytes(state.memory)
