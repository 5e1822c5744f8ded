"""Decodes a function of WebAssembly from the text format, as `wasm2wat` prints it: resolves the
labels of structured control flow to addresses.

`block`, `loop` and `end` are no instructions here. If this were wrong, the proof would be about
another path than the one that runs.
"""

import re
from collections import namedtuple
from dataclasses import dataclass

import z3

from execution.terms import bytes_le
from reading.assembled import Instruction
from solver.queries import require

# The height of the operand stack before an instruction, its immediates, and the targets of a branch.
Operands = namedtuple("Operands", "height immediates targets")
# After these, control does not fall through to the next instruction.
NO_FALL_THROUGH = ("br", "br_table", "return", "unreachable")


@dataclass(eq=False)
class Label:
    """The target of a branch: the start of a loop, or the end of a block."""

    height: int  # of the operand stack at the target
    target: int = None  # the address, once it is known
    is_loop: bool = False
    is_targeted: bool = False


class FunctionDecoder:
    """Decodes the instructions of a function in order, without unreachable ones."""

    def __init__(self, code, function):
        self.code, self.function = code, function
        self.decoded = []
        function_label = Label(height=len(function.results))
        self.labels = [function_label]
        self.height = 0
        self.is_reachable = True
        # The last line is the return at the end of the function.
        *body, implicit_return = function.body
        for text in body:
            self.read(text, *text.split())
        require(self.labels == [function_label], "an unsupported kind of block")
        self.end_block()
        self.read(implicit_return, implicit_return)

    def address(self):
        """The address of the next instruction."""
        return self.function.address + len(self.decoded)

    def end_block(self):
        """Ends the innermost block: branches to its end come here."""
        label = self.labels[-1]
        self.is_reachable |= label.is_targeted and not label.is_loop
        self.height = label.height
        label.target = label.target or self.address()

    def read(self, text, mnemonic, *words):
        """Decodes a line: the begin or the end of a block, or an instruction."""
        if mnemonic == "end":
            self.end_block()
            self.labels.pop()
        elif mnemonic in ("block", "loop"):
            require(not words, "a block with a result")
            is_loop = mnemonic == "loop" and self.is_reachable
            self.labels.append(Label(self.height, self.address() if is_loop else None, is_loop))
        elif self.is_reachable:
            self.add(text, mnemonic, words)

    def add(self, text, mnemonic, words):
        """Adds an instruction, and tracks the height of the operand stack."""
        immediates = _parse_immediates(mnemonic, words)
        targets = []
        operand_types, result_count = self.code.processor.STACK_EFFECTS.get(mnemonic, ("", 0))
        if mnemonic == "call":
            callee = self.code.image.functions[immediates[0]]
            operand_types, result_count = callee.parameters, len(callee.results)
            targets = [Label(0, callee.address)]
        if mnemonic.startswith("br"):
            targets = [self.labels[-1 - depth] for depth in immediates]
        below = self.height - len(operand_types)  # the height without the operands
        for label in targets:
            # A branch would drop operands below the result, which changes the result's height.
            is_at_height = label is not self.labels[0] or below == label.height
            require(is_at_height, "operands below a result")
            label.is_targeted = True
        self.decoded.append((mnemonic, Operands(self.height, immediates, targets), text))
        self.height = below + result_count
        if mnemonic == "call" and result_count:
            self.decoded.append(("result", Operands(below, (), []), "result"))
        self.is_reachable = mnemonic not in NO_FALL_THROUGH

    def instructions(self):
        """The instructions with their addresses. All targets are known now."""
        for address, (mnemonic, operands, text) in enumerate(self.decoded, self.function.address):
            operands = operands._replace(targets=[label.target for label in operands.targets])
            yield address, Instruction(address, 1, mnemonic, operands, text)


def _parse_immediates(mnemonic, words):
    """The immediates of an instruction; first the offset of a load or store; or the bytes of a
    vector."""
    if words[:1] == ("i32x4",):
        data = []
        for number in words[1:]:
            data += bytes_le(z3.BitVecVal(int(number, 16), 32))
        return data
    immediates = [int(text, 0) for text in words if "=" not in text]
    if not re.search(r"\.(load|store)", mnemonic):
        return immediates
    named = dict(text.split("=") for text in words if "=" in text)
    return [int(named.get("offset", 0)), *immediates]


def instructions(code, section, level):
    """The instructions of a function by their addresses."""
    return dict(FunctionDecoder(code, section).instructions())
