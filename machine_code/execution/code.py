"""The instructions and constants of a linked file, as `reading` has them.

The load address of a file is unknown, but a multiple of the page size, and everything in the file
has a fixed offset from it. Instructions are decoded when they are run. If this were wrong, the proof
could be about another instruction or constant than the one that runs.
"""

import z3

from execution.state import Region
from execution.terms import bv64
from reading import library
from reading.image import AARCH64, X86_64
from semantics import aarch64, webassembly, x86_64

PROCESSORS = {X86_64: x86_64, AARCH64: aarch64, None: webassembly}
PAGE_SIZE = 4096  # Loaders keep no greater alignment.


class Code:
    """A function of a file, by its symbol. The functions in `summaries` are not entered where they
    are called: their contracts say what they do."""

    def __init__(self, content, symbol, summaries, level=None):
        self.image = library.read(content)
        self.processor = PROCESSORS[self.image.machine]
        # The microarchitecture level, which names of kernels end in, such as v3.
        self.level = level or symbol.rpartition("_")[2]
        self.start = self.image.symbols[symbol]
        # The offset of the dispatcher's byte, once it is accessed.
        self.dispatch_byte_offset = None
        self.callees = {
            self.image.symbols[name]: summary
            for name, summary in summaries.items()
            if name in self.image.symbols
        }
        alignment = PAGE_SIZE if self.image.machine else 1
        self.constants = Region("constants", bv64(self.image.size), alignment, self.image)
        self.instructions = {}  # that are decoded so far, by their addresses

    def instruction(self, address):
        """The instruction at an address, or None. It is decoded on demand, with those after it."""
        if address not in self.instructions and (code := self.image.code_at(address)):
            decoded = self.processor.instructions(self, code, self.level)
            self.instructions = decoded | self.instructions
        return self.instructions.get(address)

    def runtime_address(self, address):
        """An address of the file as a term: its offset from the unknown load address."""
        return self.constants.base + (address - self.image.base_address)

    def is_dispatch_byte(self, offset, count):
        """Whether an access is to the dispatcher's byte, which all threads share. A function may
        access only one such byte."""
        if count != 1 or not z3.is_bv_value(offset):
            return False
        if not self.image.is_dispatch_byte(self.image.base_address + offset.as_long()):
            return False
        if self.dispatch_byte_offset is None:
            self.dispatch_byte_offset = offset.as_long()
        return self.dispatch_byte_offset == offset.as_long()

    def name_at(self, address):
        """The symbol, the offset from it, and the instruction at an address, for messages."""
        instruction = self.instruction(address)
        text = instruction.text if instruction else "no instruction"
        return f"{self.image.name_at(address)} {text}"
