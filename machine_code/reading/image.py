"""A linked file as the loader maps it: segments or sections at fixed offsets, and the addresses of
its symbols. The code that runs is the code that is proved, so no linker is trusted.

elf.py, mach_o.py and pe.py read a file that an ordinary linker made of an honest build, and reject
what such a build can get wrong. A file made to deceive is out of scope: it can run any other code.
"""

import re
from collections import namedtuple

from contracts.names import FUNCTIONS

X86_64, AARCH64 = 62, 183  # EM_X86_64, EM_AARCH64
INSTRUCTION_ALIGNMENT = {X86_64: 1, AARCH64: 4}
MAX_CODE_SIZE = 1 << 14  # in bytes, of code that no symbol follows
MAX_PAGE_SIZE = 1 << 16
PREFIX = "const_hex_"
HEADER_FUNCTIONS = {PREFIX + name for name in FUNCTIONS}
# The symbols of the byte in which the dispatcher of the C library, or of the Rust crate, stores
# which kernel it has chosen.
DISPATCH_BYTE = re.compile(rf"{PREFIX}(kernel|\d+_\d+_\d+)_choice")


# A segment (ELF) or a section (PE, Mach-O). After its bytes in the file it has zeros up to its size
# in memory.
Mapping = namedtuple("Mapping", "address size content is_writable is_executable")


class Image:
    """The mappings of a file for a machine (e_machine of ELF), and its symbols."""

    def __init__(self, machine, mappings):
        if machine not in INSTRUCTION_ALIGNMENT or not mappings:
            raise ValueError(
                "no linked library or program for x86-64 or AArch64; an object has to be linked, "
                "as machine_code/README.md says"
            )
        if any(mapping.is_writable and mapping.is_executable for mapping in mappings):
            raise ValueError("a writable and executable segment: link without -N and -n")
        self.machine, self.mappings = machine, sorted(mappings)
        # The lowest address, rounded down to a page of any size.
        self.base_address = self.mappings[0].address // MAX_PAGE_SIZE * MAX_PAGE_SIZE
        self.size = max(mapping.address + mapping.size for mapping in mappings) - self.base_address
        self.symbols = {}  # the addresses of those that begin with PREFIX
        self.symbol_addresses = set()  # of all symbols
        self.dispatch_bytes = set()  # addresses
        # The functions of the header that other files find by name, and those that are undefined.
        self.exported = set()
        self.imported = set()
        # The addresses that the loader relocates in mappings that are not writable.
        self.relocated = set()

    def add_symbol(self, name, address, size=1):
        """Adds a symbol. PE and Mach-O do not have its size."""
        self.symbol_addresses.add(address)
        if DISPATCH_BYTE.fullmatch(name) and size == 1:
            self.dispatch_bytes.add(address)
        if name.startswith(PREFIX) and self.symbols.setdefault(name, address) != address:
            raise ValueError(f"{name} has two addresses: link one version of the library")

    def add_exported(self, name, address):
        """Adds a symbol that the loader finds by name."""
        if name in HEADER_FUNCTIONS or name in self.symbols:
            self.add_symbol(name, address, size=0)
            self.exported |= {name} & HEADER_FUNCTIONS

    def add_imported(self, name):
        """Adds an undefined symbol, which the loader finds in another file."""
        self.imported |= {name} & HEADER_FUNCTIONS

    def mapping_at(self, address):
        """The mapping that an address lies in, or None."""
        for mapping in self.mappings:
            if mapping.address <= address < mapping.address + mapping.size:
                return mapping
        return None

    def bytes_at(self, address, size, is_code=False):
        """Up to `size` bytes of code or constants, not beyond the mapping or to a relocated
        address."""
        mapping = self.mapping_at(address)
        if not mapping or mapping.is_writable or is_code and not mapping.is_executable:
            return b""
        content = mapping.content[address - mapping.address :][:size]
        relocated = (index for index in range(len(content)) if address + index in self.relocated)
        return content[: next(relocated, None)]

    def read_constants(self, offset, count):
        """Up to `count` bytes of constants at an offset from the base address."""
        return self.bytes_at(self.base_address + offset, count)

    def is_dispatch_byte(self, address):
        """Whether the address is that of a dispatcher's byte, which is writable and at first 0."""
        mapping = self.mapping_at(address) if address in self.dispatch_bytes else None
        if not mapping or not mapping.is_writable:
            return False
        initial_value = mapping.content[address - mapping.address :][:1]
        return not any(initial_value)

    def code_at(self, address):
        """The address with the code from there up to the next symbol, or None if no code is
        there."""
        following = [start for start in self.symbol_addresses if start > address]
        end = min([address + MAX_CODE_SIZE, *following])
        code = self.bytes_at(address, end - address, is_code=True)
        is_aligned = address % INSTRUCTION_ALIGNMENT[self.machine] == 0
        return (address, code) if code and is_aligned else None

    def name_at(self, address):
        """The symbol that comes before an address, and the offset from it, for messages."""
        symbols = [(start, name) for name, start in self.symbols.items() if start <= address]
        start, name = max(symbols, default=(0, "the file"))
        return f"{name}+{address - start:#x}"
