"""Reads a WebAssembly module from its text format, as `wasm2wat` prints it, which also validates it.

Code has no addresses there, so each function gets some above all addresses of the memory: one for
each instruction. The data segment has its own address in the memory.
"""

import re
import subprocess
from collections import namedtuple

VALUE_SIZES = {"i32": 4, "i64": 8, "v128": 16}
FUNCTION_SPACING = 1 << 32  # from the address of a function to that of the next
# Functions that are not exported have no names. These are recognized by their signatures: the sizes
# of the parameters and, after None, of the results. Two of the same signature stand in this order.
UNEXPORTED_FUNCTIONS = {
    (4, 4, 4, 4, 4, None): ["const_hex_decoder_fail"],
    (4, 4, 4, None, 4): ["const_hex_kernel_read"],
    (4, 4, None, 4): ["const_hex_body_skip_halves", "const_hex_kernel_check_of_module"],
}
# The fields of a module that may stand beside functions, data, globals and exports.
IGNORED_FIELDS = (")", "(module", "(type", "(memory (;0;) 1 1)")
DataSegment = namedtuple("DataSegment", "address content")
# The sizes of its parameters, results and locals, and a line for each instruction.
Function = namedtuple("Function", "name address parameters results locals body")


class Module:
    """A module, which a proof uses as it uses an `Image` of a linked file."""

    def __init__(self):
        self.machine = None
        self.functions = []
        self.data = []
        # The address and the size of the data segment.
        self.base_address = self.size = 0
        self.symbols = {}  # the addresses of functions
        self.exported = set()
        # The initial values of globals; global 0 is the stack pointer.
        self.globals = []
        self.mutable_globals = set()  # by their numbers
        self.exported_globals = {}  # their values, by their names

    def read_constants(self, offset, count):
        """Up to `count` bytes at an offset in the data segment."""
        return self.data[0].content[offset : offset + count]

    def code_at(self, address):
        """The function that an address belongs to, or None."""
        start = address // FUNCTION_SPACING * FUNCTION_SPACING
        return next((each for each in self.functions if each.address == start), None)

    def name_at(self, address):
        """The function and the instruction at an address, for messages."""
        return f"function {address // FUNCTION_SPACING - 1}+{address % FUNCTION_SPACING:#x}"


def read(data):
    """The module with these bytes."""
    disassembled = subprocess.run(
        ["wasm2wat", "--no-debug-names", "-"], input=data, capture_output=True
    )
    if disassembled.returncode:
        raise ValueError(f"not a valid module: {disassembled.stderr.decode().strip()}")
    text = disassembled.stdout.decode().rstrip().removesuffix(")")
    module = Module()
    # Each field begins in a line with two spaces, and the instructions of a function follow.
    for field in re.split(r"\n  (?=\()", text):
        _add_field(module, field if field.startswith("(data") else re.sub(r" *;;.*", "", field))
    _name_unexported_functions(module)
    return module


def _name_unexported_functions(module):
    """Gives the functions that are not exported their names, by their signatures."""
    exported = set(module.symbols.values())
    for signature, names in UNEXPORTED_FUNCTIONS.items():
        addresses = [
            function.address
            for function in module.functions
            if (*function.parameters, None, *function.results) == signature
        ]
        module.symbols |= zip(names, [each for each in addresses if each not in exported])


def _add_field(module, field):
    """Adds a field of the text format: a function, data, a global or an export."""
    if field.startswith("(func"):
        module.functions.append(_function(len(module.functions), field))
    elif match := re.fullmatch(
        r'\(data \(;\d+;\) \(i32\.const (\d+)\) "((\\[0-9a-f]{2}|[^\\])*)"\)', field
    ):
        address = int(match[1])
        content = _unescaped(match[2])
        module.data.append(DataSegment(address, content))
        module.base_address, module.size = address, len(content)
    elif match := re.search(r"^\(global .*\((i\d\d)\.const (-?\d+)\)\)$", field):
        module.mutable_globals |= {len(module.globals)} if "(mut " in field else set()
        module.globals.append(int(match[2]) % (1 << 8 * VALUE_SIZES[match[1]]))
    elif match := re.fullmatch(r'\(export "(?!memory"|__)(\w+)" \(func (\d+)\)\)', field):
        module.symbols[match[1]] = module.functions[int(match[2])].address
        module.exported.add(match[1])
    elif match := re.fullmatch(r'\(export "(__\w+)" \(global (\d+)\)\)', field):
        if int(match[2]) in module.mutable_globals:
            raise ValueError(f"{match[1]} is a mutable global, which the engine may change")
        module.exported_globals[match[1]] = module.globals[int(match[2])]
    elif field == '(export "memory" (memory 0))':
        module.exported.add("memory")
    elif not field.startswith(IGNORED_FIELDS):
        raise ValueError(f"an unsupported field of a module: {field[:60]}")


def _unescaped(string):
    """The bytes of a string in the text format."""
    return re.sub(rb"\\(..)", lambda code: bytes.fromhex(code[1].decode()), string.encode("ascii"))


def _sizes(header, keyword):
    """The sizes of the parameters, the results or the locals."""
    types = " ".join(re.findall(rf"\({keyword}([^)]*)\)", header))
    return [VALUE_SIZES[type_] for type_ in types.split()]


def _function(number, field):
    """The function with a number, from its field in the text format."""
    lines = [line.strip() for line in re.sub(r"\(;.*?;\)", "", field.removesuffix(")")).split("\n")]
    header_lines = 1 + (len(lines) > 1 and lines[1].startswith("(local"))
    header = " ".join(lines[:header_lines])
    return Function(
        name=f"function {number}",
        address=FUNCTION_SPACING * (number + 1),
        parameters=_sizes(header, "param"),
        results=_sizes(header, "result"),
        locals=_sizes(header, "local"),
        # The end of a function returns.
        body=[*lines[header_lines:], "return"],
    )
