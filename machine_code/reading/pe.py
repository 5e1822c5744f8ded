"""Reads a linked PE file, a DLL or a program, with pefile. Addresses are RVAs. The loader relocates
in sections of any kind."""

import struct
from collections import namedtuple

import pefile

from reading.image import AARCH64, X86_64, Image, Mapping

MACHINES = {
    pefile.MACHINE_TYPE["IMAGE_FILE_MACHINE_AMD64"]: X86_64,
    pefile.MACHINE_TYPE["IMAGE_FILE_MACHINE_ARM64"]: AARCH64,
}
IMAGE_REL_BASED_ABSOLUTE = pefile.RELOCATION_TYPE["IMAGE_REL_BASED_ABSOLUTE"]
IMAGE_DIRECTORY_ENTRY_IAT = pefile.DIRECTORY_ENTRY["IMAGE_DIRECTORY_ENTRY_IAT"]
IMAGE_SYM_CLASS_EXTERNAL, IMAGE_SYM_CLASS_STATIC = 2, 3
IMAGE_SYMBOL = struct.Struct("<8sIhHBB")  # of winnt.h, with these fields
ImageSymbol = namedtuple(
    "ImageSymbol", "Name Value SectionNumber Type StorageClass NumberOfAuxSymbols"
)


def read(data):
    """The image of a file with these bytes."""
    file = pefile.PE(data=data)
    machine = MACHINES.get(file.FILE_HEADER.Machine) if file.PE_TYPE else None
    image = Image(machine, [_mapping(section) for section in file.sections])
    image.relocated = _relocated(file)
    for name, address in _coff_symbols(data, file):
        image.add_symbol(name, address)
    for symbol in getattr(getattr(file, "DIRECTORY_ENTRY_EXPORT", None), "symbols", ()):
        image.add_exported((symbol.name or b"").decode(), symbol.address)
    for library in getattr(file, "DIRECTORY_ENTRY_IMPORT", ()):
        for symbol in library.imports:
            image.add_imported((symbol.name or b"").decode())
    return image


def _relocated(file):
    """The addresses that the loader writes: base relocations, and the import address table."""
    table = file.OPTIONAL_HEADER.DATA_DIRECTORY[IMAGE_DIRECTORY_ENTRY_IAT]
    relocated = {*range(table.VirtualAddress, table.VirtualAddress + table.Size)}
    for block in getattr(file, "DIRECTORY_ENTRY_BASERELOC", ()):
        for entry in block.entries:
            if entry.type != IMAGE_REL_BASED_ABSOLUTE:
                # IMAGE_REL_BASED_DIR64 has 8 bytes, and no other kind has more.
                relocated |= {*range(entry.rva, entry.rva + 8)}
    return relocated


def _mapping(section):
    """A section as the loader maps it."""
    size = section.Misc_VirtualSize
    content = section.get_data()[:size] if section.PointerToRawData else b""
    is_writable, is_executable = section.IMAGE_SCN_MEM_WRITE, section.IMAGE_SCN_MEM_EXECUTE
    return Mapping(section.VirtualAddress, size, content, is_writable, is_executable)


def _coff_symbols(data, file):
    """The symbols of sections, with their addresses, in the COFF symbol table, which pefile does
    not read."""
    symbol_table, count = file.FILE_HEADER.PointerToSymbolTable, file.FILE_HEADER.NumberOfSymbols
    string_table = symbol_table + IMAGE_SYMBOL.size * count
    number = 0
    while number < count:
        offset = symbol_table + IMAGE_SYMBOL.size * number
        symbol = ImageSymbol(*IMAGE_SYMBOL.unpack_from(data, offset))
        name = symbol.Name
        # Four zeros and an offset in the string table stand for a name of more than 8 bytes.
        if name.startswith(bytes(4)):
            start = string_table + int.from_bytes(name[4:], "little")
            name = data[start : data.index(b"\0", start)]
        is_of_address = symbol.StorageClass in (IMAGE_SYM_CLASS_EXTERNAL, IMAGE_SYM_CLASS_STATIC)
        if symbol.SectionNumber > 0 and is_of_address:
            section = file.sections[symbol.SectionNumber - 1]
            address = section.VirtualAddress + symbol.Value
            yield name.rstrip(b"\0").decode(errors="replace"), address
        number += 1 + symbol.NumberOfAuxSymbols
