"""Reads a linked Mach-O file, with macholib. Its loader, dyld, writes only to segments whose initial
protection is writable."""

import tempfile

from macholib.mach_o import (
    LC_SEGMENT_64,
    MH_BUNDLE,
    MH_DYLIB,
    MH_EXECUTE,
    N_EXT,
    N_PEXT,
    N_SECT,
    N_STAB,
    N_TYPE,
    N_UNDF,
    SECTION_TYPE,
    S_GB_ZEROFILL,
    S_ZEROFILL,
)
from macholib.MachO import MachO
from macholib.SymbolTable import SymbolTable

from reading.image import AARCH64, X86_64, Image, Mapping

CPU_TYPE_X86_64, CPU_TYPE_ARM64 = 0x01000007, 0x0100000C
MACHINES = {CPU_TYPE_X86_64: X86_64, CPU_TYPE_ARM64: AARCH64}
VM_PROT_WRITE, VM_PROT_EXECUTE = 2, 4


def read(data):
    """The image of a file with these bytes."""
    with tempfile.NamedTemporaryFile() as file:
        file.write(data)
        file.flush()
        macho = MachO(file.name, allow_unknown_load_commands=True)
        symbols = SymbolTable(macho).nlists
    [header] = macho.headers
    filetype = header.header.filetype
    mappings = []
    for command, segment, sections in header.commands:
        if command.cmd == LC_SEGMENT_64 and segment.initprot:
            mappings += [_mapping(data, segment, section) for section in sections]
    is_linked = filetype in (MH_EXECUTE, MH_DYLIB, MH_BUNDLE)
    image = Image(MACHINES.get(header.header.cputype) if is_linked else None, mappings)
    for symbol, name in symbols:
        _add_symbol(image, symbol, name.decode().removeprefix("_"), filetype == MH_DYLIB)
    return image


def _mapping(data, segment, section):
    """A section, with the initial protection of its segment."""
    is_in_file = section.flags & SECTION_TYPE not in (S_ZEROFILL, S_GB_ZEROFILL)
    content = data[section.offset :][: section.size] if is_in_file else b""
    is_writable = bool(segment.initprot & VM_PROT_WRITE)
    is_executable = bool(segment.initprot & VM_PROT_EXECUTE)
    return Mapping(section.addr, section.size, content, is_writable, is_executable)


def _add_symbol(image, symbol, name, is_dylib):
    """Adds a symbol of the symbol table, unless it is for a debugger."""
    if symbol.n_type & N_STAB:
        return
    is_external = symbol.n_type & N_EXT and not symbol.n_type & N_PEXT
    if symbol.n_type & N_TYPE == N_SECT:
        image.add_symbol(name, symbol.n_value)
        if is_external and is_dylib:
            image.add_exported(name, symbol.n_value)
    elif symbol.n_type & N_TYPE == N_UNDF:
        image.add_imported(name)
