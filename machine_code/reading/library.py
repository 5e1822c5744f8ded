"""Reads a file of any format, and checks that it has the symbols that a proof needs."""

import functools

from contracts.names import FUNCTIONS, WITH_ERROR
from reading import elf, image, mach_o, module, pe

WASM_MAGIC, PE_MAGIC = b"\0asm", b"MZ"
# By the magic number, the first bytes of a file.
READERS = {
    b"\x7fELF": elf.read,
    b"\xcf\xfa\xed\xfe": mach_o.read,
    PE_MAGIC: pe.read,
    WASM_MAGIC: module.read,
}


@functools.lru_cache(4)
def read(data):
    """The image or the module with these bytes."""
    for magic, reader in READERS.items():
        if data.startswith(magic):
            try:
                return reader(data)
            except (OSError, ValueError):
                raise
            except Exception as error:
                # It is truncated, or has an offset outside of it.
                raise ValueError(f"a truncated or corrupt file: {error!r}")
    if data.startswith(b"\xca\xfe\xba\xbe"):
        raise ValueError(
            "a universal file: prove what `lipo -thin` extracts of it, for each processor"
        )
    raise ValueError(
        "not a linked ELF, Mach-O or PE file, nor a WebAssembly module; an archive has to be "
        "linked, as machine_code/README.md says"
    )


def read_and_validate(data):
    """The same, if it has the symbols that a proof needs."""
    file = read(data)
    if data.startswith(WASM_MAGIC):
        _check_exports(file)
    elif (
        data.startswith(PE_MAGIC)
        and file.machine == image.X86_64
        and image.HEADER_FUNCTIONS & file.symbols.keys()
    ):
        raise ValueError(
            "compilers for Windows call functions for C by another ABI, which is not proved"
        )
    else:
        _check_symbols(file)
    return file


def _check_exports(module):
    """A module has the exports that the package uses, and no other."""
    expected = {"memory", "__data_end", "__heap_base"}
    expected |= {
        f"const_hex_{name}" for name, function in FUNCTIONS.items() if function.is_in_module
    }
    for name in sorted((module.exported | module.exported_globals.keys()) ^ expected):
        raise ValueError(f"the export {name!r} is missing or unexpected")


def _check_symbols(file):
    """A linked file has all functions of the library, or none, and its hidden symbols."""
    if not file.symbols and file.imported:
        raise ValueError(
            f"it calls {min(file.imported)} of a shared library: prove the shared library, "
            "such as libconst_hex.so"
        )
    # A loader finds each function of the header, or none.
    if file.exported and (missing := image.HEADER_FUNCTIONS - file.exported):
        raise ValueError(f"the loader does not find {', '.join(sorted(missing))}: export them, too")
    # A program that is compiled for x86-64-v3 calls that kernel directly, and has no dispatcher.
    has_dispatcher = any(name + "_v3" in file.symbols for name in file.symbols)
    hidden = {
        name + "_nonnull" for name in file.symbols if name.removeprefix("const_hex_") in WITH_ERROR
    }
    if hidden - file.symbols.keys() or has_dispatcher and not file.dispatch_bytes:
        raise ValueError(
            "it is built from portable.c, which this tool does not prove, or stripped: the symbols "
            "of hidden functions or of the dispatcher's byte are missing. Use neither strip nor "
            "strip -x, nor -Wl,-s or -Wl,-x"
        )
