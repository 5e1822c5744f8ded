"""Files that ordinary tools make of honest builds are read. Frequent mistakes are rejected, with a
message that says what to do."""

import pathlib

import build
import pytest
from build import (
    AARCH64,
    CLANG,
    X86_64,
    built,
    for_macos,
    for_windows,
    for_windows_on_aarch64,
    objects,
    run,
    shared,
)
from contracts.names import FUNCTIONS
from execution import proofs
from reading import image, library

# Version scripts for the linker, and assembly.
VERSIONS = "V1 { global: const_hex_*; local: *; };"
ONE_HIDDEN = "V1 { global: const_hex_*; local: const_hex_check_raw; };"
OLD_VERSION = ".globl other; .symver other, const_hex_check@V0; other: ret"
TEXT_RELOCATION = ".data; value: .quad 0; .text; .quad value"


# Each of these functions returns one that builds a file in a folder.
def shared_library(*options, compiler=X86_64):
    """Builds the shared library with options of the linker."""
    return lambda folder: shared(folder, *options, compiler=compiler)


def program(*options, compiler=(X86_64,)):
    """Builds a program with the static library."""
    return lambda folder: build.program(folder, *options, compiler=compiler)


def with_source(text, *options, script=""):
    """Builds the shared library with an additional source, and with a version script."""

    def make(folder):
        pathlib.Path(folder, "more.s").write_text(text.replace("; ", "\n") + "\n")
        pathlib.Path(folder, "version.map").write_text(script)
        scripts = ["-Wl,--version-script=version.map"] if script else []
        return shared(folder, "more.s", *scripts, *options)

    return make


def after(*command, of=shared_library()):
    """Builds a file that a command modifies. Its last argument is the file's name."""

    def make(folder):
        file = of(folder)
        run(*command, file)
        return file

    return make


def archive(folder):
    """Builds an archive of the library's objects."""
    run("ar", "rc", "libconst_hex.a", *objects(X86_64), folder=folder)
    return pathlib.Path(folder, "libconst_hex.a")


def importer(folder):
    """Builds a program that is linked with the shared library."""
    shared(folder, "-Wl,-soname,libconst_hex.so.1").rename(folder / "libconst_hex.so")
    (folder / "main.c").write_bytes(build.PROGRAM)
    return built(X86_64, "main.c", "libconst_hex.so", folder=folder)


SET_RUNPATH = (
    "patchelf",
    "--set-rpath",
    "/a/path/that/is/longer/than/any/space/that/a/linker/leaves",
)
AARCH64_LIBRARY = shared_library(compiler=AARCH64)
HONEST = {
    "a library": shared_library(),
    **{
        f"a library by {linker}": shared_library(f"-fuse-ld={linker}")
        for linker in ("gold", "lld", "mold")
    },
    "a library with packed relocations": shared_library("-Wl,-z,pack-relative-relocs"),
    "a library with unique symbols": shared_library("-Wl,-z,unique-symbol"),
    "symbol versions": with_source("", script=VERSIONS),
    "default symbol versions": shared_library("-Wl,--default-symver"),
    "patchelf": after(*SET_RUNPATH),
    "a program": program(),
    "a program without PIE": program("-no-pie"),
    "a static program with PIE": program("-static-pie"),
    "a program by lld": program("-fuse-ld=lld", "-Wl,--icf=all"),
    "a program by mold": program("-fuse-ld=mold", "-Wl,-z,lazy"),
    "AArch64": AARCH64_LIBRARY,
    "AArch64 and patchelf": after(*SET_RUNPATH, of=AARCH64_LIBRARY),
    "a program for AArch64 by lld": program("-fuse-ld=lld", compiler=CLANG),
    "a program for AArch64 by mold": program("-fuse-ld=mold", compiler=CLANG),
    "macOS on x86-64": lambda folder: for_macos(folder, "x86_64"),
    "macOS on AArch64": lambda folder: for_macos(folder, "arm64"),
    "Windows on AArch64": for_windows_on_aarch64,
}
MISTAKES = {
    "strip -x": (
        after("strip", "-x"),
        "built from portable.c, .* or stripped: .* Use neither strip nor strip -x",
    ),
    "a separate debug file": (
        after("objcopy", "--only-keep-debug"),
        "a separate debug file: prove the file that runs",
    ),
    "writable code": (shared_library("-Wl,-N"), "writable and executable segment: link without -N"),
    "text relocations": (with_source(TEXT_RELOCATION, "-Wl,-z,notext"), "compile .* with -fPIC"),
    "IBT": (shared_library("-Wl,-z,ibt"), "link without -z ibt"),
    "BTI": (shared_library("-Wl,-z,force-bti", compiler=AARCH64), "link without .* -z force-bti"),
    "pages of 4 KB": (
        shared_library("-Wl,-z,max-page-size=4096", compiler=AARCH64),
        "link with -z max-page-size=65536",
    ),
    "a function that is not exported": (
        with_source("", script=ONE_HIDDEN),
        "the loader does not find const_hex_check_raw: export",
    ),
    "two versions of a function": (
        with_source(OLD_VERSION, script=VERSIONS + "V0 {};"),
        "const_hex_check has two addresses: link one version",
    ),
    "IFUNC": (
        with_source(
            ".globl const_hex_x; .type const_hex_x, %gnu_indirect_function; const_hex_x: ret"
        ),
        r"const_hex_x is chosen by the loader \(IFUNC\)",
    ),
    "an absolute symbol": (
        with_source(".globl const_hex_x; const_hex_x = 65536"),
        r"const_hex_x is .* absolute \(SHN_ABS\)",
    ),
    "a program with the shared library": (
        importer,
        "it calls const_hex_.* prove the shared library, such as libconst_hex.so",
    ),
    "functions for C on Windows": (for_windows, "by another ABI, which is not proved"),
    "an archive": (archive, "an archive has to be linked"),
    "an object": (lambda folder: pathlib.Path(objects(X86_64)[0]), "an object has to be linked"),
    "a program without the library": (
        lambda folder: pathlib.Path("/bin/true"),
        "no function of the library, or is stripped: keep",
    ),
}


@pytest.mark.parametrize("make", HONEST.values(), ids=HONEST)
def test_honest_builds_are_read(make, tmp_path):
    file, functions = proofs.functions_to_prove(make(tmp_path).read_bytes())
    is_x86_64 = file.machine == image.X86_64
    assert {f"const_hex_{name}" for name in FUNCTIONS} <= file.symbols.keys()
    assert len(functions) == (45 if is_x86_64 else 37)
    assert all(file.code_at(file.symbols[symbol]) for symbol, _ in functions)
    dispatch_bytes = [file.is_dispatch_byte(address) for address in file.dispatch_bytes]
    assert dispatch_bytes == [True] * is_x86_64


def test_symbols_of_debug_information_have_no_address(tmp_path):
    """Assemblers for AArch64 mark data there, too, at distances from the start of the section."""
    make = with_source(".section .debug_info; .skip 12345; mark: .byte 0")
    assert 12345 not in library.read(make(tmp_path).read_bytes()).symbol_addresses


def test_a_program_for_avx2_alone_is_read():
    """Such a program calls this kernel directly, and has no dispatcher."""
    text = "".join((build.RUST / f"{name}.s").read_text() for name in ("elf", "x86_64_v3"))
    assert len(proofs.functions_to_prove(build.linked(text))[1]) == 4


@pytest.mark.parametrize("make, message", MISTAKES.values(), ids=MISTAKES)
def test_mistakes_are_rejected(make, message, tmp_path):
    with pytest.raises(ValueError, match=message):
        proofs.functions_to_prove(make(tmp_path).read_bytes())
