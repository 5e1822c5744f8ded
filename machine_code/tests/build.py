"""Builds the files that tests prove, from the assembly in this repository and from small programs."""

import functools
import os
import pathlib
import re
import shutil
import subprocess
import tempfile

import pytest

TOP = pathlib.Path(__file__).resolve().parents[2]
C, RUST = TOP / "c", TOP / "rust" / "src" / "asm"
ASM = C / "asm"
MODULE = os.environ.get("CONST_HEX_MODULE", TOP / "js" / "src" / "const_hex.wasm")
X86_64, AARCH64 = "cc", "aarch64-linux-gnu-gcc"  # compilers
CLANG = "clang", "--target=aarch64-linux-gnu"
OBJECTS = tempfile.TemporaryDirectory()  # It lasts until the tests end.
PROGRAM = b"int const_hex_version(void); int main(void) { return const_hex_version(); }"


def run(*command, folder=None, text=b""):
    """The output of a command. The test is skipped if the command is missing."""
    if not shutil.which(command[0]):
        pytest.skip(f"{command[0]} is missing")
    try:
        return subprocess.run(
            command, cwd=folder, input=text, check=True, capture_output=True
        ).stdout
    except subprocess.CalledProcessError as error:
        raise AssertionError(f"{command}: {error.stderr.decode()}") from None


def compiler_for(build):
    """The compiler for a build, by the end of its name."""
    return AARCH64 if build.lower().endswith("aarch64") else X86_64


def linked(text, compiler=X86_64):
    """The bytes of a program with some assembly. Undefined functions of the library become stubs,
    which only return."""
    with tempfile.TemporaryDirectory() as folder:
        assemble = [compiler, "-c", "-x", "assembler-with-cpp", f"-I{ASM}", "-o", "source.o", "-"]
        run(*assemble, text=text.encode(), folder=folder)
        undefined = run("nm", "-u", "source.o", folder=folder).decode()
        stub = ".globl {0}\n.hidden {0}\n.type {0}, %function\n{0}: ret\n"
        stubs = map(stub.format, re.findall(r"\bconst_hex_\w+", undefined))
        pathlib.Path(folder, "stubs.s").write_text("".join(stubs))
        options = ["-static-pie", "-nostdlib", "-Wl,-e,0", "-Wl,--unresolved-symbols=ignore-all"]
        return built(compiler, *options, "source.o", "stubs.s", folder=folder).read_bytes()


def linked_module(text):
    """The bytes of a module in the text format."""
    return run("wat2wasm", "-", "--output=-", text=text.encode())


@functools.cache
def objects(*compiler):
    """The objects of the C library, by a compiler. Kernels for other processors are empty."""
    folder = tempfile.mkdtemp(dir=OBJECTS.name)
    sources = sorted(ASM.glob("*.S"))
    run(*compiler, "-c", *sources, folder=folder)
    return [f"{folder}/{source.stem}.o" for source in sources]


def built(*command, folder):
    """The path of the file that a command builds."""
    run(*command, "-o", "built.out", folder=folder)
    return pathlib.Path(folder, "built.out")


def shared(folder, *options, compiler=X86_64):
    """The shared C library."""
    command = compiler, "-shared", "-nostdlib", "-Wl,-z,relro,-z,now"
    return built(*command, *objects(compiler), *options, folder=folder)


def program(folder, *options, compiler=(X86_64,)):
    """A program with the static C library."""
    pathlib.Path(folder, "main.c").write_bytes(PROGRAM)
    return built(*compiler, "main.c", *objects(*compiler), *options, folder=folder)


def for_macos(folder, processor):
    """A dylib for macOS, by ld64.lld."""
    linkers = sorted(pathlib.Path("/usr/lib").glob("llvm-*/bin/ld64.lld"))
    inputs = objects("clang", f"--target={processor}-apple-macos11")
    command = [str(linkers[-1]) if linkers else "ld64.lld", "-arch", processor, "-dylib"]
    command += ["-platform_version", "macos", "11.0", "11.0"]
    return built(*command, *inputs, folder=folder)


def for_windows(folder):
    """A DLL with the C library, by mingw."""
    mingw = "x86_64-w64-mingw32-gcc"
    return built(mingw, "-shared", C / "windows.c", *objects(mingw), folder=folder)


def for_windows_on_aarch64(folder):
    """A DLL with the C library, by lld-link."""
    inputs = objects("clang", "--target=aarch64-windows-gnu")
    run("lld-link", "/dll", "/noentry", "/debug:symtab", "/out:built.dll", *inputs, folder=folder)
    return pathlib.Path(folder, "built.dll")


def with_rust(folder, target, name, *variables):
    """A program with the Rust crate for another system, by Debian's cargo."""
    options = ["--target", target, "--target-dir", folder]
    manifest = ["--manifest-path", TOP / "rust" / "hexfilter" / "Cargo.toml"]
    run("env", "PATH=/usr/bin:/bin", *variables, "/usr/bin/cargo", "build", *manifest, *options)
    return pathlib.Path(folder, target, "debug", name)


def rust_for_windows(folder):
    """A program for Windows on x86-64 with the Rust crate, by mingw."""
    return with_rust(folder, "x86_64-pc-windows-gnu", "hexfilter.exe")


def rust_for_aarch64(folder):
    """A program for Linux on AArch64 with the Rust crate. .ci/run unpacks the standard library."""
    target = "aarch64-unknown-linux-gnu"
    library = TOP / "build" / "std" / "usr" / "lib" / "rustlib" / target / "lib"
    return with_rust(
        folder,
        target,
        "hexfilter",
        f"CARGO_ENCODED_RUSTFLAGS=-L{library}",
        f"CARGO_TARGET_AARCH64_UNKNOWN_LINUX_GNU_LINKER={AARCH64}",
    )
