"""Builds the mutants of the tables in the folder mutants. The name of a section says which code is mutated and, after
a colon, how; its lines have the mutation, the name of a contract, if it is not the first one of a function, and a part
of the message with which the prover rejects the mutant. A builder of a table returns the bytes of a mutant, the name
of the function to prove, and contracts, among which are its own."""

import collections
import configparser
import functools
import pathlib

from build import ASM, RUST, compiler_for, linked, linked_module
from contracts.dispatch import KERNEL_DISPATCHERS, NULL_ERROR_WRAPPERS
from contracts.kernels import KERNELS
from contracts.library import FUNCTIONS, Version
from contracts.messages import MESSAGES
from contracts.names import VERSION
from programs import COMMITTED, WASM, edited, lines_of, program, text_of

FOLDER = pathlib.Path(__file__).parent / "mutants"
# Templates: of const_hex_version, with some instructions, which are the forms that are tested, and the version,
FORM = """
    .intel_syntax noprefix
    .globl const_hex_version; const_hex_version: {0}; mov eax, {1}; ret
    helper: ud2
    .section .rodata; .balign 16; table: .skip 32
    .data; kept: .byte 0
"""
FORM_ON_AARCH64 = """
    .globl const_hex_version; const_hex_version: {0}; mov w0, #{1}; ret
    .section .rodata; .balign 16; table: .skip 32
    .section .text.other, "ax"; other: ret
"""
# and of const_hex_error_message, with its body.
MESSAGE = """
    .intel_syntax noprefix
    .section .text.const_hex_error_message, "ax"; .globl const_hex_error_message
    const_hex_error_message: {}; 9: ud2
    .section .text.const_hex_message_write_ended, "ax"
    const_hex_message_write_ended: ret
    .section .rodata.text, "a"; text: .ascii "odd number of digits"; .skip 80
"""
# A variable of the program, of the same size, before the dispatcher's byte.
VARIABLE = ".bss\n.size choice, 1\nchoice: .zero 1\n"
INCLUDED = '#include "../../rust/src/asm/dispatch.s"'
# A small module: it checks one character after the other.
MODULE = """(module (memory (export "memory") 1 1) (global (mut i32) (i32.const 4096))
  (global i32 (i32.const 4800)) (export "__data_end" (global 1)) (export "__heap_base" (global 1)) {part}
  (func (export "const_hex_check_raw") (param i32 i32) (result i32) (local i32 i32)
    {start} block block local.get 1 i32.eqz br_if 0
    loop
      local.get 0 i32.load8_u local.tee 3 {character} i32.const 48 i32.sub i32.const 10 i32.lt_u
      local.get 3 i32.const 32 i32.or i32.const 97 i32.sub i32.const 6 i32.lt_u i32.or i32.eqz br_if 2
      local.get 0 i32.const 1 i32.add local.set 0
      local.get 1 i32.const 1 i32.sub local.tee 1 {iteration} br_if 0
    end end {end} i32.const 1 return end {invalid} i32.const 0)
  (func (param i32) (result i32) local.get 0 i32.const 1 i32.add)
  (data (i32.const 4096) "{data}"))"""


def functions(target, old="", new="", within=None):
    """A mutant of a function in the committed assembly, or in the module."""
    build, _, function = target.rpartition(" ")
    contracts = FUNCTIONS if build == WASM else COMMITTED[build][1]
    return edited(build, within or function, old, new), function, contracts


def programs(target, **changes):
    """A mutant of a small kernel."""
    level, function = target.split()
    return program(level, function, **changes), function, KERNELS


def forms(level, code):
    """A program with some instructions."""
    contract = Version()
    contract.level = level
    template = FORM_ON_AARCH64 if level == "aarch64" else FORM
    content = linked(template.format(code, VERSION), compiler_for(level))
    return content, "version", [contract]


def messages(function, code):
    """A mutant of const_hex_error_message."""
    return linked(MESSAGE.format(code)), function, MESSAGES


def dispatchers(target, old, new):
    """A mutant of a dispatcher."""
    function, name = target.split(", ")
    contracts = [
        each
        for each in (*NULL_ERROR_WRAPPERS, *KERNEL_DISPATCHERS)
        if (each.function, each.name) == (function, name)
    ]
    text = text_of("dispatch")
    if not contracts[0].callable_arguments:
        of_rust = (RUST / "dispatch.s").read_text()
        text = lines_of((ASM / "dispatch.S").read_text().replace(INCLUDED, of_rust))
    old, new = (lines.replace("; ", "\n") for lines in (old, new))
    assert old in text, old
    return linked(VARIABLE + text.replace(old, new)), function, contracts


def modules(function, old="", new="", **changes):
    """A mutant of the small module."""
    text = MODULE
    for before, after in zip(old.split("\n"), new.split("\n")):
        assert before in text, before
        text = text.replace(before, after)
    lines = collections.defaultdict(str, {"data": "\\00" * 600} | changes)
    return linked_module(text.format_map(lines)), function, FUNCTIONS


def all_mutants():
    """For each mutant its name, a function that builds it, its contract, and the message with which
    it is rejected; None for correct code."""
    for builder in (functions, programs, forms, messages, dispatchers, modules):
        table = configparser.RawConfigParser()
        table.read(FOLDER / f"{builder.__name__}.ini")
        for section in table.sections():
            changes = dict(table[section])
            contract, message = changes.pop("contract", None), changes.pop("message", None)
            target = section.partition(": ")[0]
            yield section, functools.partial(builder, target, **changes), contract, message
