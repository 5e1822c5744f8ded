"""The machine code is proved in files of each format, by linkers for other systems. With the variable
CONST_HEX_WHOLE each function in them is proved, which takes half an hour of processor time."""

import os
import pathlib
import re
import subprocess
import sys

import build
import pytest
from test_files import HONEST

PROVE = pathlib.Path(__file__).parents[1] / "prove"
# These functions read constants, call each other, and are called through the dispatcher.
CALLS = [f"--call={name}" for name in ("kernel_fill_lower", "fill_lower", "check")]


FORMATS = {
    **{name: HONEST[name] for name in HONEST if re.match("macOS|a program for AArch64", name)},
    "Windows with the Rust crate": build.rust_for_windows,
    "AArch64 with the Rust crate": build.rust_for_aarch64,
}


@pytest.mark.parametrize("make", FORMATS.values(), ids=FORMATS)
def test_formats_are_proved(make, tmp_path):
    calls = [] if os.environ.get("CONST_HEX_WHOLE") else CALLS
    command = [sys.executable, PROVE, make(tmp_path), *calls]
    result = subprocess.run(command, capture_output=True, text=True)
    assert result.returncode == 0, result.stdout
