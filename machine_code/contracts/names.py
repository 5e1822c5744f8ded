"""The table of the functions of const_hex.h, by their names without const_hex_: docs/check compares
it with the header and the pages, and `prove` with the symbols of a library and the exports of the
module."""

import pathlib
import re
from collections import namedtuple

HEADER_TEXT = (pathlib.Path(__file__).resolve().parents[2] / "c" / "const_hex.h").read_text()
VERSION = int(re.search(r"#define CONST_HEX_VERSION (\d+)", HEADER_TEXT)[1])
Function = namedtuple(
    "Function", "parameters is_constant_time is_in_module", defaults=(True, False)
)
FUNCTIONS = {
    "encoded_size": Function("bytes_length flags"),
    "encode": Function("bytes bytes_length text text_size flags", is_in_module=True),
    "decode": Function("text text_length bytes bytes_size written error"),
    "decode_exact": Function("text text_length bytes bytes_length error"),
    "decoder_update": Function(
        "decoder text text_length bytes bytes_size written error", is_in_module=True
    ),
    "decoder_finish": Function("decoder error", is_in_module=True),
    "check": Function("text text_length error"),
    "check_raw": Function("text text_length"),
    "error_message": Function("error message message_size", is_constant_time=False),
    "version": Function(""),
}
# The functions of kernels, with their parameters.
KERNELS = {
    "kernel_check": "text text_length",
    "kernel_fill_lower": "bytes bytes_length text",
    "kernel_fill_upper": "bytes bytes_length text",
    "kernel_read": "text bytes bytes_size",
}
# The functions whose last parameter is an error, which may be NULL.
WITH_ERROR = {name for name in FUNCTIONS if FUNCTIONS[name].parameters.endswith(" error")}
