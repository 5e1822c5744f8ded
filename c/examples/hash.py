#!/usr/bin/env python3
"""Prints the SHA-256 of a file as 0x and 64 digits, using the shared library: hash.py LIBRARY FILE"""
import ctypes
import hashlib
import sys

PREFIX = 2  # CONST_HEX_PREFIX

library, name = sys.argv[1:]
encode = ctypes.CDLL(library).const_hex_encode
# Without these types ctypes would pass each number as an int.
encode.restype = ctypes.c_bool
encode.argtypes = [
    ctypes.c_char_p,
    ctypes.c_size_t,
    ctypes.c_char_p,
    ctypes.c_size_t,
    ctypes.c_uint,
]

with open(name, "rb") as file:
    digest = hashlib.sha256(file.read()).digest()
text = ctypes.create_string_buffer(2 * len(digest) + 3)
assert encode(digest, len(digest), text, len(text), PREFIX)
print(text.value.decode("ascii"))
