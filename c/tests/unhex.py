"""Tests of the example unhex: unhex.py COMMAND.."""
import subprocess
import sys

CHUNK = 65536
BYTES = b"".join(b"%d\n" % number for number in range(40000))
DIGITS = BYTES.hex().encode()

# What unhex reads, its exit status, and what it writes: bytes, or a message.
TEXTS = [
    (b"", 0, b""),
    (b"0X" + DIGITS + b"\n", 0, BYTES),
    (DIGITS[:CHUNK] + b"0x6262", 1, b"unhex: invalid character 'x' at position 65537\n"),
    (DIGITS[: CHUNK - 1] + b"\n61", 1, b"unhex: invalid character '\\n' at position 65535\n"),
    (b"0x6b6", 1, b"unhex: odd number of digits\n"),
]
NOT_WRITTEN = b"unhex: the output cannot be written\n"


def check(text, status, expected, output=subprocess.PIPE):
    ran = subprocess.run(
        sys.argv[1:], input=text, stdout=output, stderr=subprocess.PIPE, timeout=60
    )
    message = ran.stderr.replace(b"\r\n", b"\n")
    found = ran.returncode, message if status else ran.stdout
    if found != (status, expected):
        sys.exit(f"{text[:20]}..: {str(found)[:200]}, and not {str((status, expected))[:200]}")


for row in TEXTS:
    check(*row)
for text in (b"6b", DIGITS):
    with open("/dev/full", "wb") as full:
        check(text, 2, NOT_WRITTEN, full)
