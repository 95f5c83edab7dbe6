r"""Quoted texts in files of rows: their escapes are \n, \r, \t, \0, \\, \", \u{HEX}, and \xHH for a byte."""
import re

ESCAPES = {"n": b"\n", "r": b"\r", "t": b"\t", "0": b"\0", "\\": b"\\", '"': b'"'}
ESCAPE = re.compile(r"\\(?:u\{([0-9a-fA-F]{1,6})\}|x([0-9a-fA-F]{2})|(.))|([^\\]+)", re.S)


class Malformed(Exception):
    """What is wrong with a file of rows."""


def unquoted(text):
    """Returns the bytes that a quoted text stands for."""
    found = b""
    for code, byte, letter, plain in ESCAPE.findall(text):
        if letter and letter not in ESCAPES:
            raise Malformed(f"no escape: \\{letter}")
        found += chr(int(code, 16)).encode() if code else bytes.fromhex(byte) if byte else ESCAPES[letter] if letter else plain.encode()
    return found
