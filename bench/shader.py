"""The words of a module: its header, then its instructions."""

import struct

HEADER_WORDS = 5
BOUND_AT = 3


def instructions(words):
    at = HEADER_WORDS
    while at < len(words):
        end = at + (words[at] >> 16)
        yield words[at:end]
        at = end


def opcode(instruction):
    return instruction[0] & 0xFFFF


def instruction(code, *operands):
    return [(1 + len(operands)) << 16 | code, *operands]


def read(path):
    """The header of a little-endian module, and the list of its instructions."""
    with open(path, "rb") as file:
        data = file.read()
    words = struct.unpack(f"<{len(data) // 4}I", data)
    return list(words[:HEADER_WORDS]), [list(it) for it in instructions(words)]


def write(path, header, body):
    words = list(header)
    for it in body:
        words.extend(it)
    with open(path, "wb") as file:
        file.write(struct.pack(f"<{len(words)}I", *words))
