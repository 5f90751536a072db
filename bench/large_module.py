"""Makes a valid module of nearly 4,194,304 bytes, the most that is read from one file.

usage: large_module.py SHADER MODULE STRIPPED

It is the shader SHADER, one function of one block that has no OpName but that of its entry point,
with a constant for each fresh id and a name for each constant, four words each, so that half of the
words added are names and half constants. MODULE gets the module, and STRIPPED the same one without
its debug instructions.
"""

import struct
import sys

sys.dont_write_bytecode = True

from shader import BOUND_AT, HEADER_WORDS, instruction, opcode, read, write

MOST_WORDS = 4_194_304 // 4
OP_SOURCE, OP_NAME, OP_TYPE_INT, OP_CONSTANT, OP_FUNCTION = 3, 5, 21, 43, 54
DEBUG = {OP_SOURCE, OP_NAME}


def name(target, text):
    padded = text.encode() + b"\0" * (4 - len(text) % 4)
    string = struct.unpack(f"<{len(padded) // 4}I", padded)
    return instruction(OP_NAME, target, *string)


def main(shader, module, stripped):
    header, body = read(shader)
    pairs = (MOST_WORDS - HEADER_WORDS - sum(map(len, body))) // 8
    fresh = range(header[BOUND_AT], header[BOUND_AT] + pairs)
    header[BOUND_AT] += pairs
    opcodes = [opcode(it) for it in body]
    uint = body[opcodes.index(OP_TYPE_INT)][1]
    constants = [instruction(OP_CONSTANT, uint, id, id) for id in fresh]
    names = [name(id, f"c{id:06}") for id in fresh]

    # Names go behind the name that is there, constants in front of the function.
    named, function = opcodes.index(OP_NAME) + 1, opcodes.index(OP_FUNCTION)
    body = body[:named] + names + body[named:function] + constants + body[function:]

    write(module, header, body)
    write(stripped, header, [it for it in body if opcode(it) not in DEBUG])


main(*sys.argv[1:])
