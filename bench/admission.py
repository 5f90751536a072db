"""Makes a module with much of one kind.

usage: admission.py SHADER KIND COUNT MODULE

It is the shader SHADER, one function of one block, with more of the kind: `additions` and `uses` put so many additions
in front of the block's end, each of the one before it, or all of one id; `globals` adds so many variables and as many
entry points, each of a function that calls one which loads all variables, and lists them all.
"""

import struct
import sys

sys.dont_write_bytecode = True

from shader import BOUND_AT, instruction, opcode, read, write

OP_ENTRY_POINT, OP_EXECUTION_MODE, OP_TYPE_INT, OP_TYPE_POINTER, OP_CONSTANT = 15, 16, 21, 32, 43
OP_FUNCTION, OP_FUNCTION_END, OP_FUNCTION_CALL, OP_VARIABLE, OP_LOAD = 54, 56, 57, 59, 61
OP_ADD, OP_LABEL, OP_RETURN = 128, 248, 253
COMPUTE, LOCAL_SIZE, PRIVATE = 5, 17, 6


class Shader:
    """The shader's instructions, by what stands in front and behind, and fresh ids."""

    def __init__(self, path):
        self.header, self.body = read(path)
        self.codes = [opcode(it) for it in self.body]
        self.integer = self.first(OP_TYPE_INT)[1]
        self.number = self.first(OP_CONSTANT)[2]

    def first(self, code):
        return self.body[self.codes.index(code)]

    def fresh(self):
        self.header[BOUND_AT] += 1
        return self.header[BOUND_AT] - 1


def additions(shader, count):
    """Additions in one block, each of the one before it."""
    return sums(shader, count, lambda last: last)


def uses(shader, count):
    """Additions in one block, all of one constant."""
    return sums(shader, count, lambda last: shader.number)


def sums(shader, count, operand):
    made, last = [], shader.number
    for _ in range(count):
        sum_id = shader.fresh()
        made.append(instruction(OP_ADD, shader.integer, sum_id, operand(last), shader.number))
        last = sum_id
    end = shader.codes.index(OP_RETURN)
    return shader.body[:end] + made + shader.body[end:]


def text(name):
    padded = name.encode() + b"\0" * (4 - len(name) % 4)
    return struct.unpack(f"<{len(padded) // 4}I", padded)


def many_globals(shader, count):
    """Variables, and as many entry points that list them all, since each calls a function that loads them all."""
    pointer = shader.fresh()
    variables = [shader.fresh() for _ in range(count)]
    entries = [shader.fresh() for _ in range(count)]
    loading = shader.fresh()
    void, _, control, shape = shader.first(OP_FUNCTION)[1:]
    codes, body = shader.codes, shader.body
    entry, mode, function = codes.index(OP_ENTRY_POINT), codes.index(OP_EXECUTION_MODE), codes.index(OP_FUNCTION)
    points = [instruction(OP_ENTRY_POINT, COMPUTE, id, *text(f"e{id}"), *variables) for id in entries]
    modes = [instruction(OP_EXECUTION_MODE, id, LOCAL_SIZE, 1, 1, 1) for id in entries]
    declared = [instruction(OP_TYPE_POINTER, pointer, PRIVATE, shader.integer)]
    declared += [instruction(OP_VARIABLE, pointer, id, PRIVATE) for id in variables]
    made = [instruction(OP_FUNCTION, void, loading, control, shape), instruction(OP_LABEL, shader.fresh())]
    made += [instruction(OP_LOAD, shader.integer, shader.fresh(), id) for id in variables]
    made += [instruction(OP_RETURN), instruction(OP_FUNCTION_END)]
    for id in entries:
        made += [instruction(OP_FUNCTION, void, id, control, shape), instruction(OP_LABEL, shader.fresh())]
        made += [instruction(OP_FUNCTION_CALL, void, shader.fresh(), loading)]
        made += [instruction(OP_RETURN), instruction(OP_FUNCTION_END)]
    return (
        body[: entry + 1] + points + body[entry + 1 : mode + 1] + modes + body[mode + 1 : function] + declared
        + body[function:] + made
    )


KINDS = {"additions": additions, "uses": uses, "globals": many_globals}


def main(path, kind, count, module):
    shader = Shader(path)
    made = KINDS[kind](shader, int(count))
    write(module, shader.header, made)


main(*sys.argv[1:])
