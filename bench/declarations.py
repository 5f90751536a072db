"""Makes a valid module with many declarations or decorations of one kind.

usage: declarations.py SHADER KIND COUNT SPACING MODULE

It is the shader SHADER, one function of one block, with so many more of the kind, on ids that are the
spacing apart from the first free one on. The kinds:

constants    integer constants, each of its own number
arrays       array types, each of the one before, up to a depth of 200, where an integer has depth 1
decorations  a SpecId for each of so many specialisation constants
members      members of structs of 16,383, the most that one may have, each with its Offset
"""

import sys

sys.dont_write_bytecode = True

from shader import BOUND_AT, instruction, opcode, read, write

OP_TYPE_VOID, OP_TYPE_INT, OP_TYPE_ARRAY, OP_TYPE_STRUCT = 19, 21, 28, 30
OP_CONSTANT, OP_SPEC_CONSTANT, OP_FUNCTION = 43, 50, 54
OP_DECORATE, OP_MEMBER_DECORATE = 71, 72
SPEC_ID, OFFSET = 1, 35
MOST_MEMBERS = 16_383
MOST_DEPTH = 200
MOST_IDS = 4_194_303


def constants(integer, length, ids):
    """So many constants, with no decorations."""
    return [], [instruction(OP_CONSTANT, integer, id, id) for id in ids]


def arrays(integer, length, ids):
    types, inner, depth = [], integer, 1
    for id in ids:
        if depth == MOST_DEPTH:
            inner, depth = integer, 1
        types.append(instruction(OP_TYPE_ARRAY, id, inner, length))
        inner, depth = id, depth + 1
    return [], types


def decorations(integer, length, ids):
    marks = [instruction(OP_DECORATE, id, SPEC_ID, number) for number, id in enumerate(ids)]
    return marks, [instruction(OP_SPEC_CONSTANT, integer, id, id) for id in ids]


def members(integer, length, ids):
    marks, types, left = [], [], len(ids)
    for id in ids:
        count = min(left, MOST_MEMBERS)
        if count == 0:
            break
        marks += [instruction(OP_MEMBER_DECORATE, id, k, OFFSET, 4 * k) for k in range(count)]
        types.append(instruction(OP_TYPE_STRUCT, id, *[integer] * count))
        left -= count
    return marks, types


KINDS = {made.__name__: made for made in (constants, arrays, decorations, members)}


def main(shader, kind, count, spacing, module):
    header, body = read(shader)
    first, spacing = header[BOUND_AT], int(spacing)
    ids = range(first, first + int(count) * spacing, spacing)
    if ids[-1] >= MOST_IDS:
        sys.exit("declarations.py: too many ids so far apart")

    opcodes = [opcode(it) for it in body]
    integer = body[opcodes.index(OP_TYPE_INT)][1]
    # The shader's last constant is the number 2, as long as each array is.
    length = body[len(body) - 1 - opcodes[::-1].index(OP_CONSTANT)][2]
    marks, made = KINDS[kind](integer, length, ids)
    header[BOUND_AT] = ids[len(made) - 1] + 1

    # Decorations go in front of the types, declarations in front of the function.
    types, function = opcodes.index(OP_TYPE_VOID), opcodes.index(OP_FUNCTION)
    write(module, header, body[:types] + marks + body[types:function] + made + body[function:])


main(*sys.argv[1:])
