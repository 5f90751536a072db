"""Makes a shader of N pieces: additions, selections, loops and calls by turns, on one variable.

usage: generated.py SHADER N MODULE

It has the declarations of the shader SHADER, one function of one block, without its debug instructions and its last
constant; some constants more; a function of two returns; and the function of the entry point, which loads its word of
the buffer, goes through the pieces and stores the variable.
"""

import sys

sys.dont_write_bytecode = True

from shader import BOUND_AT, instruction, opcode, read, write

OP_SOURCE, OP_NAME, OP_TYPE_BOOL, OP_TYPE_POINTER, OP_TYPE_FUNCTION, OP_CONSTANT = 3, 5, 20, 32, 33, 43
OP_FUNCTION, OP_FUNCTION_PARAMETER, OP_FUNCTION_END, OP_FUNCTION_CALL = 54, 55, 56, 57
OP_VARIABLE, OP_LOAD, OP_STORE, OP_ACCESS_CHAIN = 59, 61, 62, 65
OP_ADD, OP_MULTIPLY, OP_LESS, OP_XOR = 128, 132, 176, 198
OP_LOOP_MERGE, OP_SELECTION_MERGE, OP_LABEL = 246, 247, 248
OP_BRANCH, OP_BRANCH_CONDITIONAL, OP_RETURN, OP_RETURN_VALUE = 249, 250, 253, 254
FUNCTION_CLASS = 7

# The ids of the shader's declarations.
MAIN, INDEX, BUFFER, VOID, ACTION, UINT = 1, 2, 3, 6, 7, 8
ELEMENT, COMPONENT, ZERO = 12, 13, 14
# And those of what is added.
ONE, BOOL, POINTER, TEST, HELPER, ARGUMENT, FIRST_CONSTANT = 15, 16, 17, 18, 19, 20, 21
COUNT, TURN = 38, 39
NEXT = 44


def constants():
    yield instruction(OP_CONSTANT, UINT, ONE, 1)
    yield instruction(OP_TYPE_BOOL, BOOL)
    yield instruction(OP_TYPE_POINTER, POINTER, FUNCTION_CLASS, UINT)
    yield instruction(OP_TYPE_FUNCTION, TEST, UINT, UINT)
    for j in range(10):
        yield instruction(OP_CONSTANT, UINT, FIRST_CONSTANT + j, 3 * j + 2)


def helper():
    yield instruction(OP_FUNCTION, UINT, HELPER, 0, TEST)
    yield instruction(OP_FUNCTION_PARAMETER, UINT, ARGUMENT)
    yield instruction(OP_LABEL, 31)
    yield instruction(OP_LESS, BOOL, 32, ARGUMENT, FIRST_CONSTANT + 5)
    yield instruction(OP_SELECTION_MERGE, 34, 0)
    yield instruction(OP_BRANCH_CONDITIONAL, 32, 33, 34)
    yield instruction(OP_LABEL, 33)
    yield instruction(OP_ADD, UINT, 35, ARGUMENT, FIRST_CONSTANT + 1)
    yield instruction(OP_RETURN_VALUE, 35)
    yield instruction(OP_LABEL, 34)
    yield instruction(OP_MULTIPLY, UINT, 36, ARGUMENT, FIRST_CONSTANT + 2)
    yield instruction(OP_RETURN_VALUE, 36)
    yield instruction(OP_FUNCTION_END)


def beginning():
    yield instruction(OP_FUNCTION, VOID, MAIN, 0, ACTION)
    yield instruction(OP_LABEL, 37)
    yield instruction(OP_VARIABLE, POINTER, COUNT, FUNCTION_CLASS)
    yield instruction(OP_VARIABLE, POINTER, TURN, FUNCTION_CLASS)
    yield instruction(OP_ACCESS_CHAIN, COMPONENT, 40, INDEX, ZERO)
    yield instruction(OP_LOAD, UINT, 41, 40)
    yield instruction(OP_ACCESS_CHAIN, ELEMENT, 42, BUFFER, ZERO, 41)
    yield instruction(OP_LOAD, UINT, 43, 42)
    yield instruction(OP_STORE, COUNT, 43)


def addition(fresh, c):
    a, b = fresh(2)
    yield instruction(OP_LOAD, UINT, a, COUNT)
    yield instruction(OP_ADD, UINT, b, a, c)
    yield instruction(OP_STORE, COUNT, b)


def selection(fresh, c):
    a, b, t, x, e, y, m = fresh(7)
    yield instruction(OP_LOAD, UINT, a, COUNT)
    yield instruction(OP_LESS, BOOL, b, a, c)
    yield instruction(OP_SELECTION_MERGE, m, 0)
    yield instruction(OP_BRANCH_CONDITIONAL, b, t, e)
    for label, code, value in ((t, OP_MULTIPLY, x), (e, OP_XOR, y)):
        yield instruction(OP_LABEL, label)
        yield instruction(code, UINT, value, a, c)
        yield instruction(OP_STORE, COUNT, value)
        yield instruction(OP_BRANCH, m)
    yield instruction(OP_LABEL, m)


def loop(fresh, c):
    h, b, a, q, d, x, y, g, z, w, m = fresh(11)
    yield instruction(OP_STORE, TURN, ZERO)
    yield instruction(OP_BRANCH, h)
    yield instruction(OP_LABEL, h)
    yield instruction(OP_LOOP_MERGE, m, g, 0)
    yield instruction(OP_BRANCH, b)
    yield instruction(OP_LABEL, b)
    yield instruction(OP_LOAD, UINT, a, TURN)
    yield instruction(OP_LESS, BOOL, q, a, c)
    yield instruction(OP_BRANCH_CONDITIONAL, q, d, m)
    yield instruction(OP_LABEL, d)
    yield instruction(OP_LOAD, UINT, x, COUNT)
    yield instruction(OP_ADD, UINT, y, x, a)
    yield instruction(OP_STORE, COUNT, y)
    yield instruction(OP_BRANCH, g)
    yield instruction(OP_LABEL, g)
    yield instruction(OP_LOAD, UINT, z, TURN)
    yield instruction(OP_ADD, UINT, w, z, ONE)
    yield instruction(OP_STORE, TURN, w)
    yield instruction(OP_BRANCH, h)
    yield instruction(OP_LABEL, m)


def call(fresh, c):
    a, b = fresh(2)
    yield instruction(OP_LOAD, UINT, a, COUNT)
    yield instruction(OP_FUNCTION_CALL, UINT, b, HELPER, a)
    yield instruction(OP_STORE, COUNT, b)


PIECES = (call, addition, selection, loop)


def main(shader, count, module):
    header, body = read(shader)
    front = [it for it in body if opcode(it) not in (OP_SOURCE, OP_NAME)]
    codes = [opcode(it) for it in front]
    declared = codes.index(OP_CONSTANT) + 1
    variables = [it for it in front if opcode(it) == OP_VARIABLE]
    ids = iter(range(NEXT, 1 << 22))

    def fresh(n):
        return [next(ids) for _ in range(n)]

    made = [*front[:declared], *constants(), *variables, *helper(), *beginning()]
    for k in range(1, int(count) + 1):
        made.extend(PIECES[k % 4](fresh, FIRST_CONSTANT + k % 10))
    (last,) = fresh(1)
    made.append(instruction(OP_LOAD, UINT, last, COUNT))
    made.append(instruction(OP_STORE, 42, last))
    made.append(instruction(OP_RETURN))
    made.append(instruction(OP_FUNCTION_END))
    header[BOUND_AT] = last + 1
    write(module, header, made)


main(*sys.argv[1:])
