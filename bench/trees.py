"""Makes a module whose functions have blocks of one kind, many of them.

usage: trees.py SHADER KIND COUNT MODULE

It is the shader SHADER, one function of one block, with a boolean constant more, and with the blocks of the kind in
place of that one block. Each function below is a kind, and so is `functions`, which is so many functions of a few
selections each. Those behind "Refused" break a rule on structured control flow.
"""

import sys

sys.dont_write_bytecode = True

from shader import BOUND_AT, instruction, opcode, read, write

OP_TYPE_VOID, OP_TYPE_BOOL, OP_TYPE_INT, OP_CONSTANT_TRUE, OP_CONSTANT = 19, 20, 21, 41, 43
OP_FUNCTION, OP_FUNCTION_END = 54, 56
OP_PHI, OP_LOOP_MERGE, OP_SELECTION_MERGE, OP_LABEL = 245, 246, 247, 248
OP_BRANCH, OP_BRANCH_CONDITIONAL, OP_SWITCH, OP_RETURN = 249, 250, 251, 253
DEEPEST = 255
BLOCKS_OF_A_FUNCTION = 10


class Maker:
    """What the blocks of a module are made of: its types and constants, and fresh ids."""

    def __init__(self, first, integer, number):
        self.next = first
        self.integer, self.number = integer, number
        self.boolean, self.condition = self.fresh(), self.fresh()

    def fresh(self):
        self.next += 1
        return self.next - 1

    def labels(self, count):
        return [self.fresh() for _ in range(count)]

    def declarations(self):
        return [instruction(OP_TYPE_BOOL, self.boolean), instruction(OP_CONSTANT_TRUE, self.boolean, self.condition)]

    def split(self, first, second):
        return instruction(OP_BRANCH_CONDITIONAL, self.condition, first, second)

    def selection(self, merge, first, second):
        return [instruction(OP_SELECTION_MERGE, merge, 0), self.split(first, second)]

    def switch(self, merge, default, cases):
        pairs = [word for literal, case in enumerate(cases) for word in (literal, case)]
        return [instruction(OP_SELECTION_MERGE, merge, 0), instruction(OP_SWITCH, self.number, default, *pairs)]

    def phi(self, parents):
        pairs = [word for parent in parents for word in (self.number, parent)]
        return instruction(OP_PHI, self.integer, self.fresh(), *pairs)


def block(label, *rest):
    return [instruction(OP_LABEL, label), *rest]


def branch(target):
    return instruction(OP_BRANCH, target)


def onward(target):
    """The end of a block that goes on at the next one."""
    return [branch(target), *block(target)]


END = instruction(OP_RETURN)


# ---- Each kind gives the instructions behind the first label, up to and with the last terminator.


def chain(maker, count):
    """Blocks that each branch to the next, which becomes one."""
    for label in maker.labels(count):
        yield from onward(label)
    yield END


def copies(maker, count, before):
    """The same, each block with an OpPhi of the one before."""
    for label in maker.labels(count):
        yield from onward(label)
        yield maker.phi([before])
        before = label
    yield END


def selections(maker, count):
    """Selections of one arm, side by side."""
    for _ in range(count):
        arm, merge = maker.labels(2)
        yield from maker.selection(merge, arm, merge)
        yield from block(arm, branch(merge))
        yield from block(merge)
    yield END


def cases(maker, count):
    """A switch with so many cases, each of its own block."""
    merge, arms = maker.fresh(), maker.labels(count)
    yield from maker.switch(merge, merge, arms)
    for arm in arms:
        yield from block(arm, branch(merge))
    yield from block(merge, END)


def cases_phi(maker, count, before):
    """The same, with an OpPhi of a pair for each case at the merge block."""
    merge, arms = maker.fresh(), maker.labels(count)
    yield from maker.switch(merge, merge, arms)
    for arm in arms:
        yield from block(arm, branch(merge))
    yield from block(merge, maker.phi([before, *arms]), END)


def cases_of_one(maker, count):
    """A switch with so many cases, all of one block."""
    merge, arm = maker.labels(2)
    yield from maker.switch(merge, merge, [arm] * count)
    yield from block(arm, branch(merge))
    yield from block(merge, END)


def phis(maker, count, before):
    """A switch with so many cases, and at its merge block as many OpPhi, each with a pair for each case."""
    merge, arms = maker.fresh(), maker.labels(count)
    yield from maker.switch(merge, merge, arms)
    for arm in arms:
        yield from block(arm, branch(merge))
    yield from block(merge, *(maker.phi([before, *arms]) for _ in range(count)), END)


def loop(maker, header, inside, continuing, merge, target):
    """A loop, up to the label of its merge block: its body, behind a label of its own, and its continue part."""
    body = maker.fresh()
    yield from block(header, instruction(OP_LOOP_MERGE, merge, target, 0), maker.split(body, merge))
    yield from block(body, *inside, branch(target))
    yield from block(target, *continuing, branch(header))
    yield from block(merge)


def loops(maker, count):
    """Loops one behind another, each behind a block of its own."""
    for _ in range(count):
        header, target, merge = maker.labels(3)
        yield branch(header)
        yield from loop(maker, header, [], [], merge, target)
    yield END


def loops_in_place(maker, count):
    """Loops one behind another, each with the merge block of the last one for its header."""
    header = maker.fresh()
    yield branch(header)
    for _ in range(count):
        target, merge = maker.labels(2)
        made = list(loop(maker, header, [], [], merge, target))
        yield from made[:-1]
        header = merge
    yield from block(header, END)


def continue_chain(maker, count):
    """A loop whose continue part is a chain of so many blocks."""
    header, target, merge = maker.labels(3)
    yield branch(header)
    continuing = [it for label in maker.labels(count) for it in onward(label)]
    yield from loop(maker, header, [], continuing, merge, target)
    yield END


def continue_loops(maker, count):
    """A loop whose continue part has so many loops, one behind another."""
    header, target, merge = maker.labels(3)
    yield branch(header)
    yield from loop(maker, header, [], list(loops(maker, count))[:-1], merge, target)
    yield END


def exits(maker, count):
    """A loop whose body leaves it conditionally so often, without merge instructions."""
    header, target, merge = maker.labels(3)
    yield branch(header)
    inside = [it for label in maker.labels(count) for it in (maker.split(merge, label), *block(label))]
    yield from loop(maker, header, inside, [], merge, target)
    yield END


def exits_phi(maker, count):
    """The same, with an OpPhi of a pair for each exit at the merge block."""
    header, body, target, merge = maker.labels(4)
    parents = [body, *maker.labels(count)]
    yield branch(header)
    yield from block(header, instruction(OP_LOOP_MERGE, merge, target, 0), branch(body))
    for parent, label in zip(parents, parents[1:]):
        yield from block(parent, maker.split(merge, label))
    yield from block(parents[-1], branch(target))
    yield from block(target, branch(header))
    yield from block(merge, maker.phi(parents[:-1]), END)


def nested(maker, count, depth=DEEPEST):
    """Selections in one another, 255 deep, with a chain in front of each one and a chain behind it."""
    length = count // (2 * depth)
    merges = maker.labels(depth)
    for merge in merges:
        arm = maker.fresh()
        yield from maker.selection(merge, arm, merge)
        yield from block(arm)
        for label in maker.labels(length):
            yield from onward(label)
    for merge in reversed(merges):
        yield branch(merge)
        yield from block(merge)
        for label in maker.labels(length):
            yield from onward(label)
    yield END


def innermost(maker, count):
    """Selections in one another, 255 deep, and in the innermost so many selections side by side."""
    merges = maker.labels(DEEPEST - 1)
    for merge in merges:
        arm = maker.fresh()
        yield from maker.selection(merge, arm, merge)
        yield from block(arm)
    yield from list(selections(maker, count))[:-1]
    for merge in reversed(merges):
        yield branch(merge)
        yield from block(merge)
    yield END


# ---- Refused where they are more than 255 deep


def deep_selections(maker, count):
    """Selections in one another, so deep."""
    yield from nested(maker, 0, count)


def deep_switches(maker, count):
    """Switches of two cases in one another, so deep."""
    merges = maker.labels(count)
    for merge in merges:
        arm, other = maker.labels(2)
        yield from maker.switch(merge, merge, [arm, other])
        yield from block(other, branch(merge))
        yield from block(arm)
    for merge in reversed(merges):
        yield branch(merge)
        yield from block(merge)
    yield END


def loops_in_loops(maker, count, opening, closing):
    """Loops in one another, so deep: what stands first in the body of each, and what ends its last block."""
    made = [maker.labels(3) for _ in range(count)]
    for header, target, merge in made:
        yield branch(header)
        body = maker.fresh()
        yield from block(header, instruction(OP_LOOP_MERGE, merge, target, 0), maker.split(body, merge))
        yield from block(body, *opening(target))
    for header, target, merge in reversed(made):
        yield from closing(header, target)
        yield from block(merge)
    yield END


def deep_loops(maker, count):
    """Loops in one another's bodies, so deep."""
    yield from loops_in_loops(
        maker, count, lambda target: [], lambda header, target: [branch(target), *block(target, branch(header))]
    )


def deep_continues(maker, count):
    """Loops in one another's continue parts, so deep."""
    yield from loops_in_loops(maker, count, onward, lambda header, target: [branch(header)])


# ---- Refused


def never_entered(maker, count):
    """Selections side by side, and at the end a block to which none branches."""
    yield from selections(maker, count)
    yield from block(maker.fresh(), END)


def falls(maker, count):
    """A switch with so many cases, of which the last branches to the one before it."""
    merge, arms = maker.fresh(), maker.labels(count)
    yield from maker.switch(merge, merge, arms)
    for arm in arms[:-1]:
        yield from block(arm, branch(merge))
    yield from block(arms[-1], branch(arms[-2]))
    yield from block(merge, END)


def all_fall(maker, count):
    """A switch with so many cases, each of which branches to the next one."""
    merge, arms = maker.fresh(), maker.labels(count)
    yield from maker.switch(merge, merge, arms)
    for arm, target in zip(arms, [*arms[1:], merge]):
        yield from block(arm, branch(target))
    yield from block(merge, END)


def bad_targets(maker, count):
    """A switch with so many cases, all of one block, and in that as many selections, each with an arm that is no label."""
    merge, arm = maker.labels(2)
    yield from maker.switch(merge, merge, [arm] * count)
    yield from block(arm, *list(no_labels(maker, count))[:-1], branch(merge))
    yield from block(merge, END)


def deep_targets(maker, count):
    """Selections in one another, so deep, each with an arm that is no label."""
    merges = maker.labels(count)
    for merge in merges:
        arm = maker.fresh()
        yield from maker.selection(merge, arm, maker.number)
        yield from block(arm)
    for merge in reversed(merges):
        yield branch(merge)
        yield from block(merge)
    yield END


def no_labels(maker, count):
    """Selections side by side, each with an arm that is no label."""
    for _ in range(count):
        merge = maker.fresh()
        yield from maker.selection(merge, maker.number, merge)
        yield from block(merge)
    yield END


def one_merge(maker, count):
    """Selections side by side, whose merge instructions all name the last block."""
    last = maker.fresh()
    for label in maker.labels(count):
        yield from maker.selection(last, label, last)
        yield from block(label)
    yield from onward(last)
    yield END


def ring(maker, count):
    """Blocks that each branch to the next, the last to the first of them, with no loop's header."""
    labels = maker.labels(count)
    for label in labels:
        yield from onward(label)
    yield branch(labels[0])


def crossing(maker, count):
    """Selections side by side, each of whose arms branches to the merge block of the one before."""
    before = maker.fresh()
    yield from onward(before)
    for _ in range(count):
        arm, merge = maker.labels(2)
        yield from maker.selection(merge, arm, merge)
        yield from block(arm, branch(before))
        yield from block(merge)
        before = merge
    yield END


BLOCKS = {
    made.__name__: made
    for made in (
        chain,
        copies,
        selections,
        cases,
        cases_phi,
        cases_of_one,
        phis,
        loops,
        loops_in_place,
        continue_chain,
        continue_loops,
        exits,
        exits_phi,
        nested,
        innermost,
        never_entered,
        falls,
        all_fall,
        bad_targets,
        deep_targets,
        no_labels,
        one_merge,
        deep_selections,
        deep_switches,
        deep_loops,
        deep_continues,
        ring,
        crossing,
    )
}
# Kinds that name the block that stands first, in an OpPhi.
NAME_THE_FIRST = {"copies", "cases_phi", "phis"}


def blocks_of(maker, kind, count, first):
    return BLOCKS[kind](maker, count, first) if kind in NAME_THE_FIRST else BLOCKS[kind](maker, count)


def more_functions(maker, count, model):
    """So many functions of the model's types, each of a few selections."""
    for _ in range(count):
        void, _, control, shape = model[1:]
        yield instruction(OP_FUNCTION, void, maker.fresh(), control, shape)
        yield from block(maker.fresh(), *selections(maker, BLOCKS_OF_A_FUNCTION))
        yield instruction(OP_FUNCTION_END)


def main(shader, kind, count, module):
    header, body = read(shader)
    opcodes = [opcode(it) for it in body]
    integer = body[opcodes.index(OP_TYPE_INT)][1]
    number = body[opcodes.index(OP_CONSTANT)][2]
    maker = Maker(header[BOUND_AT], integer, number)

    function, label = opcodes.index(OP_FUNCTION), opcodes.index(OP_LABEL)
    front = body[:function] + maker.declarations() + body[function : label + 1]
    if kind == "functions":
        made = [END, instruction(OP_FUNCTION_END), *more_functions(maker, int(count) - 1, body[function])]
    else:
        made = [*blocks_of(maker, kind, int(count), body[label][1]), instruction(OP_FUNCTION_END)]
    header[BOUND_AT] = maker.next
    write(module, header, front + made)


main(*sys.argv[1:])
