"""What a change tree means in a state, and whether a change that was made could be taken back now just as it was
made."""
from .changes import Edit
from .machine import Refused, perform


def size_of(tree):
    """How many nodes a tree has."""
    return 1 if isinstance(tree, Edit) else 1 + sum(size_of(part) for part in tree.parts)


def need_rules(state, node):
    if state.breach is not None:
        raise Refused(state.breach[0], node, state.breach[1])


def node_meaning(state, tree, node):
    """The state that a node leaves, with what its edits did, or its refusal."""
    if isinstance(tree, Edit):
        try:
            after, done = perform(state, tree)
        except Refused as refused:
            raise Refused(refused.rule, node, refused.about) from None
        return after, [done]
    if tree.kind == "CHOOSE":
        return choose_meaning(state, tree, node)
    performed, part_node = [], node + 1
    for part in tree.parts:
        state, done = node_meaning(state, part, part_node)
        performed += done
        part_node += size_of(part)
    if tree.kind == "GROUP":
        need_rules(state, node)
    return state, performed


def choose_meaning(state, tree, node):
    """The first part that is accepted and leaves no breach; else the last refusal."""
    refusal, part_node = Refused("E3", node), node + 1
    for part in tree.parts:
        try:
            after, done = node_meaning(state, part, part_node)
            need_rules(after, part_node)
            return after, done
        except Refused as refused:
            refusal = refused
        part_node += size_of(part)
    raise refusal


def meaning(state, tree):
    """The state that a whole tree leaves, with what its edits did, or its refusal."""
    after, performed = node_meaning(state, tree, 0)
    need_rules(after, 0)
    return after, performed


def turned(changes):
    """What stood before and after at some cells, exchanged."""
    return tuple((cell, (after, before)) for cell, (before, after) in changes)


def fits(state, performed):
    """Whether the inverses of edits, the last first, each take back just what its edit did, and the rules hold at
    the end."""
    for done in reversed(performed):
        try:
            state, back = perform(state, done.inverse, is_forced=True)
        except Refused:
            return False
        if back.numbers != turned(done.numbers) or back.altered != turned(done.altered):
            return False
    return state.breach is None
