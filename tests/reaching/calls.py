"""Which functions are called from where: `reached(roots, functions)`, found by name.

`name(..)`, and `name` as a value, are all free functions of that name, `.name(..)` all methods of that name,
and `Type::name` those of that type. So a function counts as called where one of its name is.
"""
import collections
import re

CALL = re.compile(r"(?:(\w+)\s*(?:::\s*<[^;{}()]*?>\s*)?::\s*|(\.)\s*)?\b([a-z_]\w*)\b")


def called_by(function, free, methods, owned):
    """All that a function calls."""
    found = []
    for owner, dot, name in CALL.findall(function.body):
        if dot:
            found += methods.get(name, ())
        elif owner[:1].isupper():
            found += owned.get((function.owner if owner == "Self" else owner, name), ()) or methods.get(name, ())
        else:
            found += free.get(name, ())
    return found


def reached(roots, functions):
    """The roots, and all functions that they call, also by way of others."""
    free, methods, owned = (collections.defaultdict(list) for _ in range(3))
    for it in functions:
        (methods if it.owner else free)[it.name].append(it)
        if it.owner:
            owned[it.owner, it.name].append(it)
    seen, left = set(roots), list(roots)
    while left:
        new = [it for it in called_by(left.pop(), free, methods, owned) if it not in seen]
        seen.update(new)
        left += new
    return seen
