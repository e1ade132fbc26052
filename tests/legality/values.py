"""What the texts of known operands mean. A text that has none of an operand's forms is `Malformed`."""
import re

from .operands import cut

NAME = re.compile(r"[A-Z][A-Z0-9]{0,7}")
DECIMAL = re.compile(r"[0-9]+")
CSSS = range(6)


class Malformed(Exception):
    """S4."""


def need(condition):
    if not condition:
        raise Malformed


def is_list(text):
    """Whether a text is one pair of parentheses with something between them."""
    if not (text.startswith("(") and text.endswith(")")):
        return False
    depth = 0
    for place, letter in enumerate(text):
        depth += (letter == "(") - (letter == ")")
        if depth == 0:
            return place == len(text) - 1
    return False


def items_of(text):
    """The items of a list."""
    need(is_list(text) and "'" not in text)
    return cut(text[1:-1])


def items_or_one(text):
    return items_of(text) if is_list(text) else [text]


def hexadecimal(text, digits, most=None):
    need(re.fullmatch(r"[0-9A-F]{1,%d}" % digits, text))
    number = int(text, 16)
    need(most is None or number <= most)
    return number


def decimal(text, least, most):
    need(DECIMAL.fullmatch(text))
    number = int(text)
    need(least <= number <= most)
    return number


def name_of(text):
    need(NAME.fullmatch(text) and text != "REC")
    return text


def names_of(texts):
    """Names as a set: ascending, each once."""
    return tuple(sorted({name_of(text) for text in texts}))


def inside_css(text):
    """What stands inside a word CSS(..), or None."""
    if text.startswith("CSS(") and is_list(text[3:]):
        return text[4:-1]
    return None


def css_of(text):
    inner = inside_css(text)
    need(inner is not None)
    return decimal(inner, 0, 5)


def is_group(text):
    """Whether a text is a list whose first item is a word CSS(..), or at least begins and ends like one."""
    first = (cut(text[1:-1]) or [""])[0] if is_list(text) else ""
    return first.startswith("CSS(") and first.endswith(")")


def group_of(items, may_be_empty):
    need(len(items) > 1 or may_be_empty)
    return css_of(items[0]), items[1:]


def by_css(text, may_be_empty=False):
    """The items of each channel subsystem, ascending: groups, one group alone, or items alone for channel subsystem
    0."""
    items = items_of(text)
    if is_group(text):
        groups = [group_of(items, may_be_empty)]
    elif is_group(items[0]):
        need(all(is_group(item) for item in items))
        groups = [group_of(items_of(item), may_be_empty) for item in items]
    else:
        need(not any(is_group(item) for item in items))
        groups = [(0, items)]
    joined = {}
    for css, group in groups:
        joined.setdefault(css, []).extend(group)
    return sorted(joined.items())


def opened(text):
    """The items of a list, quotes and all, or None of another text: `(A)X` and `(A)(B)` are none."""
    return cut(text[1:-1]) if len(text) > 1 and text.startswith("(") and text.endswith(")") else None


def words_of(text):
    """The words of a value at every depth: a list is opened, and another piece is one word. So nothing between the
    parentheses of CSS(..) is a word by itself, and nothing in a piece that goes on after a list."""
    items = opened(text)
    return [text] if items is None else [word for item in items for word in words_of(item)]


def has_several_css(text):
    """S5: a word CSS(..) with two or more decimal items."""
    inner = [inside_css(word) for word in words_of(text)]
    return any(sum(bool(DECIMAL.fullmatch(item)) for item in cut(it) or []) > 1 for it in inner if it is not None)


def has_several_paths(text):
    """S5 of a CHPID's path: two or more words of one or two hexadecimal digits outside CSS(..)."""
    return sum(bool(re.fullmatch(r"[0-9A-F]{1,2}", word)) for word in words_of(text)) > 1
