"""Lines of JSON, turned back into the text that is printed without `--json`."""
import json

from .listed_lines import table_of
from .shapes import HEADING

COMMANDS = ("check", "show", "list", "apply")
NOT_IN_LINES = ("--deck", "--plan", "--undo")
HOW_OFTEN = 0.05
MASKS = (("pim", "installed"), ("pam", "available"))


def is_in_lines(words):
    """Whether lines of JSON are tried of a command."""
    return words[0] in COMMANDS and not any(word in words for word in NOT_IN_LINES)


def fault_of_lines(words, printed, text):
    """What is wrong with lines beside the text of the same command."""
    values = []
    for line in printed.splitlines():
        try:
            values.append(json.loads(line))
        except ValueError:
            return f"no JSON: {line[:200]!r}"
        compact = json.dumps(values[-1], sort_keys=True, separators=(",", ":"), ensure_ascii=True)
        if line.decode("latin-1") != compact:
            return f"not compact, or not in order: {line[:200]!r}"
    wrong = next((it for value in values for it in faults_of_masks(value)), "")
    lines = text_of(words, values, text)
    if is_list_of_faults(values):
        lines = lines[:1]
    return wrong or ("" if lines == text.decode("latin-1").splitlines() else f"{lines[:5]}")


def is_list_of_faults(values):
    """Of a deck that can't be read, text tells the first fault on standard output, and lines tell all of them."""
    return bool(values) and all("line" in value and value["type"] == "refused" for value in values)


def text_of(words, values, text):
    """The text of lines. Whether a list of images is all that there are, the text of the same command says."""
    if words[0] == "list" and not any(value["type"] == "refused" for value in values):
        return table_of(words[1], values, b":all" in text).splitlines()
    lines, heading = [], [HEADING]
    if words[0] == "show" and not any(value["type"] == "refused" for value in values):
        lines, heading = [HEADING], []
    for value in values:
        if value["type"] == "change" and "--altered" in words:
            lines += [f"change {value['change']} altered {value['altered']}", f"  {HEADING}"]
            heading = []
        elif value["type"] == "change":
            lines.append(f"change {value['change']} altered {value['altered']}")
            lines += [] if "--count" in words or "--test" in words else heading
        else:
            lines += TEXTS[value["type"]](value)
    return lines


def accepted(value):
    return [f"accepted {value['records']}"]


def refused(value):
    node = f" node {value['node']}" if "node" in value else ""
    about = f" line {value['line']}" if "line" in value else f" {value['about']}" if "about" in value else ""
    return [f"refused {value['rule']}{node}{about}"]


def count(value):
    return [
        f"image {value['image']} gone {value['gone']} came {value['came']} changed {value['changed']} same {value['same']}"
    ]


def place(value):
    css, mif = value["image"].split(".")
    return f"{css}   {mif}  {value['set']}   {value['number']}"


def row(value, seen):
    return f"{place(value)} {seen['device']} {seen['pim']}  {seen['pam']} " + "".join(f" {it}" for it in seen["paths"])


def subchannel(value):
    return [row(value, value)]


def altered(value):
    before, after = value["before"], value["after"]
    if before == after:
        return [f"= {row(value, before) if before else place(value)}"]
    return [f"{sign} {row(value, seen)}" for sign, seen in (("-", before), ("+", after)) if seen]


TEXTS = {it.__name__: it for it in (accepted, refused, count, subchannel, altered)}


def faults_of_masks(value):
    """What is wrong with the lists of paths beside the masks of what is seen."""
    for seen in (value, value.get("before"), value.get("after")):
        if isinstance(seen, dict) and "pim" in seen:
            for mask, name in MASKS:
                bits = f"{int(seen[mask], 16):08b}"
                if seen[name] != [path for path, bit in zip(seen["paths"], bits) if bit == "1"]:
                    yield f"{name} of {seen}"
