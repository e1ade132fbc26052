"""The lines that the program prints, but for the answers of orders."""
from .records import key_text

HEADING = "CSS IM SET SUBC DEVN PIM PAM CHPIDS"


def subchannel_text(subchannel):
    return "%d.%X.%d.%04X" % subchannel


def about_text(rule, about):
    """What a refusal is about: a change, a subchannel or a key."""
    if about is None:
        return ""
    if isinstance(about, int):
        return f" change {about}"
    return f" subchannel {subchannel_text(about)}" if rule == "B1" else f" {key_text(about)}"


def breach_text(breach):
    """The rule of a deck that is broken, and the record that breaks it."""
    return f"{breach[0]} {key_text(breach[1])}"


def refusal_text(refused):
    node = "" if refused.node is None else f" node {refused.node}"
    return f"refused {refused.rule}{node}{about_text(refused.rule, refused.about)}"


def table_of(views):
    """The table of some views, in the order of subchannels."""
    lines = [HEADING]
    for (css, mif, number_set, number), view in sorted(views.items()):
        paths = " ".join(f"{path:02X}" for path in view.paths)
        name = f"{css:<3} {mif:<2X} {number_set:<3} {number:04X}"
        lines.append(f"{name} {view.device:04X} {view.pim:02X}  {view.pam:02X}  {paths}")
    return lines
