"""Live records of subchannels, and what orders and events on one do."""
from typing import NamedTuple

BUSY = ("start pending", "start active", "halt", "clear")
BITS = {"start": 1, "halt": 2, "clear": 4}
STATUS = 8


class Live(NamedTuple):
    """Whether it is enabled, its logical-path mask, its parameter, and what is in progress or pending there."""

    enabled: int
    lpm: int
    parm: int
    phase: str  # idle, one of BUSY, or a function with `status` behind it


def fresh(pim):
    return Live(0, pim, 0, "idle")


def with_lpm(live, lpm):
    return live._replace(lpm=lpm)


def is_quiet(live):
    """Nothing in progress, nothing pending; so is a subchannel that isn't there."""
    return live is None or live.phase == "idle"


def is_pending(live):
    return live.phase.endswith(" status")


def is_busy(live):
    return live.phase in BUSY


def bits_of(phase):
    """The status bits: 1 start, 2 halt, 4 clear, and 8 where status is pending."""
    function = phase.split(" ")[0]
    return 0 if phase == "idle" else BITS[function] + (STATUS if phase.endswith("status") else 0)


def code_of(live, view, order):
    """The condition code of an order: 3 is tried before 1, and 1 before 2."""
    needs_enabled = order not in ("modify", "store")
    if view is None or (needs_enabled and not live.enabled) or (order == "start" and not live.lpm & view.pam):
        return 3
    if order == "test":
        return 0 if is_pending(live) else 1
    if order in ("clear", "store"):
        return 0
    if is_pending(live):
        return 1
    if order == "cancel":
        return 0 if live.phase == "start pending" else 2
    if order == "halt":
        return 2 if live.phase in ("halt", "clear") else 0
    return 2 if is_busy(live) else 0


def after_order(live, order, operands):
    """The live record after an order with condition code 0."""
    if order == "modify":
        enabled, lpm, parm = operands
        return live._replace(enabled=enabled, lpm=lpm, parm=parm)
    phases = {"start": "start pending", "halt": "halt", "clear": "clear", "test": "idle", "cancel": "idle"}
    return live._replace(phase=phases.get(order, live.phase))


def stored(live, view):
    return (
        f"cc 0 dev {view.device:04X} pim {view.pim:02X} pam {view.pam:02X} lpm {live.lpm:02X} ena {live.enabled}"
        f" parm {live.parm:08X} scsw {bits_of(live.phase):X}"
    )


def ordered(live, view, order, operands):
    """The answer to an order, as it is printed, and the live record afterwards."""
    code = code_of(live, view, order)
    if code:
        return f"cc {code}", live
    answers = {"test": lambda: f"cc 0 scsw {bits_of(live.phase):X}", "store": lambda: stored(live, view)}
    return answers.get(order, lambda: "cc 0")(), after_order(live, order, operands)


def begun(live, view):
    """A device begin: a pending start becomes active."""
    if view is not None and live.phase == "start pending":
        return "active", live._replace(phase="start active")
    return "nothing", live


def ended(live, view):
    """A device end: what is in progress becomes its status."""
    if view is not None and is_busy(live):
        return "ended", live._replace(phase=live.phase.split(" ")[0] + " status")
    return "nothing", live


def stepped(live, view, command, operands):
    """The answer to a line of an image, as it is printed, and the live record afterwards."""
    if command == "active":
        return begun(live, view)
    if command == "end":
        return ended(live, view)
    return ordered(live, view, command, operands)
