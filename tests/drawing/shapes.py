"""The forms of what is printed: refusals, tables, reports, decks and change decks, answers of scripts."""
import re

HEADING = "CSS IM SET SUBC DEVN PIM PAM CHPIDS"
NAME = r"[A-Z][A-Z0-9]{0,7}"
IMAGE, LIMIT, PATH = r"image [0-5]\.[1-9A-F]", r"limit [0-5]\.[0-3]", r"path [0-5]\.[0-9A-F]{2}"
UNIT, DEVICE = "unit [0-9A-F]{4}", r"device [0-3]\.[0-9A-F]{4}"
ONLINE = rf"online [0-5]\.[0-9A-F]{{2}}\.{NAME}"
KEY = "|".join(("id", "resource", IMAGE, LIMIT, PATH, UNIT, DEVICE, ONLINE))
SUBCHANNEL = r"[0-5]\.[1-9A-F]\.[0-3]\.[0-9A-F]{4}"
NODE = r" node \d+"
KEY_OF_RULE = {"1": IMAGE, "2": PATH, "3": PATH, "4": ONLINE, "5": UNIT, "6": UNIT, "7": UNIT, "14": UNIT}
KEY_OF_RULE |= {str(rule): DEVICE for rule in range(8, 14)}
OF_TEXT = r"(?:L[1-4]|S[1-9]|S10|K[1-3]|C1|C2) line [1-9]\d*"
OF_DECK = "|".join(rf"V{rule} (?:{key})" for rule, key in KEY_OF_RULE.items() if rule != "4")
OF_NODE = "|".join(rf"V{rule}{NODE} (?:{key})" for rule, key in KEY_OF_RULE.items())
OF_EDIT = rf"E[12]{NODE} (?:{KEY})|E3{NODE}"
REFUSED = {
    "check": rf"refused (?:{OF_TEXT}|{OF_DECK})",
    "apply": rf"refused (?:{OF_TEXT}|{OF_DECK}|{OF_NODE}|{OF_EDIT}|M1)",
    "run": rf"refused (?:{OF_TEXT}|{OF_DECK}|M1)",
}
REFUSED |= {command: REFUSED["check"] for command in ("show", "list", "write", "diff", "plan", "vary")}
REFUSED = {command: re.compile(text + "\n") for command, text in REFUSED.items()}
# answers of operators: a change of the script is refused by its node, an undo by a change or a subchannel
OF_CALL = rf"refused (?:{OF_NODE}|{OF_EDIT}|B1(?:{NODE})? subchannel {SUBCHANNEL}|J[13]|J2 change \d+|O[12]|M1)"
STORED = r"cc 0 dev [0-9A-F]{4} pim [0-9A-F]{2} pam [0-9A-F]{2} lpm [0-9A-F]{2} ena [01] parm [0-9A-F]{8} scsw [0-9A-F]"
OF_IMAGE = rf"cc [0-3]|cc 0 scsw [0-9A-F]|{STORED}|held|active|ended|nothing"
COUNTED = r"(?:change|staged|left|undone|redone) \d+|aborted|records \d+ subchannels \d+ standing \d+ undone \d+"
ANSWER = rf"\d+ (?:{OF_CALL}|{OF_IMAGE}|{COUNTED})"
ROW = r"[0-5]   [1-9A-F]  [0-3]   [0-9A-F]{4} [0-9A-F]{4} [0-9A-F]{2}  [0-9A-F]{2}  [0-9A-F]{2}(?: [0-9A-F]{2}){0,7}"
TABLE = rf"{HEADING}\n(?:{ROW}\n)*"
DECK_LINE = r"(?: {9}(?:ID|(?:ID|RESOURCE|CHPID|CNTLUNIT|IODEVICE) [ -~]*)| {15}[ -~]+)\n"
REMARK = rf"\* path [0-5]\.[0-9A-F]{{2}} (?:is|isn't) online to {NAME}\n"
VERB = "(?:ADD {6}|DELETE {3}|MODIFY {3})"
EDIT = rf"{VERB}(?:ID|RESOURCE|CHPID|CNTLUNIT|IODEVICE|ONLINE)(?: [ -~]*)?"
CHANGE_LINE = rf"(?:{EDIT}| {{9}}(?:ROW|GROUP|CHOOSE|END)| {{15}}[ -~]+)\n"
NUMBERED = rf"\* css [0-5] {DEVICE} had number [0-9A-F]{{4}}\n"
LIVED = rf"\* subchannel {SUBCHANNEL} had lpm [0-9A-F]{{2}} ena [01] parm [0-9A-F]{{8}} scsw [0-9A-F]\n"
ALTERED = rf"(?:[-+=] {ROW}|= [0-5]   [1-9A-F]  [0-3]   [0-9A-F]{{4}})\n"
COUNTS = r"image [0-5]\.[1-9A-F] gone \d+ came \d+ changed \d+ same \d+\n"
HEAD = r"change 1 altered \d+\n"
PLAN = r"(?:[ -~]*\n)*Plan(?:, as filtered)?: (?:nothing[ a-z]*\.\n|add [ -~]*\.\nImages: [ -~]*\.\n)"
DONE = {
    "check": r"accepted \d+\n",
    "show": TABLE,
    "list": r"(?:IMAGE|CHPID|CU|DEVICE)  [ -~]*\n(?:[0-9A-F][ -~]*[^ ]\n)*",
    "write": rf"(?:{DECK_LINE})*",
    "diff": rf"(?:{CHANGE_LINE})*",
    "diff --old": rf"(?:{CHANGE_LINE}|\*[ -~]*\n)*",
    "plan": PLAN,
    "vary": rf"(?:{CHANGE_LINE})*",
    "apply": HEAD + TABLE,
    "apply --plan": PLAN,
    "apply --test": HEAD,
    "apply --count": rf"{HEAD}(?:{COUNTS})*",
    "apply --altered": rf"{HEAD}  {HEADING}\n(?:{ALTERED})*",
    "apply --deck": rf"(?:{DECK_LINE})*(?:{REMARK})*",
    "apply --undo": rf"(?:{CHANGE_LINE})*(?:{NUMBERED}|{LIVED})*",
    "run": rf"(?:{ANSWER}\n)*trace \d+\n{TABLE}",
}
DONE = {command: re.compile(text) for command, text in DONE.items()}
# V4 is the first breach of no deck, but a deck may break it beside V3
BREACHES = re.compile(rf"(?:refused (?:{OF_DECK}|V4 {ONLINE})\n)+")
REPORTS = ("--test", "--count", "--altered", "--deck", "--plan", "--undo", "--old")


# what standard error says beside what was done
BESIDE = {
    "check": r".*: \d+ images?, \d+ paths?, \d+ control units?, \d+ devices?\n",
    "diff": r"(no|\d+) edits?\b.*\n",
    "show": r"(note: there is no .*\n)*",
    "list": r"(note: there is no .*\n)*",
    "plan": r"(note: there is no .*\n)*",
    "vary": r"(note: there is no .*\n)*",
}


def kind_of(words):
    """The command and its report."""
    return " ".join([words[0]] + [word for word in words if word in REPORTS])


def fault_of_form(answer):
    """What is wrong with the form of an answer that has the status 0 or 1, or nothing."""
    text, command = answer.out.decode("latin-1"), answer.words[0]
    if answer.status == 0:
        return "" if DONE[kind_of(answer.words)].fullmatch(text) else f"the form of what was done: {text[:300]!r}"
    if REFUSED[command].fullmatch(text):
        return ""
    if "--all" in answer.words and BREACHES.fullmatch(text):
        return ""
    return f"the form of a refusal: {text[:300]!r}"


def fault_of_remark(answer):
    """What is wrong with what is said on standard error: a refusal is explained there, unless it is to be quiet, and
    of what was done there is what its command says beside it."""
    said, line = answer.said.decode("latin-1"), answer.line()
    if "--quiet" in answer.words or answer.status == 0:
        form = "" if "--quiet" in answer.words else BESIDE.get(answer.words[0], "")
        return "" if re.fullmatch(form, said) else f"standard error: {said[:300]!r}"
    rule = line.split(" ")[1]
    wanted = [f" ({rule})\n", f"\n  see: iocm explain {rule}\n"]
    place = re.match(r"refused \w+ line (\d+)", line)
    wanted += [f", line {place[1]}: "] if place else []
    missing = [text for text in wanted if text not in said]
    return f"standard error says no {missing[0]!r}: {said[:300]!r}" if missing else ""


def rows_of(text):
    """The rows of a table, below its heading."""
    return text.split(HEADING + "\n", 1)[1].splitlines()
