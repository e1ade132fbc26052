"""What is right of `plan`: what a change does to images and devices, told before it is made."""
from typing import NamedTuple

from legality.machine import path_lists
from legality.records import DEVICE, IMAGE, LIMIT, PATH, UNIT

from .connected import leaves_effect, leaves_object, on_the_way
from .effects import effects_of, places_of
from .listed import Asked, drawn_filters, table_text
from .objects import SIGNS, objects_of, range_text, runs_of, told_run
from .offon import lines_of, paths_told, reasons_of

COLUMNS = ("IMAGE", "NAME", "GONE", "CAME", "CHANGED", "SAME", "LOST", "INTERRUPTED", "ONE-PATH", "OFF-ON")
COUNTED = ("gone", "came", "changed", "same", "lost", "interrupted", "onepath", "offon")
MARKS = (("lost", "lost"), ("interrupted", "interrupted"), ("onepath", "one path left"))
KINDS = {IMAGE: "image", LIMIT: "limit", PATH: "path", UNIT: "control unit", DEVICE: "device"}
CHANGES = (("add", "added"), ("delete", "deleted"), ("change", "changed"))
OFF_AND_ON = "On a real machine these may go off and on again, which no mask shows:"
MOST_EDITS, MOST_LISTED, TELLS = 4096, 8, 4


class Plan(NamedTuple):
    """Two configurations, and what filters leave of the objects and effects of which something is told."""

    old: dict
    new: dict
    objects: list
    effects: list
    is_filtered: bool

    @property
    def images(self):
        return places_of(IMAGE, self.old, self.new)

    @property
    def affected(self):
        return sorted({it.image for it in self.effects if it.affects})

    def name(self, image):
        """An image with its name after, that before of one that is deleted."""
        key = (IMAGE, *image)
        return f"{place_text(image)} {(self.new.get(key) or self.old[key]).name}"


def try_plan(case, old, new):
    """Tries the plan of two decks that were accepted and put, with filters; and that of one deck and itself."""
    asked, is_lost, is_brief = drawn_filters(case.dice, {**old, **new}), *(case.dice.random() < 0.2 for _ in "lb")
    words = [*asked.options(), *(["--lost"] if is_lost else []), *(["--brief"] if is_brief else [])]
    printed = case.run("plan", "old", "new", *words).out.decode("latin-1")
    plan = plan_of(old, new, asked, is_lost)
    case.agree("plan", printed, plan_text(plan, is_brief))
    told = case.run_only("plan", "old", "new", *words, "--exit-code")
    case.agree("told", told.status, TELLS if plan.objects or plan.affected else 0)
    case.agree("plan of itself", case.run("plan", "new", "new", "--brief").out, b"Plan: nothing differs.\n")


def try_plan_of_change(case, old, new, words):
    """Tries `apply --plan` of a change that was made."""
    printed = case.run("apply", *words, "--plan").out.decode("latin-1")
    case.agree("plan of change", printed, plan_text(plan_of(old, new), is_of_decks=False))


def plan_of(old, new, asked=Asked(), is_lost=False):
    """What is told of two configurations, as filters leave it."""
    effects = [it for it in effects_of(old, new) if leaves_effect(old, new, asked, it) and (it.lost or not is_lost)]
    objects = [it for it in objects_of(old, new) if leaves_object(old, new, asked, it.key)]
    if is_lost:
        ways = on_the_way(old, effects)
        objects = [it for it in objects if it.key in ways]
    return Plan(old, new, objects, effects, is_lost or any(asked))


def plan_text(plan, is_brief=False, is_of_decks=True):
    """The sections, with an empty line between."""
    told = "Plan, as filtered:" if plan.is_filtered else "Plan:"
    if not plan.objects and not plan.affected:
        return f"{told} {'nothing' if plan.is_filtered else 'nothing differs'}.\n"
    parts = (
        [] if is_brief else object_lines(plan),
        image_lines(plan),
        *([] if is_brief else blocks(plan)),
        off_and_on_lines(plan),
        notes(plan, is_of_decks),
        [summary(plan, told), counts(plan)],
    )
    return "\n".join("".join(f"{line.rstrip(' ')}\n" for line in part) for part in parts if part)


def object_lines(plan):
    return [object_line(run.first, run.name, told_run(run)) for run in runs_of(plan.objects)]


def object_line(first, name, fields):
    return f"{SIGNS[first.change]} {name:<26} {fields}"


# ---- images and devices


def place_text(image):
    return f"{image[0]}.{image[1]:X}"


def image_lines(plan):
    """The table of the images that are affected."""
    rows = []
    for image in plan.affected:
        own = [it for it in plan.effects if it.image == image]
        numbers = [str(sum(getattr(it, word) for it in own)) for word in COUNTED]
        rows.append((*plan.name(image).split(" "), *numbers))
    return table_text(COLUMNS, rows, COLUMNS[2:]).splitlines() if rows else []


def blocks(plan):
    """The rows of images, those with equal rows together."""
    rows, alike = {}, {}
    for it in plan.effects:
        if it.has_row:
            rows.setdefault(it.image, []).append(it)
    for image in sorted(rows):
        alike.setdefault(tuple(row_lines(rows[image])), []).append(image)
    return [[f"{images_text(plan, images)}:", *lines] for lines, images in alike.items()]


def row_lines(effects):
    runs = []
    for it in effects:
        number_set, number = it.device
        is_next = runs and runs[-1][-1].device == (number_set, number - 1) and alike(runs[-1][-1]) == alike(it)
        runs[-1].append(it) if is_next else runs.append([it])
    return [row_text(run) for run in runs]


def alike(effect):
    return effect.before, effect.after, effect.lost, effect.interrupted, effect.onepath, effect.offon


def row_text(run):
    first, sides = run[0], []
    sign = "-" if first.gone else "+" if first.came else "~" if first.changed else "="
    for seen in (first.before, None if sign == "=" else first.after):
        if seen is not None:
            sides.append(" ".join(path_text(seen, path) for path in seen.paths))
    marks = ", ".join(text for word, text in MARKS if getattr(first, word))
    name = range_text([it.device for it in run])
    return f"{sign} {name:<19} {' -> '.join(sides)}" + (f"  {marks}" if marks else "")


def path_text(seen, path):
    form = "{:02X}" if path in seen.online else "({:02X})" if path in seen.installed else "[{:02X}]"
    return form.format(path)


def images_text(plan, images):
    """Images by place and name, or by ranges of places where there are many."""
    if len(images) <= MOST_LISTED:
        return ", ".join(plan.name(image) for image in images)
    if len(images) == len(plan.images):
        return f"all {len(images)} images"
    ranges = []
    for css, mif in images:
        if ranges and ranges[-1][-1] == (css, mif - 1):
            ranges[-1].append((css, mif))
        else:
            ranges.append([(css, mif)])
    texts = ["-".join(place_text(it) for it in (run[:1] + run[1:][-1:])) for run in ranges]
    return f"{len(images)} images ({', '.join(texts)})"


# ---- off and on


def off_and_on_lines(plan):
    lines = []
    for line in lines_of(plan.objects, reasons_of(plan.old, plan.new, plan.effects)):
        first, more = line.runs[0], f" and {len(line.runs) - 1} more" if len(line.runs) > 1 else ""
        devices = len({it.device for it in line.reasons})
        lines.append(object_line(first.first, f"{first.name}{more}", line.fields))
        images = images_text(plan, sorted({it.image for it in line.reasons}))
        lines.append(f"    {paths_told(line.reasons)} of {counted(devices, 'device')} in {images}")
    return [OFF_AND_ON, *lines] if lines else []


# ---- notes and summary


def counted(number, word):
    return f"{number:,} {word}{'' if number == 1 else 's'}"


def notes(plan, is_of_decks):
    is_limited = any(it.key[0] == LIMIT for it in plan.objects)
    first = ["note: a real machine takes MAXDEV at its next power-on reset"] if is_limited else []
    return first + (notes_of_decks(plan.old, plan.new) if is_of_decks else [])


def notes_of_decks(old, new):
    lines, edits = [], sum(old.get(key) != new.get(key) for key in old.keys() | new.keys())
    if edits > MOST_EDITS:
        lines.append(
            f"note: {edits:,} edits, and a change deck has 4,096 at most (C2): go by way of a deck between the two"
        )
    taken = path_lists(old).keys() | path_lists(new).keys()
    for _, css, number_set in sorted(key for key in new if key[0] == LIMIT):
        if new[LIMIT, css, number_set] < sum(place[:2] == (css, number_set) for place in taken):
            lines.append(
                f"note: MAXDEV of set {number_set} in channel subsystem {css} is less than the devices of the set"
                " before and after: on a running machine one that stays may have too high a number (V13)"
            )
    return lines


def summary(plan, told):
    texts = []
    for verb, change in CHANGES:
        kinds = [it.key[0] for it in plan.objects if it.change == change]
        parts = [kind_text(kind, kinds.count(kind)) for kind in sorted(set(kinds))]
        texts.append(f"{verb} {len(kinds):,}" + (f" ({', '.join(parts)})" if parts else ""))
    return f"{told} {', '.join(texts)}."


def kind_text(kind, number):
    return counted(number, KINDS[kind]) if kind in KINDS else ("id", "resource")[kind]


def counts(plan):
    """Each device counts once, whatever the number of images."""
    number = {word: f"{len({it.device for it in plan.effects if getattr(it, word)}):,}" for word in COUNTED}
    return (
        f"Images: {len(plan.affected)} of {len(plan.images)} affected. "
        f"Devices: {number['gone']} gone, {number['came']} came, {number['changed']} changed; "
        f"{number['lost']} lost, {number['interrupted']} interrupted, {number['onepath']} with one path left, "
        f"{number['offon']} off and on."
    )
