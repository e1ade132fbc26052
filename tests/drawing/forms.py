"""Texts of values, in every form that means the same."""


def hexadecimal(dice, number, digits):
    """A number, with its leading zeros or without some."""
    least = len(f"{number:X}")
    return f"{number:0{dice.choice((digits, digits, dice.randint(least, max(least, digits))))}X}"


def decimal(dice, number):
    """A decimal number, now and then with leading zeros."""
    return "0" * dice.choice((0, 0, 0, 0, 1, 3)) + str(number)


def css_word(dice, css):
    return f"CSS({decimal(dice, css)})"


def listed(items):
    return f"({','.join(items)})"


def one_or_list(dice, items):
    """One item bare or as a list, several as a list."""
    return items[0] if len(items) == 1 and dice.random() < 0.5 else listed(items)


def by_css(dice, groups):
    """A list by channel subsystem: groups in any order, cut in two at times, one alone, or items alone for 0."""
    if len(groups) == 1 and dice.random() < 0.5:
        css, items = groups[0]
        if css == 0 and dice.random() < 0.5:
            return listed(items)
        return listed([css_word(dice, css), *items])
    pieces = []
    for css, items in groups:
        place = dice.randint(1, len(items) - 1) if len(items) > 1 and dice.random() < 0.15 else len(items)
        pieces.append([(css, part) for part in (items[:place], items[place:]) if part])
    merged = merged_in_order(dice, pieces)
    return listed([listed([css_word(dice, css), *items]) for css, items in merged])


def merged_in_order(dice, pieces):
    """All parts, in an order in which those of one piece keep theirs."""
    if dice.random() < 0.6:
        return [part for piece in pieces for part in piece]
    left, merged = [list(piece) for piece in pieces], []
    while any(left):
        piece = dice.choice([piece for piece in left if piece])
        merged.append(piece.pop(0))
    return merged


def shuffled(dice, items):
    items = list(items)
    dice.shuffle(items)
    return items


def names_list(dice, names):
    """Names as a set: in any order, one twice at times; 0 or (0) for none."""
    if not names:
        return dice.choice(("0", "(0)"))
    items = shuffled(dice, names)
    if dice.random() < 0.1:
        items.append(dice.choice(items))
    return one_or_list(dice, items)


def both_lists(dice, access, candidates):
    """The access list and the candidate list, so that they aren't read as one list of names."""
    first, second = names_list(dice, access), names_list(dice, candidates)
    if access == candidates and dice.random() < 0.5:
        second = dice.choice(("=", "(=)"))
    if not any(item.startswith("(") or item in ("0", "=") for item in (first, second)):
        first = listed([first])
    return [first, second]


def path_lists(dice, path, names, is_change):
    """The texts of a path's PARTITION operand that mean its lists: items of it, or None where it may be left out.
    `names` are those of the path's channel subsystem; in a change deck defaults aren't looked up there."""
    default = names if path.kind != "dedicated" else path.access
    if not (is_change and path.kind != "dedicated"):
        whole = names if path.kind == "shared" else ()
        if path.access == path.candidates == whole and dice.random() < 0.5:
            return None
        if path.candidates == default and dice.random() < 0.5:
            if path.access and dice.random() < 0.5:
                return shuffled(dice, path.access)
            text = names_list(dice, path.access)
            return [text if text.startswith("(") or text == "0" else listed([text])]
    return both_lists(dice, path.access, path.candidates)


def path_partition(dice, css, path, names, is_change):
    """SHARED, REC and PARTITION of a CHPID."""
    items, words = path_lists(dice, path, names, is_change), []
    if path.kind == "shared":
        words.append("SHARED")
    if path.kind == "rec":
        if items is None or dice.random() < 0.4:
            words.append("REC")
        else:
            items = items + ["REC"]
    if items is None:
        return words
    text = listed(items)
    if dice.random() < 0.2:
        text = listed([css_word(dice, css), *items])
        text = listed([text]) if dice.random() < 0.5 else text
    return words + [f"PARTITION={text}"]


def path_place(dice, css, number):
    """PATH of a CHPID or an ONLINE."""
    digits = hexadecimal(dice, number, 2)
    forms = [f"({css_word(dice, css)},{digits})", f"(({css_word(dice, css)},{digits}))"]
    if css == 0:
        forms += [digits, listed([digits]), listed([listed([digits])])]
    return dice.choice(forms[:1] * 2 + forms)


def ranges(dice, pairs):
    """UNITADD of a control unit."""
    texts = []
    for start, count in pairs:
        text = f"({hexadecimal(dice, start, 2)},{decimal(dice, count)})"
        digits = hexadecimal(dice, start, 2)
        texts.append(dice.choice((digits, listed([digits]), text)) if count == 1 else text)
    if len(texts) == 1 and dice.random() < 0.5:
        return texts[0]
    if not texts[0].startswith("("):
        texts[0] = listed([texts[0]])
    return listed(texts)


def candidates(dice, names, css_of):
    """PARTITION of a device: names, lists and subsystems, nested at will. `css_of` gives that of a name."""
    if not names:
        return dice.choice(("0", "0", "(0)", "((0),0)"))
    items = [nested(dice, name) for name in shuffled(dice, names)]
    if dice.random() < 0.2:
        return listed([listed([css_word(dice, css_of(name)), item]) for name, item in zip(names, items)])
    if dice.random() < 0.1:
        items.insert(0, css_word(dice, dice.randrange(6)))
    return one_or_list(dice, items) if not items[0].startswith("CSS(") else listed(items)


def nested(dice, text):
    while dice.random() < 0.1:
        text = listed([text])
    return text
