"""What is right of `vary`: the change deck that takes paths of a deck offline for images, or online."""
from legality.records import IMAGE, ONLINE, ONLINE_RECORD, PATH

from .readings import edits_of


def try_vary(case, records):
    """Tries words of paths, and of images, on a deck that was accepted and put."""
    state = case.dice.choice(("offline", "online"))
    words = [drawn_path(case.dice, records) for _ in range(case.dice.choice((1, 1, 2, 4)))]
    names, options = drawn_images(case.dice, records)
    answer = case.run("vary", "deck", state, *words, *options)
    got = [(edit.action, edit.key, edit.record) for edit in edits_of(answer.out)]
    case.agree("vary", got, [edit for word in range(len(words)) for edit in edits(state, records, words, word, names)])


def drawn_path(dice, records):
    """The word of a path that is there, mostly, of one channel subsystem or of every one."""
    keys = sorted(key for key in records if key[0] == PATH)
    css, number = dice.choice(keys)[1:] if keys and dice.random() < 0.9 else (dice.randrange(6), dice.randrange(256))
    return f"{css}.{number:02X}" if dice.random() < 0.6 else f"{number:02X}"


def drawn_images(dice, records):
    """Which image of a channel subsystem is asked for, by its name and css, and the options that say so."""
    images = sorted((key, record.name) for key, record in records.items() if key[0] == IMAGE)
    if not images or dice.random() < 0.5:
        return lambda css, name: True, ()
    asked = dice.sample(images, min(len(images), dice.choice((1, 2))))
    by_place = dice.random() < 0.5
    options = [f"{key[1]}.{key[2]:X}" if by_place else name for key, name in asked]
    meant = {(key[1], name) if by_place else name for key, name in asked}
    return lambda css, name: ((css, name) if by_place else name) in meant, [it for o in options for it in ("--image", o)]


def means(word, css, number):
    """Whether a word means a path."""
    own, point, rest = word.partition(".")
    return int(rest if point else own, 16) == number and (not point or int(own) == css)


def edits(state, records, words, place, wanted):
    """What is done for one of the words: a path that a word before it means comes there."""
    for kind, *key in sorted(key for key in records if key[0] == PATH):
        if not means(words[place], *key) or any(means(word, *key) for word in words[:place]):
            continue
        for name in sorted(set(records[kind, *key].names)):
            pair = (ONLINE, *key, name)
            if wanted(key[0], name) and (pair in records) == (state == "offline"):
                yield ("delete", pair, None) if state == "offline" else ("add", pair, ONLINE_RECORD)
