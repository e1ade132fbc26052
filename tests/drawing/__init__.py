"""Draws decks, change decks and scripts, runs the program on them, and says whether what it answers is right.

What is drawn: `machines` draws machines that keep the rules, `breaches` breaks one rule of one. `statements` writes a
machine down, with values in the `forms` that mean the same, and `cards` lays statements on cards. `faults` plants a
fault of the text, `odd` draws odd values of one operand, `mutations` spoils bytes and lines. `edits` and `trees` draw
change decks, `scripts` draws scripts, and `kinds` says how often each comes.

What counts as right: `canonical` writes a machine as `write` must. `readings` and `places` ask the reading of
tests/legality, which has its own generator and knows nothing of the program. `shapes` has the forms of what is printed.
`decks`, `filters`, `applied`, `differences`, `played` and `words` try the properties.

`running` runs the program, `cases` gathers what is found of one case, `tally` counts, and `command` has the options and
the processes. `standins` are programs that are wrong in just one way, on which `trials` tries all this.
"""
