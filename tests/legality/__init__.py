"""An independent reading of decks, change decks, scripts and histories, written from docs/ and never from the
program's sources.

`cards`, `operands`, `values`, `records` and `changes` read files. `machine`, `rules` and `trees` are a
configuration, its views and how it changes. `orders` and `histories` are calls and their answers, `printed` their
texts. `scripts` reads a script, `search` looks for an order of a round's lines in which the answers come just so,
and `drawn` draws machines, changes and scripts.
"""
