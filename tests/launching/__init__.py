"""Tries ./iocm with a stand-in for the kit.

`kit` is the stand-in: shell scripts that build a program which says from which source it was built. `trees` makes a
small tree with the launcher, and calls it. The others are trials: `building` of what is built and when, `waiting` of
calls at the same time and of calls that are ended, `proving` of proofs, `refusing` of what can't be built or kept.
"""
