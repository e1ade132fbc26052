"""Hostile trials of the built program: each call to the system refused in turn, odd files, limits, other tools.

`parts.py` lists the parts, `running.py` runs a command, `right.py` says which answers are right.
"""
