"""Builds the program that ./iocm runs, and keeps it: launcher.py is where to begin."""
