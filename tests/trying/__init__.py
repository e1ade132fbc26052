"""Trials of tests/trials: how a crate is made of them, and how they are run where memory is refused."""
