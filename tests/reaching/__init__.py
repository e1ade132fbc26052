"""What tests/unreached knows: the functions of a source, and which of them are called from where."""
