"""What tests/dead-lemmas does: `declared` finds the declarations of proofs and definitions and which of them nothing
cites, `removing` takes such lemmas out with their comments and imports."""
