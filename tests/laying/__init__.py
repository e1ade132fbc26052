"""What tests/layout does: `files` finds the sources and has `rattle fmt` look at them, `trials` tries that."""
