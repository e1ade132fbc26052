"""What tests/all runs, and how: `parts` is the table, `program` says which program is tried,
`running` runs parts, `trials` tries that, and `rooms` runs trials."""
