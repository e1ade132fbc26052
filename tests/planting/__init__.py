"""What tests/mutants does: it reads the edits of crates/NAME/edits.txt, plants them,
has the kit check them, and judges what it says.

`edits` reads and writes the files, `places` finds the functions in which an edit lies, `trying` plants edits and
`lanes` runs the tries, `kit` calls the kit, `goals` and `verdicts` read what it says, and `examples` tries
definitions on the worked examples. `trials` tries all this on texts that are written down. `gives_up` has functions
give up. `examples` and it need the launcher's folder `building`.
"""
