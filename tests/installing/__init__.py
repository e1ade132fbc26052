"""Tries what ./install puts beside the program: `options` compares the pages with `--help`,
`trials` installs with a stand-in kit."""
