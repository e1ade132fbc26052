# The stand-in for rt needs no library.
