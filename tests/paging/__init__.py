"""What pages say of the sources: tests/pages begins here."""
