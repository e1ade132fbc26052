"""What tests/run knows: how the program is called and its answer compared, and cases of one line each."""
