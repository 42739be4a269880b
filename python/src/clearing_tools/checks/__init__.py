"""Says all that is wrong with files or with a command line, with a hint for each."""
