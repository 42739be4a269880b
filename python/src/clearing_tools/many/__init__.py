"""Many jobs of the program: their words and results, the processes that run them, and the command."""
