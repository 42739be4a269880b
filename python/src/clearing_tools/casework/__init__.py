"""Cases: what they are, side by side, many of them, and whether an answer stands."""
