"""Makes what other programs read from the files and texts of a network: a matrix, a graph, tidy tables."""
