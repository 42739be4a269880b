"""One page to hand over on a network."""
