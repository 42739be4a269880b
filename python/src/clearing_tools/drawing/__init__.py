"""Pictures of a network and of what was paid in it."""
