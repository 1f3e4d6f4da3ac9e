"""What scripts/shorten is made of."""
