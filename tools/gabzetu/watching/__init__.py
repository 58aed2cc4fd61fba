"""What a real network does wrong, as far as a capture shows it: `gabzetu watch`."""
