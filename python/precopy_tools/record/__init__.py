"""Recording the memory of a running guest."""
