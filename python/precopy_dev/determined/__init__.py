"""What the contracts of public calls determine, read from the sources."""
