"""A service that records all guests of a host, and predicts their migrations."""
