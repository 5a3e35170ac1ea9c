"""Traces into other forms, and other forms into traces."""
