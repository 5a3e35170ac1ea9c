"""Predictions of recorded guests."""
