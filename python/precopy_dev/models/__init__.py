"""Models in Python of what precopy-view answers, written from the definitions."""
