"""Schedules that empty a host."""
